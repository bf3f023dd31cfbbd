# A camera that sends a pixel of 8 bits in each beat, and a packet for each line.
package require -exact qsys 16.0

set_module_property NAME camera
set_module_property DISPLAY_NAME "Video camera"

# clock and reset
add_interface clk clock end
add_interface_port clk clk clk Input 1

add_interface reset reset end
set_interface_property reset associatedClock clk
add_interface_port reset reset reset Input 1

add_interface pixels avalon_streaming start
set_interface_property pixels associatedClock clk
set_interface_property pixels associatedReset reset
# a pipeline of two registers stands between ready and valid
set_interface_property pixels readyLatency 2
add_interface_port pixels p_ready ready Input 1
add_interface_port pixels p_valid valid Output 1
add_interface_port pixels p_data data Output 8
add_interface_port pixels p_first startofpacket Output 1
add_interface_port pixels p_last endofpacket Output 1
