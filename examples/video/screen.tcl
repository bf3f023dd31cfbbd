# A screen that takes a pixel of 8 bits in each beat, and stops for a while behind each line.
package require -exact qsys 16.0

set_module_property NAME screen
set_module_property DISPLAY_NAME "Video screen"

# clock and reset
add_interface clk clock end
add_interface_port clk clk clk Input 1

add_interface reset reset end
set_interface_property reset associatedClock clk
add_interface_port reset reset reset Input 1

add_interface pixels avalon_streaming end
set_interface_property pixels associatedClock clk
set_interface_property pixels associatedReset reset
add_interface_port pixels p_ready ready Output 1
add_interface_port pixels p_valid valid Input 1
add_interface_port pixels p_data data Input 8
add_interface_port pixels p_first startofpacket Input 1
add_interface_port pixels p_last endofpacket Input 1
