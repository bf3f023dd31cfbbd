# Takes the lines of a picture and writes them to a memory, in bursts of up to 16 words.
package require -exact qsys 16.0

set_module_property NAME writer
set_module_property DISPLAY_NAME "Video writer"

# clock and reset
add_interface clk clock end
add_interface_port clk clk clk Input 1

add_interface reset reset end
set_interface_property reset associatedClock clk
add_interface_port reset reset reset Input 1

# eight pixels in each beat
add_interface pixels avalon_streaming end
set_interface_property pixels associatedClock clk
set_interface_property pixels associatedReset reset
set_interface_property pixels dataBitsPerSymbol 8
add_interface_port pixels p_ready ready Output 1
add_interface_port pixels p_valid valid Input 1
add_interface_port pixels p_data data Input 64
add_interface_port pixels p_first startofpacket Input 1
add_interface_port pixels p_last endofpacket Input 1
add_interface_port pixels p_empty empty Input 3

# writes alone; five bits count up to 16 words
add_interface frame avalon start
set_interface_property frame associatedClock clk
set_interface_property frame associatedReset reset
add_interface_port frame f_address address Output 16
add_interface_port frame f_write write Output 1
add_interface_port frame f_writedata writedata Output 64
add_interface_port frame f_burstcount burstcount Output 5
add_interface_port frame f_waitrequest waitrequest Input 1

# where the picture goes: four registers of 32 bits
add_interface control avalon end
set_interface_property control associatedClock clk
set_interface_property control associatedReset reset
set_interface_property control readLatency 1
set_interface_property control readWaitTime 0
add_interface_port control c_address address Input 2
add_interface_port control c_read read Input 1
add_interface_port control c_write write Input 1
add_interface_port control c_writedata writedata Input 32
add_interface_port control c_readdata readdata Output 32

# a picture is complete
add_interface irq interrupt end
set_interface_property irq associatedClock clk
set_interface_property irq associatedReset reset
set_interface_property irq associatedAddressablePoint control
add_interface_port irq irq irq Output 1
