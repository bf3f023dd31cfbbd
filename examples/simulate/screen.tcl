# a sink of pixels that may stop at any time
package require -exact qsys 16.0
set_module_property NAME screen
add_interface clk clock end
add_interface_port clk clk clk Input 1
add_interface in avalon_streaming end
set_interface_property in associatedClock clk
set_interface_property in dataBitsPerSymbol 8
add_interface_port in s_ready ready Output 1
add_interface_port in s_valid valid Input 1
add_interface_port in s_data data Input 8
add_interface_port in s_first startofpacket Input 1
add_interface_port in s_last endofpacket Input 1
