# a source of pixels of 8 bits; a packet is a line of the picture
package require -exact qsys 16.0
set_module_property NAME camera
add_interface clk clock end
add_interface_port clk clk clk Input 1
add_interface out avalon_streaming start
set_interface_property out associatedClock clk
set_interface_property out dataBitsPerSymbol 8
add_interface_port out c_ready ready Input 1
add_interface_port out c_valid valid Output 1
add_interface_port out c_data data Output 8
add_interface_port out c_first startofpacket Output 1
add_interface_port out c_last endofpacket Output 1
