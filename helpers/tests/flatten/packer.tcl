# written by flatten.tcl from packer_hw.tcl SYMBOLS=4 CHANNELS=3
package require -exact qsys 16.0
set_module_property NAME packer
add_parameter SYMBOLS INTEGER 4
set_parameter_property SYMBOLS HDL_PARAMETER true
add_interface clk clock end
add_interface_port clk clk clk Input 1
add_interface reset reset end
set_interface_property reset associatedClock clk
add_interface_port reset reset reset Input 1
add_interface in avalon_streaming sink
set_interface_property in associatedClock clk
set_interface_property in associatedReset reset
set_interface_property in dataBitsPerSymbol 8
set_interface_property in maxChannel 2
add_interface_port in in_ready ready Output 1
add_interface_port in in_valid valid Input 1
add_interface_port in in_data data Input 32
add_interface_port in in_startofpacket startofpacket Input 1
add_interface_port in in_endofpacket endofpacket Input 1
add_interface_port in in_empty empty Input 2
add_interface_port in in_channel channel Input 2
#top in_error = 1'd0
add_interface out avalon_streaming source
set_interface_property out associatedClock clk
set_interface_property out associatedReset reset
set_interface_property out dataBitsPerSymbol 8
set_interface_property out maxChannel 2
add_interface_port out out_ready ready Input 1
add_interface_port out out_valid valid Output 1
add_interface_port out out_data data Output 32
add_interface_port out out_startofpacket startofpacket Output 1
add_interface_port out out_endofpacket endofpacket Output 1
add_interface_port out out_empty empty Output 2
add_interface_port out out_channel channel Output 2
#top open out_error
