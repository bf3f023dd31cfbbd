# a source that counts; it goes by the ready of two cycles before
package require -exact qsys 16.0
set_module_property NAME counter
add_interface clk clock end
add_interface_port clk clk clk Input 1
add_interface reset reset end
set_interface_property reset associatedClock clk
add_interface_port reset reset reset Input 1
add_interface out avalon_streaming start
set_interface_property out associatedClock clk
set_interface_property out associatedReset reset
set_interface_property out dataBitsPerSymbol 8
set_interface_property out readyLatency 2
add_interface_port out c_ready ready Input 1
add_interface_port out c_valid valid Output 1
add_interface_port out c_data data Output 8
