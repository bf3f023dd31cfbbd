# a sink that takes a beat in one cycle or more, then stalls
package require -exact qsys 16.0
set_module_property NAME display
add_interface clk clock end
add_interface_port clk clk clk Input 1
add_interface reset reset end
set_interface_property reset associatedClock clk
add_interface_port reset reset reset Input 1
add_interface in avalon_streaming end
set_interface_property in associatedClock clk
set_interface_property in associatedReset reset
set_interface_property in dataBitsPerSymbol 8
add_interface_port in d_ready ready Output 1
add_interface_port in d_valid valid Input 1
add_interface_port in d_data data Input 8
# the number that is shown goes to pins
add_interface shown conduit end
add_interface_port shown shown export Output 8
