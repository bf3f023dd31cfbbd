# a host that writes four words to each memory and reads them back
package require -exact qsys 16.0
set_module_property NAME cpu
add_interface clk clock end
add_interface_port clk clk clk Input 1
add_interface reset reset end
set_interface_property reset associatedClock clk
add_interface_port reset reset reset Input 1
add_interface data avalon start
set_interface_property data associatedClock clk
set_interface_property data associatedReset reset
add_interface_port data d_address address Output 9
add_interface_port data d_read read Output 1
add_interface_port data d_write write Output 1
add_interface_port data d_writedata writedata Output 32
add_interface_port data d_waitrequest waitrequest Input 1
add_interface_port data d_readdata readdata Input 32
add_interface told conduit end
add_interface_port told done done Output 1
add_interface_port told good good Output 1
