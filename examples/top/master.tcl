# a host that writes four words, reads them back and says whether they are the same
package require -exact qsys 16.0
set_module_property NAME master
add_interface clk clock end
add_interface_port clk clk clk Input 1
add_interface reset reset end
set_interface_property reset associatedClock clk
add_interface_port reset reset reset Input 1
add_interface h avalon start
set_interface_property h associatedClock clk
set_interface_property h associatedReset reset
add_interface_port h h_address address Output 8
add_interface_port h h_read read Output 1
add_interface_port h h_write write Output 1
add_interface_port h h_writedata writedata Output 32
add_interface_port h h_byteenable byteenable Output 4
add_interface_port h h_waitrequest waitrequest Input 1
add_interface_port h h_readdata readdata Input 32
add_interface_port h h_readdatavalid readdatavalid Input 1
add_interface told conduit end
add_interface_port told done done Output 1
add_interface_port told good good Output 1
