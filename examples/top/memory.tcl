# written by flatten.tcl from memory_hw.tcl ADDRESS_BITS=6
package require -exact qsys 16.0
set_module_property NAME memory
add_parameter ADDRESS_BITS INTEGER 6
set_parameter_property ADDRESS_BITS HDL_PARAMETER true
add_interface clk clock end
add_interface_port clk clk clk Input 1
add_interface reset reset end
set_interface_property reset associatedClock clk
add_interface_port reset reset reset Input 1
add_interface a avalon end
set_interface_property a associatedClock clk
set_interface_property a associatedReset reset
set_interface_property a maximumPendingReadTransactions 2
add_interface_port a a_address address Input 6
add_interface_port a a_read read Input 1
add_interface_port a a_write write Input 1
add_interface_port a a_writedata writedata Input 32
add_interface_port a a_byteenable byteenable Input 4
add_interface_port a a_waitrequest waitrequest Output 1
add_interface_port a a_readdata readdata Output 32
add_interface_port a a_readdatavalid readdatavalid Output 1
