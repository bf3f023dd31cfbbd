# two words that are only read: a number of the system, and when it was made
package require -exact qsys 16.0
set_module_property NAME altera_avalon_sysid_qsys
proc input {interface port role} { add_interface_port $interface $port $role Input 1 }
add_interface clk clock end
input clk clock clk
add_interface reset reset end
set_interface_property reset associatedClock clk
input reset reset_n reset_n
add_interface control_slave avalon end
set_interface_property control_slave associatedClock clk
set_interface_property control_slave associatedReset reset
set_interface_property control_slave readWaitTime 1
input control_slave address address
add_interface_port control_slave readdata readdata Output 32
