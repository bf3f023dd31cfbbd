# 1,024 words of 32 bits that are only read. It may let a command wait, and answers one read before it takes the next
package require -exact qsys 16.0
set_module_property NAME flash
add_interface clk clock end
add_interface_port clk clk clk Input 1
add_interface s avalon end
set_interface_property s associatedClock clk
set_interface_property s maximumPendingReadTransactions 1
add_interface_port s s_address address Input 10
add_interface_port s s_read read Input 1
add_interface_port s s_waitrequest waitrequest Output 1
add_interface_port s s_readdata readdata Output 32
add_interface_port s s_readdatavalid readdatavalid Output 1
