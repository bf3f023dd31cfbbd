# one register whose lowest byte goes to pins; it takes a write in the second cycle
package require -exact qsys 16.0
set_module_property NAME port
add_interface clk clock end
add_interface_port clk clk clk Input 1
add_interface reset reset end
set_interface_property reset associatedClock clk
add_interface_port reset reset reset Input 1
add_interface s avalon end
set_interface_property s associatedClock clk
set_interface_property s associatedReset reset
add_interface_port s s_address address Input 1
add_interface_port s s_read read Input 1
add_interface_port s s_write write Input 1
add_interface_port s s_writedata writedata Input 32
add_interface_port s s_byteenable byteenable Input 4
add_interface_port s s_waitrequest waitrequest Output 1
add_interface_port s s_readdata readdata Output 32
add_interface_port s s_readdatavalid readdatavalid Output 1
add_interface pins conduit end
add_interface_port pins pins export Output 8
