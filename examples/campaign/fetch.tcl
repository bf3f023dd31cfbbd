# a processor's port for code: it reads words of 32 bits
package require -exact qsys 16.0
set_module_property NAME fetch
add_interface clk clock end
add_interface_port clk clk clk Input 1
add_interface code avalon start
set_interface_property code associatedClock clk
add_interface_port code c_address address Output 12
add_interface_port code c_read read Output 1
add_interface_port code c_waitrequest waitrequest Input 1
add_interface_port code c_readdata readdata Input 32
add_interface_port code c_readdatavalid readdatavalid Input 1
