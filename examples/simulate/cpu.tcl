# a processor's data port: it reads and writes words of 32 bits, lane by lane
package require -exact qsys 16.0
set_module_property NAME cpu
add_interface clk clock end
add_interface_port clk clk clk Input 1
add_interface data avalon start
set_interface_property data associatedClock clk
add_interface_port data d_address address Output 12
add_interface_port data d_read read Output 1
add_interface_port data d_write write Output 1
add_interface_port data d_writedata writedata Output 32
add_interface_port data d_byteenable byteenable Output 4
add_interface_port data d_waitrequest waitrequest Input 1
add_interface_port data d_readdata readdata Input 32
add_interface_port data d_readdatavalid readdatavalid Input 1
