# A host with a range of 1024 bytes. What no memory holds is read as 0.
package require -exact qsys 16.0
set_module_property NAME master

add_interface h avalon host
add_interface_port h h_address address Output 10
add_interface_port h h_read read Output 1
add_interface_port h h_write write Output 1
add_interface_port h h_writedata writedata Output 32
add_interface_port h h_byteenable byteenable Output 4
add_interface_port h h_waitrequest waitrequest Input 1
add_interface_port h h_readdata readdata Input 32
add_interface_port h h_readdatavalid readdatavalid Input 1
