set_module_property NAME memory
add_interface a avalon agent
add_interface_port a a_address address Input 6
add_interface_port a a_read read Input 1
add_interface_port a a_write write Input 1
add_interface_port a a_writedata writedata Input 32
add_interface_port a a_byteenable byteenable Input 4
add_interface_port a a_waitrequest waitrequest Output 1
add_interface_port a a_readdata readdata Output 32
add_interface_port a a_readdatavalid readdatavalid Output 1
set_interface_property a maximumPendingReadTransactions 4
