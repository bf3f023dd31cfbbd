package require -exact qsys 16.0
set_module_property NAME framer
add_interface samples avalon_streaming end
set_interface_property samples dataBitsPerSymbol 8
add_interface_port samples f_ready ready Output 1
add_interface_port samples f_valid valid Input 1
add_interface_port samples f_data data Input 32
add_interface_port samples f_first startofpacket Input 1
add_interface_port samples f_last endofpacket Input 1
add_interface_port samples f_empty empty Input 2
add_interface_port samples f_error error Input 1
