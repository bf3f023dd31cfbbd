package require -exact qsys 16.0
set_module_property NAME tuner
add_interface samples avalon_streaming start
set_interface_property samples dataBitsPerSymbol 8
add_interface_port samples t_ready ready Input 1
add_interface_port samples t_valid valid Output 1
add_interface_port samples t_data data Output 24
add_interface_port samples t_first startofpacket Output 1
add_interface_port samples t_last endofpacket Output 1
add_interface_port samples t_empty empty Output 2
# a sample of the beat was out of range
add_interface_port samples t_error error Output 1
