package require -exact qsys 16.0
set_module_property NAME camera
add_interface pixels avalon_streaming start
# a pipeline of two registers stands between ready and valid
set_interface_property pixels readyLatency 2
add_interface_port pixels p_ready ready Input 1
add_interface_port pixels p_valid valid Output 1
add_interface_port pixels p_data data Output 8
add_interface_port pixels p_first startofpacket Output 1
add_interface_port pixels p_last endofpacket Output 1
