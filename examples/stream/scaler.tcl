package require -exact qsys 16.0
set_module_property NAME scaler
add_interface pixels avalon_streaming end
add_interface_port pixels s_ready ready Output 1
add_interface_port pixels s_valid valid Input 1
add_interface_port pixels s_data data Input 8
add_interface_port pixels s_first startofpacket Input 1
add_interface_port pixels s_last endofpacket Input 1
