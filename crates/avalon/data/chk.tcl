set_module_property NAME chk
add_interface st avalon_streaming end
add_interface_port st i_ready ready Output 1
add_interface_port st i_valid valid Input 1
add_interface_port st i_data data Input 8
add_interface_port st i_sop startofpacket Input 1
add_interface_port st i_eop endofpacket Input 1
