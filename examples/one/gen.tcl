package require -exact qsys 16.0
set_module_property NAME gen
add_interface out avalon_streaming start
add_interface_port out o_ready ready Input 1
add_interface_port out o_valid valid Output 1
add_interface_port out o_data data Output 8
add_interface_port out o_sop startofpacket Output 1
add_interface_port out o_eop endofpacket Output 1
