package require -exact qsys 16.0
set_module_property NAME voices
add_interface out avalon_streaming start
set_interface_property out maxChannel 7
add_interface_port out v_ready ready Input 1
add_interface_port out v_valid valid Output 1
add_interface_port out v_data data Output 8
add_interface_port out v_channel channel Output 3
