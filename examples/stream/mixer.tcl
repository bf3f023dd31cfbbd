package require -exact qsys 16.0
set_module_property NAME mixer
add_interface in avalon_streaming end
# beats on channels 4 to 7 never come; the port mixer$in$dropped of the module shows each
set_interface_property in maxChannel 3
add_interface_port in m_ready ready Output 1
add_interface_port in m_valid valid Input 1
add_interface_port in m_data data Input 8
add_interface_port in m_channel channel Input 2
