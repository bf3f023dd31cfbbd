create_system bus
add_instance m master
add_instance s memory
add_connection m.h s.a
