create_system one
add_instance gen gen
add_instance chk chk
add_connection gen.out chk.st
