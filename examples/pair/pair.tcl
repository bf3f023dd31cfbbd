# A processor with two memories, and a second host with a memory of its own.
create_system pair

add_instance cpu master
add_instance code memory
add_instance data memory
add_connection cpu.h code.a
add_connection cpu.h data.a
set_connection_parameter_value cpu.h/data.a baseAddress 0x100

add_instance dma master
add_instance buffer memory
add_connection dma.h buffer.a
set_connection_parameter_value dma.h/buffer.a baseAddress 0x200
