# 1 KiB of memory, a word of which comes a cycle after it is asked for
set_module_property NAME ram
add_interface clk clock end
add_interface_port clk clk clk Input 1
add_interface s avalon end
set_interface_property s associatedClock clk
set_interface_property s readLatency 1
set_interface_property s readWaitTime 0
add_interface_port s s_address address Input 8
add_interface_port s s_read read Input 1
add_interface_port s s_write write Input 1
add_interface_port s s_writedata writedata Input 32
add_interface_port s s_byteenable byteenable Input 4
add_interface_port s s_readdata readdata Output 32
