# four registers of 8 bits
set_module_property NAME leds
add_interface clk clock end
add_interface_port clk clk clk Input 1
add_interface s avalon end
set_interface_property s associatedClock clk
set_interface_property s readWaitTime 1
add_interface_port s s_address address Input 2
add_interface_port s s_read read Input 1
add_interface_port s s_write write Input 1
add_interface_port s s_writedata writedata Input 8
add_interface_port s s_readdata readdata Output 8
