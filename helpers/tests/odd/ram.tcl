set_module_property NAME ram
add_interface clk clock end
add_interface_port clk clk clk Input 1
add_interface reset reset end
add_interface_port reset reset reset Input 1
add_interface s avalon agent
set_interface_property s associatedClock clk
add_interface_port s a address Input 6
add_interface_port s r read Input 1
add_interface_port s d readdata Output 32
add_interface irq interrupt end
add_interface_port irq irq_n irq_n Output 1
