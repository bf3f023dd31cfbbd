package require -exact qsys 16.0
create_system {desk}
set_project_property DEVICE_FAMILY {Cyclone V}
add_instance clk_0 clock_source 16.0
set_instance_parameter_value clk_0 {clockFrequency} {50000000.0}
add_instance cpu cpu
add_instance ram ram
add_instance timer timer
add_instance uart uart
add_connection clk_0.clk cpu.clk clock
add_connection clk_0.clk ram.clk clock
add_connection cpu.instruction ram.s1 avalon
add_connection cpu.data ram.s1 avalon
add_connection cpu.data timer.s1 avalon
set_connection_parameter_value cpu.data/timer.s1 baseAddress {0x00010000}
add_connection cpu.data uart.s1 avalon
set_connection_parameter_value cpu.data/uart.s1 baseAddress {0x00010020}
add_connection cpu.irq timer.irq interrupt
set_connection_parameter_value cpu.irq/timer.irq irqNumber {0}
set_interconnect_requirement {$system} {qsys_mm.maxAdditionalLatency} {1}
save_system {desk.qsys}
