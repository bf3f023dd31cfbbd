# A processor's stand-in with stock parts. Their own scripts compute, so the stand-ins of helpers/stock are read in their place.
package require -exact qsys 16.0
create_system stock
add_instance clk_0 clock_source
add_instance cpu_0 cpu
add_instance memory_0 altera_avalon_onchip_memory2
add_instance timer_0 altera_avalon_timer
add_instance uart_0 altera_avalon_uart
add_instance jtag_uart_0 altera_avalon_jtag_uart
add_instance pio_0 altera_avalon_pio
add_instance sysid_0 altera_avalon_sysid_qsys
add_instance sdram_0 altera_avalon_new_sdram_controller
add_connection clk_0.clk cpu_0.clk clock
add_connection clk_0.clk memory_0.clk1 clock
add_connection clk_0.clk timer_0.clk clock
add_connection clk_0.clk uart_0.clk clock
add_connection clk_0.clk jtag_uart_0.clk clock
add_connection clk_0.clk pio_0.clk clock
add_connection clk_0.clk sysid_0.clk clock
add_connection clk_0.clk sdram_0.clk clock
add_connection clk_0.clk_reset cpu_0.reset reset
add_connection clk_0.clk_reset memory_0.reset1 reset
add_connection clk_0.clk_reset timer_0.reset reset
add_connection clk_0.clk_reset uart_0.reset reset
add_connection clk_0.clk_reset jtag_uart_0.reset reset
add_connection clk_0.clk_reset pio_0.reset reset
add_connection clk_0.clk_reset sysid_0.reset reset
add_connection clk_0.clk_reset sdram_0.reset reset
add_connection cpu_0.data memory_0.s1 avalon
set_connection_parameter_value cpu_0.data/memory_0.s1 baseAddress {0x00000000}
add_connection cpu_0.data timer_0.s1 avalon
set_connection_parameter_value cpu_0.data/timer_0.s1 baseAddress {0x00001000}
add_connection cpu_0.data uart_0.s1 avalon
set_connection_parameter_value cpu_0.data/uart_0.s1 baseAddress {0x00001020}
add_connection cpu_0.data jtag_uart_0.avalon_jtag_slave avalon
set_connection_parameter_value cpu_0.data/jtag_uart_0.avalon_jtag_slave baseAddress {0x00001040}
add_connection cpu_0.data pio_0.s1 avalon
set_connection_parameter_value cpu_0.data/pio_0.s1 baseAddress {0x00001050}
add_connection cpu_0.data sysid_0.control_slave avalon
set_connection_parameter_value cpu_0.data/sysid_0.control_slave baseAddress {0x00001060}
add_connection cpu_0.data sdram_0.s1 avalon
set_connection_parameter_value cpu_0.data/sdram_0.s1 baseAddress {0x00800000}
add_connection cpu_0.irq timer_0.irq interrupt
set_connection_parameter_value cpu_0.irq/timer_0.irq irqNumber {0}
add_connection cpu_0.irq uart_0.irq interrupt
set_connection_parameter_value cpu_0.irq/uart_0.irq irqNumber {2}
add_connection cpu_0.irq jtag_uart_0.irq interrupt
set_connection_parameter_value cpu_0.irq/jtag_uart_0.irq irqNumber {5}
add_interface told conduit end
set_interface_property told EXPORT_OF cpu_0.told
add_interface pins conduit end
set_interface_property pins EXPORT_OF pio_0.external_connection
add_interface serial conduit end
set_interface_property serial EXPORT_OF uart_0.external_connection
add_interface dram conduit end
set_interface_property dram EXPORT_OF sdram_0.wire
