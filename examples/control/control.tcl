# A processor's stand-in that reaches a memory, a slow flash and a port by address.
package require -exact qsys 16.0
create_system control
add_instance clk_0 clock_source
add_instance cpu_0 cpu
add_instance ram_0 ram
add_instance flash_0 flash
add_instance port_0 port
add_connection clk_0.clk cpu_0.clk clock
add_connection clk_0.clk ram_0.clk clock
add_connection clk_0.clk flash_0.clk clock
add_connection clk_0.clk port_0.clk clock
add_connection clk_0.clk_reset cpu_0.reset reset
add_connection clk_0.clk_reset ram_0.reset reset
add_connection clk_0.clk_reset flash_0.reset reset
add_connection clk_0.clk_reset port_0.reset reset
add_connection cpu_0.data ram_0.s avalon
set_connection_parameter_value cpu_0.data/ram_0.s baseAddress {0x0000}
add_connection cpu_0.data flash_0.s avalon
set_connection_parameter_value cpu_0.data/flash_0.s baseAddress {0x1000}
add_connection cpu_0.data port_0.s avalon
set_connection_parameter_value cpu_0.data/port_0.s baseAddress {0x2000}
add_interface told conduit end
set_interface_property told EXPORT_OF cpu_0.told
add_interface pins conduit end
set_interface_property pins EXPORT_OF port_0.pins
