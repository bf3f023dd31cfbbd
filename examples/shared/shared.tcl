# Two processors' stand-ins that share one memory: the second has three shares of it, the first one.
package require -exact qsys 16.0
create_system shared
add_instance clk_0 clock_source
add_instance cpu_0 cpu
set_instance_parameter_value cpu_0 PLACE {0x00}
set_instance_parameter_value cpu_0 FIRST {0x10}
add_instance cpu_1 cpu
set_instance_parameter_value cpu_1 PLACE {0x40}
set_instance_parameter_value cpu_1 FIRST {0x20}
add_instance ram_0 ram
add_connection clk_0.clk cpu_0.clk clock
add_connection clk_0.clk cpu_1.clk clock
add_connection clk_0.clk ram_0.clk clock
add_connection clk_0.clk_reset cpu_0.reset reset
add_connection clk_0.clk_reset cpu_1.reset reset
add_connection clk_0.clk_reset ram_0.reset reset
add_connection cpu_0.data ram_0.s avalon
set_connection_parameter_value cpu_0.data/ram_0.s arbitrationPriority {1}
add_connection cpu_1.data ram_0.s avalon
set_connection_parameter_value cpu_1.data/ram_0.s arbitrationPriority {3}
add_interface first conduit end
set_interface_property first EXPORT_OF cpu_0.told
add_interface second conduit end
set_interface_property second EXPORT_OF cpu_1.told
