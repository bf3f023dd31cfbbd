# The fast half: a host with a memory of its own, and the near end of a bridge to the other clock.
package require -exact qsys 16.0
create_system fast
add_instance clk_0 clock_source
add_instance cpu_0 cpu
add_instance ram_0 ram
add_instance near_0 near
add_connection clk_0.clk cpu_0.clk clock
add_connection clk_0.clk ram_0.clk clock
add_connection clk_0.clk near_0.clk clock
add_connection clk_0.clk_reset cpu_0.reset reset
add_connection clk_0.clk_reset ram_0.reset reset
add_connection clk_0.clk_reset near_0.reset reset
add_connection cpu_0.data ram_0.s avalon
set_connection_parameter_value cpu_0.data/ram_0.s baseAddress {0x000}
add_connection cpu_0.data near_0.s avalon
set_connection_parameter_value cpu_0.data/near_0.s baseAddress {0x100}
add_interface told conduit end
set_interface_property told EXPORT_OF cpu_0.told
add_interface across conduit end
set_interface_property across EXPORT_OF near_0.across
