# The slow half: the far end of the bridge, which is a host here, and a memory.
package require -exact qsys 16.0
create_system slow
add_instance clk_0 clock_source
add_instance far_0 far
add_instance ram_0 ram
add_connection clk_0.clk far_0.clk clock
add_connection clk_0.clk ram_0.clk clock
add_connection clk_0.clk_reset far_0.reset reset
add_connection clk_0.clk_reset ram_0.reset reset
add_connection far_0.m ram_0.s avalon
add_interface across conduit end
set_interface_property across EXPORT_OF far_0.across
