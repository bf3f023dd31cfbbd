# A processor's stand-in with its memory, and beside them a counter whose numbers a display shows.
package require -exact qsys 16.0
create_system board
add_instance clk_0 clock_source
add_instance master_0 master
add_instance memory_0 memory
set_instance_parameter_value memory_0 ADDRESS_BITS {6}
add_instance counter_0 counter
add_instance display_0 display
add_connection clk_0.clk master_0.clk clock
add_connection clk_0.clk memory_0.clk clock
add_connection clk_0.clk counter_0.clk clock
add_connection clk_0.clk display_0.clk clock
add_connection clk_0.clk_reset master_0.reset reset
add_connection clk_0.clk_reset memory_0.reset reset
add_connection clk_0.clk_reset counter_0.reset reset
add_connection clk_0.clk_reset display_0.reset reset
add_connection master_0.h memory_0.a avalon
set_connection_parameter_value master_0.h/memory_0.a baseAddress {0x0000}
add_connection counter_0.out display_0.in avalon_streaming
set_connection_parameter_value counter_0.out/display_0.in fifoDepth {2}
add_interface told conduit end
set_interface_property told EXPORT_OF master_0.told
add_interface shown conduit end
set_interface_property shown EXPORT_OF display_0.shown
