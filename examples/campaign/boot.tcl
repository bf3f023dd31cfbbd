# Three processors that fetch code from one flash: the first has four shares of it, the others one each.
package require -exact qsys 16.0
create_system boot
add_instance clk_0 clock_source
add_instance fetch_0 fetch
add_instance fetch_1 fetch
add_instance fetch_2 fetch
add_instance flash_0 flash
add_connection clk_0.clk fetch_0.clk clock
add_connection clk_0.clk fetch_1.clk clock
add_connection clk_0.clk fetch_2.clk clock
add_connection clk_0.clk flash_0.clk clock
add_connection fetch_0.code flash_0.s avalon
set_connection_parameter_value fetch_0.code/flash_0.s arbitrationPriority {4}
add_connection fetch_1.code flash_0.s avalon
set_connection_parameter_value fetch_1.code/flash_0.s arbitrationPriority {1}
add_connection fetch_2.code flash_0.s avalon
set_connection_parameter_value fetch_2.code/flash_0.s arbitrationPriority {1}
