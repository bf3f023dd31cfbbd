create_system board
add_instance clk clock_source
add_instance console console
add_instance ram ram
add_instance leds leds
add_connection clk.clk console.clk
add_connection clk.clk ram.clk
add_connection clk.clk leds.clk
add_connection console.m ram.s
add_connection console.m leds.s
set_connection_parameter_value console.m/ram.s baseAddress 0x000
set_connection_parameter_value console.m/leds.s baseAddress 0x400
