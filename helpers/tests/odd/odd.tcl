# What top levels meet at their edges: clocks and resets that components make, two clock sources, a keyword as a name, conduits that are joined,
# exported and idle interfaces, interrupts that are low when active, and names of ports by roles that come twice
create_system odd
add_instance clk_0 clock_source
add_instance clk_1 clock_source
add_instance pll pll
add_instance reg cpu
add_instance ram_0 ram
add_instance ram_1 ram
add_instance video video
add_connection clk_0.clk pll.refclk clock
add_connection clk_0.clk_reset pll.reset reset
add_connection pll.outclk reg.clk clock
add_connection pll.outclk ram_0.clk clock
add_connection pll.locked reg.reset reset
add_connection clk_0.clk_reset reg.reset reset
add_connection pll.locked ram_0.reset reset
add_connection clk_1.clk video.clk clock
add_connection clk_1.clk_reset video.reset reset
add_connection clk_0.clk ram_1.clk clock
add_connection reg.m ram_0.s avalon
add_connection reg.irq ram_0.irq interrupt
set_connection_parameter_value reg.irq/ram_0.irq irqNumber {3}
add_connection reg.irq video.irq interrupt
set_connection_parameter_value reg.irq/video.irq irqNumber {1}
add_connection video.sync reg.sync conduit
add_interface pins conduit end
set_interface_property pins EXPORT_OF video.pins
add_interface memory avalon end
set_interface_property memory EXPORT_OF ram_1.s
add_interface twice conduit end
set_interface_property twice EXPORT_OF reg.twice
set_instance_parameter_value reg NAME {boot "rom"}
set_instance_parameter_value reg BASE {0xf0000000}
set_instance_parameter_value reg FAST {true}
