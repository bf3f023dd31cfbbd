# A processor and a DMA engine that share one memory: the DMA engine has two shares of it, the processor one.
package require -exact qsys 16.0
create_system turns
add_instance clk_0 clock_source
add_instance cpu_0 cpu
add_instance dma_0 dma
add_instance ram_0 ram
add_connection clk_0.clk cpu_0.clk clock
add_connection clk_0.clk dma_0.clk clock
add_connection clk_0.clk ram_0.clk clock
add_connection cpu_0.data ram_0.s avalon
set_connection_parameter_value cpu_0.data/ram_0.s arbitrationPriority {1}
add_connection dma_0.m ram_0.s avalon
set_connection_parameter_value dma_0.m/ram_0.s arbitrationPriority {2}
