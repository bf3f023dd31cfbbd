# a DMA engine that writes words of 32 bits
package require -exact qsys 16.0
set_module_property NAME dma
add_interface clk clock end
add_interface_port clk clk clk Input 1
add_interface m avalon start
set_interface_property m associatedClock clk
add_interface_port m m_address address Output 12
add_interface_port m m_write write Output 1
add_interface_port m m_writedata writedata Output 32
add_interface_port m m_waitrequest waitrequest Input 1
