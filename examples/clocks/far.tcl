# the far end of a bridge: a host that does one command after the other
package require -exact qsys 16.0
set_module_property NAME far
add_interface clk clock end
add_interface_port clk clk clk Input 1
add_interface reset reset end
set_interface_property reset associatedClock clk
add_interface_port reset reset reset Input 1
add_interface m avalon start
set_interface_property m associatedClock clk
set_interface_property m associatedReset reset
add_interface_port m m_address address Output 8
add_interface_port m m_read read Output 1
add_interface_port m m_write write Output 1
add_interface_port m m_writedata writedata Output 32
add_interface_port m m_byteenable byteenable Output 4
add_interface_port m m_waitrequest waitrequest Input 1
add_interface_port m m_readdata readdata Input 32
add_interface across conduit end
add_interface_port across a_ask ask Input 1
add_interface_port across a_write write Input 1
add_interface_port across a_address address Input 6
add_interface_port across a_writedata writedata Input 32
add_interface_port across a_byteenable byteenable Input 4
add_interface_port across a_done done Output 1
add_interface_port across a_readdata readdata Output 32
