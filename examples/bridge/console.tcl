# the end of a serial port or of JTAG: a host that reads and writes words of 32 bits, or some bytes of them
set_module_property NAME console
add_interface clk clock end
add_interface_port clk clk clk Input 1
add_interface m avalon start
set_interface_property m associatedClock clk
set_interface_property m addressUnits SYMBOLS
add_interface_port m m_address address Output 12
add_interface_port m m_read read Output 1
add_interface_port m m_write write Output 1
add_interface_port m m_writedata writedata Output 32
add_interface_port m m_byteenable byteenable Output 4
add_interface_port m m_readdata readdata Input 32
add_interface_port m m_readdatavalid readdatavalid Input 1
add_interface_port m m_waitrequest waitrequest Input 1
