# a host whose widths are expressions over its parameters, and a register interface that is switched off
# flatten: DATA_WIDTH=64 MAX_BURST=16
package require -exact qsys 16.0
set_module_property NAME reader
add_fileset synthesis QUARTUS_SYNTH files reader_core
proc files {name} { add_fileset_file reader_core.v VERILOG PATH reader_core.v }
add_parameter DATA_WIDTH INTEGER 32
set_parameter_property DATA_WIDTH HDL_PARAMETER true
add_parameter MAX_BURST INTEGER 8
set_parameter_property MAX_BURST HDL_PARAMETER true
add_parameter HAS_REGISTERS BOOLEAN false
add_interface clk clock end
add_interface_port clk clk clk Input 1
add_interface reset reset end
set_interface_property reset associatedClock clk
add_interface_port reset reset reset Input 1
add_interface m avalon start
set_interface_property m associatedClock clk
set_interface_property m associatedReset reset
set_interface_property m doStreamReads false
set_interface_property m someNewerProperty 5
add_interface_port m m_address address Output 32
add_interface_port m m_read read Output 1
add_interface_port m m_burstcount burstcount Output WIDTH
set_port_property m_burstcount WIDTH_EXPR "log2(MAX_BURST) + 1"
add_interface_port m m_waitrequest waitrequest Input 1
add_interface_port m m_readdata readdata Input DATA_WIDTH
add_interface_port m m_readdatavalid readdatavalid Input 1
add_interface registers avalon end
set_interface_property registers associatedClock clk
add_interface_port registers r_address address Input 2
add_interface_port registers r_write write Input 1
add_interface_port registers r_writedata writedata Input 32
set_interface_property registers ENABLED [get_parameter_value HAS_REGISTERS]
