# written by flatten.tcl from reader_hw.tcl DATA_WIDTH=64 MAX_BURST=16
package require -exact qsys 16.0
set_module_property NAME reader
add_fileset synthesis QUARTUS_SYNTH {}
set_fileset_property synthesis TOP_LEVEL reader_core
add_parameter DATA_WIDTH INTEGER 64
set_parameter_property DATA_WIDTH HDL_PARAMETER true
add_parameter MAX_BURST INTEGER 16
set_parameter_property MAX_BURST HDL_PARAMETER true
add_interface clk clock end
add_interface_port clk clk clk Input 1
add_interface reset reset end
set_interface_property reset associatedClock clk
add_interface_port reset reset reset Input 1
add_interface m avalon start
set_interface_property m associatedClock clk
set_interface_property m associatedReset reset
set_interface_property m doStreamReads false
add_interface_port m m_address address Output 32
add_interface_port m m_read read Output 1
add_interface_port m m_burstcount burstcount Output 5
add_interface_port m m_waitrequest waitrequest Input 1
add_interface_port m m_readdata readdata Input 64
add_interface_port m m_readdatavalid readdatavalid Input 1
#top r_address = 2'd0
#top r_write = 1'd0
#top r_writedata = 32'd0
