# an agent as older scripts state it: kinds with a side, a clock behind the direction, all signals active when low, data of 24 bits
package require -exact qsys 9.1
set_module_property NAME older
set_module_property VALIDATION_CALLBACK validate
set_module_property ELABORATION_CALLBACK elaborate
add_parameter WORDS INTEGER 200
add_parameter ADDRESS_BITS INTEGER 1
set_parameter_property ADDRESS_BITS DERIVED true
add_interface clk clock_sink end
add_interface_port clk clk clk Input 1
add_interface reset reset_sink end
add_interface_port reset reset_n reset_n Input 1
add_interface s avalon_slave end clk
add_interface_port s s_address address Input ADDRESS_BITS
add_interface_port s s_read_n read_n Input 1
add_interface_port s s_write_n write_n Input 1
add_interface_port s s_writedata writedata Input 24
add_interface_port s s_readdata readdata Output 24
add_interface_port s s_waitrequest_n waitrequest_n Output 1
add_interface_port s s_readdatavalid_n readdatavalid_n Output 1
add_interface_port s s_select_n chipselect_n Input 1
add_interface_port s s_lock lock Input 1
add_interface pins conduit_end end
add_interface_port pins pins export Output WORDS
set_port_property pins WIDTH_EXPR {ceil(WORDS / 8.0)}
add_interface extra nios_custom_instruction slave
add_interface_port extra extra_a dataa Input 32
add_interface_port extra extra_r result Output 32
proc validate {} {
    set bits 0
    while {(1 << $bits) < [get_parameter_value WORDS]} { incr bits }
    set_parameter_value ADDRESS_BITS $bits
}
proc elaborate {} {
    foreach port [get_interface_ports s] { set_port_property $port VHDL_TYPE STD_LOGIC_VECTOR }
    set_interface_property s maximumPendingReadTransactions [expr {[get_parameter_value WORDS] > 100 ? 4 : 2}]
}
