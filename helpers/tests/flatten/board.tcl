# written by flatten.tcl from board_hw.tcl
package require -exact qsys 16.0
create_system board
set_project_property DEVICE_FAMILY {Cyclone V}
add_instance clk_0 clock_source 16.0
set_instance_parameter_value clk_0 clockFrequency 50000000.0
add_instance cpu cpu 1.0
add_instance ram ram 1.0
add_connection clk_0.clk cpu.clk
add_connection clk_0.clk_reset cpu.reset
add_connection clk_0.clk ram.clk
add_connection clk_0.clk_reset ram.reset
add_connection cpu.data ram.s1
set_connection_parameter_value cpu.data/ram.s1 baseAddress 0x1000
add_interface clk conduit end
set_interface_property clk EXPORT_OF clk_0.clk_in
add_interface reset conduit end
set_interface_property reset EXPORT_OF clk_0.clk_in_reset
set_interface_property clk someOther 1
save_system board.qsys
