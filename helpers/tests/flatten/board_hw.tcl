# a system as some versions export it, within a proc
package require -exact qsys 16.0
proc do_create_board {} {
    create_system board
    set_project_property DEVICE_FAMILY {Cyclone V}
    add_instance clk_0 clock_source 16.0
    set_instance_parameter_value clk_0 {clockFrequency} {50000000.0}
    foreach name {cpu ram} { add_instance $name $name 1.0 }
    foreach name {cpu ram} {
        add_connection clk_0.clk $name.clk
        add_connection clk_0.clk_reset $name.reset
    }
    add_connection cpu.data ram.s1
    set_connection_parameter_value cpu.data/ram.s1 baseAddress [format {0x%04x} 0x1000]
    set_interface_property clk EXPORT_OF clk_0.clk_in
    set_interface_property reset EXPORT_OF clk_0.clk_in_reset
    set_interface_property clk someOther 1
    sync_sysinfo_parameters
    save_system board.qsys
}
do_create_board
