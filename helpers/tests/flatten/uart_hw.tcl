# a serial port of 16-bit registers, which is told when a transfer begins
package require -exact qsys 16.0
set_module_property NAME altera_avalon_uart
set_module_property ELABORATION_CALLBACK elaborate
add_parameter useEopRegister BOOLEAN false
add_parameter useCtsRts BOOLEAN false
add_interface clk clock sink
add_interface_port clk clk clk Input 1
add_interface reset reset sink
set_interface_property reset associatedClock clk
add_interface_port reset reset_n reset_n Input 1
proc ports {interface rows} {
    foreach {port role direction width} $rows { add_interface_port $interface $port $role $direction $width }
}
proc elaborate {} {
    add_interface s1 avalon slave
    set_interface_property s1 addressAlignment NATIVE
    set_interface_property s1 associatedClock clk
    set_interface_property s1 associatedReset reset
    set_interface_property s1 readWaitTime 1
    set_interface_property s1 writeWaitTime 1
    ports s1 {address address Input 3 begintransfer begintransfer Input 1 chipselect chipselect Input 1 read_n read_n Input 1 write_n write_n Input 1
        writedata writedata Input 16 readdata readdata Output 16 dataavailable dataavailable Output 1 readyfordata readyfordata Output 1}
    add_interface external_connection conduit end
    ports external_connection {rxd rxd Input 1 txd txd Output 1}
    if {[get_parameter_value useCtsRts]} { ports external_connection {cts_n cts_n Input 1 rts_n rts_n Output 1} }
    add_interface irq interrupt sender
    set_interface_property irq associatedAddressablePoint s1
    ports irq {irq irq Output 1}
}
