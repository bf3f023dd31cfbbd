# a serial port over JTAG: two registers of 32 bits
package require -exact qsys 16.0
set_module_property NAME altera_avalon_jtag_uart
add_interface clk clock end
add_interface_port clk clk clk Input 1
add_interface reset reset end
set_interface_property reset associatedClock clk
add_interface_port reset rst_n reset_n Input 1
add_interface avalon_jtag_slave avalon end
set_interface_property avalon_jtag_slave addressAlignment NATIVE
set_interface_property avalon_jtag_slave associatedClock clk
set_interface_property avalon_jtag_slave associatedReset reset
set prefix av
foreach {role direction width} {chipselect Input 1 address Input 1 read_n Input 1 readdata Output 32 write_n Input 1 writedata Input 32 waitrequest Output 1} {
    add_interface_port avalon_jtag_slave ${prefix}_$role $role $direction $width
}
add_interface irq interrupt sender
set_interface_property irq associatedAddressablePoint avalon_jtag_slave
add_interface_port irq ${prefix}_irq irq Output 1
