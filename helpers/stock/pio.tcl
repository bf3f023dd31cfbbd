# written by flatten.tcl from pio_hw.tcl width=8 direction=InOut
package require -exact qsys 16.0
set_module_property NAME altera_avalon_pio
add_interface clk clock sink
add_interface_port clk clk clk Input 1
add_interface reset reset sink
set_interface_property reset associatedClock clk
add_interface_port reset reset_n reset_n Input 1
add_interface s1 avalon slave
set_interface_property s1 associatedClock clk
set_interface_property s1 associatedReset reset
add_interface_port s1 address address Input 2
add_interface_port s1 write_n write Input 1
#top write_n = ~s1$write
add_interface_port s1 writedata writedata Input 32
#top chipselect = s1$read | s1$write
add_interface_port s1 readdata_read read Input 1
#top without readdata_read
add_interface_port s1 readdata readdata Output 32
add_interface external_connection conduit end
add_interface_port external_connection in_port in_port Input 8
add_interface_port external_connection out_port out_port Output 8
