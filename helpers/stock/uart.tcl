# written by flatten.tcl from uart_hw.tcl
package require -exact qsys 16.0
set_module_property NAME altera_avalon_uart
add_interface clk clock sink
add_interface_port clk clk clk Input 1
add_interface reset reset sink
set_interface_property reset associatedClock clk
add_interface_port reset reset_n reset_n Input 1
add_interface s1 avalon slave
set_interface_property s1 associatedClock clk
set_interface_property s1 associatedReset reset
set_interface_property s1 readWaitTime 1
set_interface_property s1 writeWaitTime 1
add_interface_port s1 address address Input 3
#top begins begintransfer s1
#top chipselect = s1$read | s1$write
add_interface_port s1 read_n read Input 1
#top read_n = ~s1$read
add_interface_port s1 write_n write Input 1
#top write_n = ~s1$write
add_interface_port s1 writedata writedata Input 32
#top writedata = s1$writedata[15:0]
add_interface_port s1 readdata readdata Output 32
#top output readdata 16
#top s1$readdata = {16'd0, readdata}
#top open dataavailable
#top open readyfordata
add_interface external_connection conduit end
add_interface_port external_connection rxd rxd Input 1
add_interface_port external_connection txd txd Output 1
add_interface irq interrupt end
set_interface_property irq associatedAddressablePoint s1
add_interface_port irq irq irq Output 1
