# written by flatten.tcl from jtag_uart_hw.tcl
package require -exact qsys 16.0
set_module_property NAME altera_avalon_jtag_uart
add_interface clk clock end
add_interface_port clk clk clk Input 1
add_interface reset reset end
set_interface_property reset associatedClock clk
add_interface_port reset rst_n reset_n Input 1
add_interface avalon_jtag_slave avalon end
set_interface_property avalon_jtag_slave associatedClock clk
set_interface_property avalon_jtag_slave associatedReset reset
#top av_chipselect = avalon_jtag_slave$read | avalon_jtag_slave$write
add_interface_port avalon_jtag_slave av_address address Input 1
add_interface_port avalon_jtag_slave av_read_n read Input 1
#top av_read_n = ~avalon_jtag_slave$read
add_interface_port avalon_jtag_slave av_readdata readdata Output 32
add_interface_port avalon_jtag_slave av_write_n write Input 1
#top av_write_n = ~avalon_jtag_slave$write
add_interface_port avalon_jtag_slave av_writedata writedata Input 32
add_interface_port avalon_jtag_slave av_waitrequest waitrequest Output 1
add_interface irq interrupt end
set_interface_property irq associatedAddressablePoint avalon_jtag_slave
add_interface_port irq av_irq irq Output 1
