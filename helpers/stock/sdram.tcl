# written by flatten.tcl from sdram_hw.tcl
package require -exact qsys 16.0
set_module_property NAME altera_avalon_new_sdram_controller
add_interface clk clock sink
add_interface_port clk clk clk Input 1
add_interface reset reset sink
set_interface_property reset associatedClock clk
add_interface_port reset reset_n reset_n Input 1
add_interface s1 avalon slave
set_interface_property s1 associatedClock clk
set_interface_property s1 associatedReset reset
set_interface_property s1 isMemoryDevice true
set_interface_property s1 maximumPendingReadTransactions 7
add_interface_port s1 az_addr address Input 22
add_interface_port s1 az_be_n byteenable Input 2
#top az_be_n = ~s1$byteenable
#top az_cs = s1$read | s1$write
add_interface_port s1 az_data writedata Input 16
add_interface_port s1 az_rd_n read Input 1
#top az_rd_n = ~s1$read
add_interface_port s1 az_wr_n write Input 1
#top az_wr_n = ~s1$write
add_interface_port s1 za_data readdata Output 16
add_interface_port s1 za_valid readdatavalid Output 1
add_interface_port s1 za_waitrequest waitrequest Output 1
add_interface wire conduit end
add_interface_port wire zs_addr addr Output 12
add_interface_port wire zs_ba ba Output 2
add_interface_port wire zs_cas_n cas_n Output 1
add_interface_port wire zs_cke cke Output 1
add_interface_port wire zs_cs_n cs_n Output 1
add_interface_port wire zs_dq dq Bidir 16
add_interface_port wire zs_dqm dqm Output 2
add_interface_port wire zs_ras_n ras_n Output 1
add_interface_port wire zs_we_n we_n Output 1
