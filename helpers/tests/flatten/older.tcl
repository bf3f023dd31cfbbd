# written by flatten.tcl from older_hw.tcl
package require -exact qsys 9.1
set_module_property NAME older
add_interface clk clock end
add_interface_port clk clk clk Input 1
add_interface reset reset end
add_interface_port reset reset_n reset_n Input 1
add_interface s avalon end
set_interface_property s associatedClock clk
set_interface_property s maximumPendingReadTransactions 4
add_interface_port s s_address address Input 8
add_interface_port s s_read_n read Input 1
#top s_read_n = ~s$read
add_interface_port s s_write_n write Input 1
#top s_write_n = ~s$write
add_interface_port s s_writedata writedata Input 32
#top s_writedata = s$writedata[23:0]
add_interface_port s s_readdata readdata Output 32
#top output s_readdata 24
#top s$readdata = {8'd0, s_readdata}
add_interface_port s s_waitrequest_n waitrequest Output 1
#top output s_waitrequest_n 1
#top s$waitrequest = ~s_waitrequest_n
add_interface_port s s_readdatavalid_n readdatavalid Output 1
#top output s_readdatavalid_n 1
#top s$readdatavalid = ~s_readdatavalid_n
#top s_select_n = ~(s$read | s$write)
#top s_lock = 1'b0
add_interface pins conduit end
add_interface_port pins pins export Output 25
#top extra_a = 32'd0
#top open extra_r
