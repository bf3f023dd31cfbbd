# written by flatten.tcl from sysid_hw.tcl
package require -exact qsys 16.0
set_module_property NAME altera_avalon_sysid_qsys
add_interface clk clock end
add_interface_port clk clock clk Input 1
add_interface reset reset end
set_interface_property reset associatedClock clk
add_interface_port reset reset_n reset_n Input 1
add_interface control_slave avalon end
set_interface_property control_slave associatedClock clk
set_interface_property control_slave associatedReset reset
set_interface_property control_slave readWaitTime 1
add_interface_port control_slave address address Input 1
add_interface_port control_slave readdata_read read Input 1
#top without readdata_read
add_interface_port control_slave readdata readdata Output 32
