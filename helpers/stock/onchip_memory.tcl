# written by flatten.tcl from onchip_memory_hw.tcl memorySize=4096
package require -exact qsys 16.0
set_module_property NAME altera_avalon_onchip_memory2
add_interface clk1 clock sink
add_interface_port clk1 clk clk Input 1
add_interface s1 avalon slave
set_interface_property s1 associatedClock clk1
set_interface_property s1 associatedReset reset1
set_interface_property s1 isMemoryDevice true
set_interface_property s1 readLatency 1
set_interface_property s1 readWaitTime 0
add_interface_port s1 address address Input 10
#top clken = 1'b1
#top chipselect = s1$read | s1$write
add_interface_port s1 write write Input 1
add_interface_port s1 readdata_read read Input 1
#top without readdata_read
add_interface_port s1 readdata readdata Output 32
add_interface_port s1 writedata writedata Input 32
add_interface_port s1 byteenable byteenable Input 4
add_interface reset1 reset sink
set_interface_property reset1 associatedClock clk1
add_interface_port reset1 reset reset Input 1
