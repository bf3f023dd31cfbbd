# a host that works through a list of reads and writes, and an input of eight interrupts
package require -exact qsys 16.0
set_module_property NAME cpu
add_interface clk clock end
add_interface_port clk clk clk Input 1
add_interface reset reset end
set_interface_property reset associatedClock clk
add_interface_port reset reset_n reset_n Input 1
add_interface data avalon start
set_interface_property data associatedClock clk
set_interface_property data associatedReset reset
add_interface_port data d_address address Output 24
add_interface_port data d_read read Output 1
add_interface_port data d_write write Output 1
add_interface_port data d_writedata writedata Output 32
add_interface_port data d_byteenable byteenable Output 4
add_interface_port data d_waitrequest waitrequest Input 1
add_interface_port data d_readdata readdata Input 32
add_interface irq interrupt start
set_interface_property irq associatedAddressablePoint data
add_interface_port irq d_irq irq Input 8
add_interface told conduit end
add_interface_port told done done Output 1
add_interface_port told faults faults Output 8
