# A small processor with one host for its instructions and its data.
package require -exact qsys 16.0

set_module_property NAME cpu
set_module_property DISPLAY_NAME "Video processor"

# clock and reset
add_interface clk clock end
add_interface_port clk clk clk Input 1

add_interface reset reset end
set_interface_property reset associatedClock clk
add_interface_port reset reset reset Input 1

# 32 bits at a time, and no bursts
add_interface data avalon start
set_interface_property data associatedClock clk
set_interface_property data associatedReset reset
add_interface_port data d_address address Output 17
add_interface_port data d_read read Output 1
add_interface_port data d_write write Output 1
add_interface_port data d_writedata writedata Output 32
add_interface_port data d_byteenable byteenable Output 4
add_interface_port data d_waitrequest waitrequest Input 1
add_interface_port data d_readdata readdata Input 32
add_interface_port data d_readdatavalid readdatavalid Input 1

# interrupts come in
add_interface irq interrupt start
set_interface_property irq associatedClock clk
set_interface_property irq associatedReset reset
set_interface_property irq associatedAddressablePoint data
add_interface_port irq irq irq Input 1
