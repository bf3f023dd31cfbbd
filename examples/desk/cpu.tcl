# A small processor: one host for its instructions, one for its data.
package require -exact qsys 16.0

set_module_property NAME cpu
set_module_property DISPLAY_NAME "Desk processor"
set_module_property DESCRIPTION {A 32-bit processor with hosts for instructions and data}
set_module_property VERSION 1.0

add_fileset QUARTUS_SYNTH QUARTUS_SYNTH "" ""
set_fileset_property QUARTUS_SYNTH TOP_LEVEL cpu
add_fileset_file cpu.v VERILOG PATH cpu.v TOP_LEVEL_FILE

# clock and reset
add_interface clk clock end
set_interface_property clk clockRate 0
add_interface_port clk clk clk Input 1

add_interface reset reset end
set_interface_property reset associatedClock clk
set_interface_property reset synchronousEdges DEASSERT
add_interface_port reset reset reset Input 1

# instructions: read only
add_interface instruction avalon start
set_interface_property instruction associatedClock clk
set_interface_property instruction associatedReset reset
set_interface_property instruction addressUnits SYMBOLS
add_interface_port instruction i_address address Output 20
add_interface_port instruction i_read read Output 1
add_interface_port instruction i_waitrequest waitrequest Input 1
add_interface_port instruction i_readdata readdata Input 32
add_interface_port instruction i_readdatavalid readdatavalid Input 1

# data
add_interface data avalon start
set_interface_property data associatedClock clk
set_interface_property data associatedReset reset
set_interface_property data addressUnits SYMBOLS
add_interface_port data d_address address Output 20
add_interface_port data d_read read Output 1
add_interface_port data d_write write Output 1
add_interface_port data d_writedata writedata Output 32
add_interface_port data d_byteenable byteenable Output 4
add_interface_port data d_waitrequest waitrequest Input 1
add_interface_port data d_readdata readdata Input 32
add_interface_port data d_readdatavalid readdatavalid Input 1
add_interface_port data d_debugaccess debugaccess Output 1

# interrupts come in
add_interface irq interrupt start
set_interface_property irq associatedClock clk
set_interface_property irq associatedReset reset
set_interface_property irq associatedAddressablePoint data
set_interface_property irq irqScheme INDIVIDUAL_REQUESTS
add_interface_port irq d_irq irq Input 32
