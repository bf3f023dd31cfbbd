# A timer with registers of 16 bits, and an interrupt when it has run down.
package require -exact qsys 16.0

set_module_property NAME timer
set_module_property DISPLAY_NAME "Desk timer"
set_module_property DESCRIPTION {Interval timer with eight registers of 16 bits}
set_module_property VERSION 1.0

add_fileset QUARTUS_SYNTH QUARTUS_SYNTH "" ""
set_fileset_property QUARTUS_SYNTH TOP_LEVEL timer
add_fileset_file timer.v VERILOG PATH timer.v TOP_LEVEL_FILE

add_interface clk clock end
set_interface_property clk clockRate 0
add_interface_port clk clk clk Input 1

add_interface reset reset end
set_interface_property reset associatedClock clk
set_interface_property reset synchronousEdges DEASSERT
add_interface_port reset reset_n reset_n Input 1

add_interface s1 avalon end
set_interface_property s1 associatedClock clk
set_interface_property s1 associatedReset reset
add_interface_port s1 address address Input 3
add_interface_port s1 read read Input 1
add_interface_port s1 write write Input 1
add_interface_port s1 writedata writedata Input 16
add_interface_port s1 readdata readdata Output 16

add_interface irq interrupt end
set_interface_property irq associatedClock clk
set_interface_property irq associatedReset reset
set_interface_property irq associatedAddressablePoint s1
add_interface_port irq irq irq Output 1
