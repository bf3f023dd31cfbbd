# 64 KiB of memory on the chip. A read is answered one cycle after it is accepted.
package require -exact qsys 16.0

set_module_property NAME ram
set_module_property DISPLAY_NAME "Desk memory"
set_module_property DESCRIPTION {On-chip memory of 16384 words of 32 bits}
set_module_property VERSION 1.0

add_fileset QUARTUS_SYNTH QUARTUS_SYNTH "" ""
set_fileset_property QUARTUS_SYNTH TOP_LEVEL ram
add_fileset_file ram.v VERILOG PATH ram.v TOP_LEVEL_FILE

add_interface clk clock end
set_interface_property clk clockRate 0
add_interface_port clk clk clk Input 1

add_interface reset reset end
set_interface_property reset associatedClock clk
set_interface_property reset synchronousEdges DEASSERT
add_interface_port reset reset reset Input 1

add_interface s1 avalon end
set_interface_property s1 associatedClock clk
set_interface_property s1 associatedReset reset
set_interface_property s1 addressUnits WORDS
set_interface_property s1 readLatency 1
set_interface_property s1 readWaitTime 0
set_interface_property s1 isMemoryDevice true
add_interface_port s1 address address Input 14
add_interface_port s1 read read Input 1
add_interface_port s1 write write Input 1
add_interface_port s1 writedata writedata Input 32
add_interface_port s1 byteenable byteenable Input 4
add_interface_port s1 readdata readdata Output 32
