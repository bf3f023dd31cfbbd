# a memory on the chip: its size decides the address, and a word comes in the cycle behind
# flatten: memorySize=4096
package require -exact qsys 16.0
set_module_property NAME altera_avalon_onchip_memory2
set_module_property ELABORATION_CALLBACK elaborate
add_parameter dataWidth INTEGER 32
add_parameter memorySize LONG 1024
add_parameter slave1Latency INTEGER 1
proc log2ceil {number} {
    set bits 0
    while {(1 << $bits) < $number} { incr bits }
    return $bits
}
proc elaborate {} {
    set width [get_parameter_value dataWidth]
    set bits [log2ceil [expr {[get_parameter_value memorySize] / ($width / 8)}]]
    add_interface clk1 clock sink
    add_interface_port clk1 clk clk Input 1
    add_interface s1 avalon slave
    set_interface_property s1 associatedClock clk1
    set_interface_property s1 associatedReset reset1
    set_interface_property s1 isMemoryDevice true
    set_interface_property s1 readLatency [get_parameter_value slave1Latency]
    set_interface_property s1 readWaitTime 0
    add_interface_port s1 address address Input $bits
    add_interface_port s1 clken clken Input 1
    add_interface_port s1 chipselect chipselect Input 1
    add_interface_port s1 write write Input 1
    add_interface_port s1 readdata readdata Output $width
    add_interface_port s1 writedata writedata Input $width
    if {$width > 8} { add_interface_port s1 byteenable byteenable Input [expr {$width / 8}] }
    add_interface reset1 reset sink
    set_interface_property reset1 associatedClock clk1
    add_interface_port reset1 reset reset Input 1
}
