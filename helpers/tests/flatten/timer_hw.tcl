# an interval timer of 16-bit registers, whose number its counter's size decides
package require -exact qsys 16.0
set_module_property NAME altera_avalon_timer
set_module_property DISPLAY_NAME "Interval Timer"
set_module_property ELABORATION_CALLBACK elaborate
set_module_property VALIDATION_CALLBACK validate
add_parameter counterSize INTEGER
set_parameter_property counterSize DEFAULT_VALUE {32}
set_parameter_property counterSize ALLOWED_RANGES {32 64}
add_parameter period STRING {1}
proc validate {} {
    if {[get_parameter_value counterSize] ni {32 64}} { send_message error "counterSize is 32 or 64" }
}
proc elaborate {} {
    set bits [expr {[get_parameter_value counterSize] == 32 ? 3 : 4}]
    add_interface clk clock sink
    add_interface_port clk clk clk Input 1
    add_interface reset reset sink
    set_interface_property reset associatedClock {clk}
    add_interface_port reset reset_n reset_n Input 1
    add_interface s1 avalon slave
    foreach {key value} {addressAlignment {NATIVE} associatedClock {clk} associatedReset {reset} readWaitStates {1} writeWaitStates {0}} {
        set_interface_property s1 $key $value
    }
    add_interface_port s1 address address Input $bits
    add_interface_port s1 writedata writedata Input 16
    add_interface_port s1 readdata readdata Output 16
    add_interface_port s1 chipselect chipselect Input 1
    add_interface_port s1 write_n write_n Input 1
    add_interface irq interrupt sender
    set_interface_property irq associatedAddressablePoint {s1}
    add_interface_port irq irq irq Output 1
}
