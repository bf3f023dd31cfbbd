# a stream's part whose ports parameters switch on and off; one is terminated
# flatten: SYMBOLS=4 CHANNELS=3
package require -exact qsys 16.0
set_module_property NAME packer
set_module_property ELABORATION_CALLBACK elaborate
add_parameter SYMBOLS INTEGER 1
set_parameter_property SYMBOLS HDL_PARAMETER true
add_parameter CHANNELS INTEGER 1
add_parameter ERROR_BITS INTEGER 0
add_interface clk clock end
add_interface_port clk clk clk Input 1
add_interface reset reset end
set_interface_property reset associatedClock clk
add_interface_port reset reset reset Input 1
proc stream {name kind turned} {
    set symbols [get_parameter_value SYMBOLS]
    set ways [list Output Input]
    add_interface $name avalon_streaming $kind
    set_interface_property $name associatedClock clk
    set_interface_property $name associatedReset reset
    set_interface_property $name dataBitsPerSymbol 8
    set_interface_property $name maxChannel [expr {[get_parameter_value CHANNELS] - 1}]
    add_interface_port $name ${name}_ready ready [lindex $ways [expr {1 - $turned}]] 1
    foreach {role width} [list valid 1 data [expr {8 * $symbols}] startofpacket 1 endofpacket 1 empty 2 channel 2 error 1] {
        add_interface_port $name ${name}_$role $role [lindex $ways $turned] $width
    }
    if {$symbols == 1} { set_port_property ${name}_empty TERMINATION true }
    set_port_property ${name}_error TERMINATION [expr {[get_parameter_value ERROR_BITS] == 0}]
    set_port_property ${name}_error TERMINATION_VALUE 0
}
proc elaborate {} {
    stream in sink 1
    stream out source 0
}
