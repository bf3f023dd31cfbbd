# a parallel port: registers of 32 bits, of which so many are pins
# flatten: width=8 direction=InOut
package require -exact qsys 16.0
set_module_property NAME altera_avalon_pio
set_module_property ELABORATION_CALLBACK elaborate
add_parameter width INTEGER 8
add_parameter direction STRING Output
add_parameter generateIRQ BOOLEAN false
proc elaborate {} {
    set width [get_parameter_value width]
    set direction [get_parameter_value direction]
    add_interface clk clock sink
    add_interface_port clk clk clk Input 1
    add_interface reset reset sink
    set_interface_property reset associatedClock clk
    add_interface_port reset reset_n reset_n Input 1
    add_interface s1 avalon slave
    set_interface_property s1 addressAlignment NATIVE
    set_interface_property s1 associatedClock clk
    set_interface_property s1 associatedReset reset
    add_interface_port s1 address address Input 2
    if {$direction ne "Input"} {
        add_interface_port s1 write_n write_n Input 1
        add_interface_port s1 writedata writedata Input 32
        add_interface_port s1 chipselect chipselect Input 1
    }
    add_interface_port s1 readdata readdata Output 32
    add_interface external_connection conduit end
    switch $direction {
        Input { add_interface_port external_connection in_port export Input $width }
        Output { add_interface_port external_connection out_port export Output $width }
        InOut {
            add_interface_port external_connection in_port in_port Input $width
            add_interface_port external_connection out_port out_port Output $width
        }
    }
    if {[get_parameter_value generateIRQ]} {
        add_interface irq interrupt sender
        add_interface_port irq irq irq Output 1
    }
}
