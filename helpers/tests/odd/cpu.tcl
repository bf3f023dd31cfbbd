set_module_property NAME cpu
add_parameter NAME STRING none
set_parameter_property NAME HDL_PARAMETER true
add_parameter BASE INTEGER 0
set_parameter_property BASE HDL_PARAMETER true
add_parameter FAST BOOLEAN false
set_parameter_property FAST HDL_PARAMETER true
add_parameter UNUSED INTEGER 1
add_interface clk clock end
add_interface_port clk clk clk Input 1
add_interface reset reset end
add_interface_port reset reset_n reset_n Input 1
add_interface m avalon host
set_interface_property m associatedClock clk
add_interface_port m a address Output 8
add_interface_port m r read Output 1
add_interface_port m d readdata Input 32
add_interface_port m w waitrequest Input 1
add_interface_port m g debugaccess Output 1
add_interface irq interrupt start
add_interface_port irq irq irq Input 8
add_interface sync conduit end
add_interface_port sync pulse pulse Input 1
add_interface_port sync level level Output 4
add_interface_port sync other other Input 3
add_interface twice conduit end
add_interface_port twice one export Output 1
add_interface_port twice two export Output 2
add_interface idle avalon agent
add_interface_port idle ia address Input 4
add_interface_port idle ir read Input 1
add_interface_port idle id readdata Output 8
