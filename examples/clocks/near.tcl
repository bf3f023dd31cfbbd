# the near end of a bridge: an agent that lets each command wait until the far end has done it
package require -exact qsys 16.0
set_module_property NAME near
add_interface clk clock end
add_interface_port clk clk clk Input 1
add_interface reset reset end
set_interface_property reset associatedClock clk
add_interface_port reset reset reset Input 1
add_interface s avalon end
set_interface_property s associatedClock clk
set_interface_property s associatedReset reset
add_interface_port s s_address address Input 6
add_interface_port s s_read read Input 1
add_interface_port s s_write write Input 1
add_interface_port s s_writedata writedata Input 32
add_interface_port s s_byteenable byteenable Input 4
add_interface_port s s_waitrequest waitrequest Output 1
add_interface_port s s_readdata readdata Output 32
# a command stands still from a change of ask to the same change of done
add_interface across conduit end
add_interface_port across a_ask ask Output 1
add_interface_port across a_write write Output 1
add_interface_port across a_address address Output 6
add_interface_port across a_writedata writedata Output 32
add_interface_port across a_byteenable byteenable Output 4
add_interface_port across a_done done Input 1
add_interface_port across a_readdata readdata Input 32
