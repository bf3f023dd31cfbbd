set_module_property NAME video
add_fileset synthesis QUARTUS_SYNTH {}
set_fileset_property synthesis TOP_LEVEL video_core
add_interface clk clock end
add_interface_port clk clk clk Input 1
add_interface reset reset end
add_interface_port reset reset reset Input 1
add_interface sync conduit end
add_interface_port sync pulse pulse Output 1
add_interface_port sync level level Input 4
add_interface irq interrupt end
add_interface_port irq irq irq Output 1
add_interface pins conduit end
add_interface_port pins dq dq Bidir 16
add_interface_port pins hs hs Output 1
add_interface_port pins key key Input 2
