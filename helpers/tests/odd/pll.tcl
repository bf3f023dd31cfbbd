set_module_property NAME pll
add_interface refclk clock end
add_interface_port refclk refclk clk Input 1
add_interface reset reset end
add_interface_port reset rst reset Input 1
add_interface outclk clock start
add_interface_port outclk outclk clk Output 1
add_interface locked reset start
add_interface_port locked locked reset_n Output 1
