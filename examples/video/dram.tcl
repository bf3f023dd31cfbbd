# The controller of a memory of 64 KiB, in words of 64 bits. It takes bursts of up to 8 words, and bears four unanswered reads.
package require -exact qsys 16.0

set_module_property NAME dram
set_module_property DISPLAY_NAME "Video memory"

# clock and reset
add_interface clk clock end
add_interface_port clk clk clk Input 1

add_interface reset reset end
set_interface_property reset associatedClock clk
add_interface_port reset reset reset Input 1

add_interface s avalon end
set_interface_property s associatedClock clk
set_interface_property s associatedReset reset
set_interface_property s maximumPendingReadTransactions 4
add_interface_port s s_address address Input 13
add_interface_port s s_read read Input 1
add_interface_port s s_write write Input 1
add_interface_port s s_writedata writedata Input 64
add_interface_port s s_byteenable byteenable Input 8
# four bits count up to 8 words
add_interface_port s s_burstcount burstcount Input 4
add_interface_port s s_waitrequest waitrequest Output 1
add_interface_port s s_readdata readdata Output 64
add_interface_port s s_readdatavalid readdatavalid Output 1
