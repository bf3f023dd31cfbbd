# the controller of an external memory: active low signals, words of 16 bits, and words that come late
package require -exact qsys 16.0
set_module_property NAME altera_avalon_new_sdram_controller
set_module_property ELABORATION_CALLBACK elaborate
add_parameter dataWidth INTEGER 16
add_parameter rowWidth INTEGER 12
add_parameter columnWidth INTEGER 8
add_parameter numberOfBanks INTEGER 4
proc elaborate {} {
    foreach parameter {dataWidth rowWidth columnWidth numberOfBanks} { set $parameter [get_parameter_value $parameter] }
    set bank [expr {$numberOfBanks == 4 ? 2 : 1}]
    set lanes [expr {$dataWidth / 8}]
    add_interface clk clock sink
    add_interface_port clk clk clk Input 1
    add_interface reset reset sink
    set_interface_property reset associatedClock clk
    add_interface_port reset reset_n reset_n Input 1
    add_interface s1 avalon slave
    set_interface_property s1 associatedClock clk
    set_interface_property s1 associatedReset reset
    set_interface_property s1 isMemoryDevice true
    set_interface_property s1 maximumPendingReadTransactions 7
    add_interface_port s1 az_addr address Input [expr {$rowWidth + $columnWidth + $bank}]
    add_interface_port s1 az_be_n byteenable_n Input $lanes
    add_interface_port s1 az_cs chipselect Input 1
    add_interface_port s1 az_data writedata Input $dataWidth
    add_interface_port s1 az_rd_n read_n Input 1
    add_interface_port s1 az_wr_n write_n Input 1
    add_interface_port s1 za_data readdata Output $dataWidth
    add_interface_port s1 za_valid readdatavalid Output 1
    add_interface_port s1 za_waitrequest waitrequest Output 1
    add_interface wire conduit end
    foreach {port direction width} [list zs_addr Output $rowWidth zs_ba Output $bank zs_cas_n Output 1 zs_cke Output 1 zs_cs_n Output 1 \
            zs_dq Bidir $dataWidth zs_dqm Output $lanes zs_ras_n Output 1 zs_we_n Output 1] {
        add_interface_port wire $port [string range $port 3 end] $direction $width
    }
}
