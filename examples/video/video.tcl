# A camera's picture goes to a memory, and from there to a screen. The processor sets where, and may read the picture too.
package require -exact qsys 16.0
create_system {video}
set_project_property DEVICE_FAMILY {Cyclone V}
add_instance clk_0 clock_source
set_instance_parameter_value clk_0 {clockFrequency} {100000000.0}
add_instance cpu_0 cpu
add_instance rom_0 rom
add_instance dram_0 dram
add_instance camera_0 camera
add_instance writer_0 writer
add_instance reader_0 reader
add_instance screen_0 screen

# one clock and one reset for all
add_connection clk_0.clk cpu_0.clk clock
add_connection clk_0.clk rom_0.clk clock
add_connection clk_0.clk dram_0.clk clock
add_connection clk_0.clk camera_0.clk clock
add_connection clk_0.clk writer_0.clk clock
add_connection clk_0.clk reader_0.clk clock
add_connection clk_0.clk screen_0.clk clock
add_connection clk_0.clk_reset cpu_0.reset reset
add_connection clk_0.clk_reset rom_0.reset reset
add_connection clk_0.clk_reset dram_0.reset reset
add_connection clk_0.clk_reset camera_0.reset reset
add_connection clk_0.clk_reset writer_0.reset reset
add_connection clk_0.clk_reset reader_0.reset reset
add_connection clk_0.clk_reset screen_0.reset reset

# the memory's time: of seven commands the reader has four, the writer two
add_connection reader_0.frame dram_0.s avalon
set_connection_parameter_value reader_0.frame/dram_0.s arbitrationPriority {4}
add_connection writer_0.frame dram_0.s avalon
set_connection_parameter_value writer_0.frame/dram_0.s arbitrationPriority {2}
add_connection cpu_0.data dram_0.s avalon
set_connection_parameter_value cpu_0.data/dram_0.s arbitrationPriority {1}

# what else the processor reaches
add_connection cpu_0.data rom_0.s avalon
set_connection_parameter_value cpu_0.data/rom_0.s baseAddress {0x00010000}
add_connection cpu_0.data writer_0.control avalon
set_connection_parameter_value cpu_0.data/writer_0.control baseAddress {0x00011000}
add_connection cpu_0.data reader_0.control avalon
set_connection_parameter_value cpu_0.data/reader_0.control baseAddress {0x00011010}

# a pixel each beat from the camera, eight each beat at the memory
add_connection camera_0.pixels writer_0.pixels avalon_streaming
set_connection_parameter_value camera_0.pixels/writer_0.pixels fifoDepth {16}
add_connection reader_0.pixels screen_0.pixels avalon_streaming
set_connection_parameter_value reader_0.pixels/screen_0.pixels fifoDepth {32}

add_connection cpu_0.irq writer_0.irq interrupt
set_connection_parameter_value cpu_0.irq/writer_0.irq irqNumber {0}
set_interconnect_requirement {$system} {qsys_mm.maxAdditionalLatency} {1}
save_system {video.qsys}
