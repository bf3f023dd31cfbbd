# a camera and a screen, with a queue of two pixels between
package require -exact qsys 16.0
create_system pixels
add_instance clk_0 clock_source
add_instance camera_0 camera
add_instance screen_0 screen
add_connection clk_0.clk camera_0.clk clock
add_connection clk_0.clk screen_0.clk clock
add_connection camera_0.out screen_0.in avalon_streaming
set_connection_parameter_value camera_0.out/screen_0.in fifoDepth {2}
