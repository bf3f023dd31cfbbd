# a camera of ready latency 2 into a scaler of ready latency 0, behind a queue of four pixels
create_system stream
add_instance camera camera
add_instance scaler scaler
add_connection camera.pixels scaler.pixels
set_connection_parameter_value camera.pixels/scaler.pixels fifoDepth 4
