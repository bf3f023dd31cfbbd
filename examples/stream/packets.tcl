# a tuner of three symbols a beat into a framer of four, and eight voices into a mixer that takes four of them
create_system packets
add_instance tuner tuner
add_instance framer framer
add_instance voices voices
add_instance mixer mixer
add_connection tuner.samples framer.samples
add_connection voices.out mixer.in
