#!/usr/bin/env bash
# Weighs gatherers beside Verilog of the same function that was written by hand (by_hand/gather.v): gather.sh [PROGRAM].
#
# Each row has of both the logic cells, how many of these are bits of memory, the flip-flops and the levels of logic, as hardware.sh has them, and
# then ours to theirs. Each pair is first run in lock step with Icarus Verilog over 40,000 cycles of random beats. PROGRAM writes the text at
# `PROGRAM gather CHANNELS IN PARTS BITS`. Not part of the gate.
set -eu
top=$(cd -- "$(dirname -- "$0")/.." && pwd)
program=$(readlink -f -- "${1:-$top/avalon}")
source "$top/bench/cells.sh"
# all memories in those of up to 32 places, which a module can read in the cycle in which it asks
synthesis=-nobram

# By hand, with the ports of ours: channels, bits of a channel, bits of a word, parts.
by_hand() {
  cat <<VERILOG
module gather_interconnect (input clk, input reset, output [0:0] in\$st\$ready, input [0:0] in\$st\$valid, input [$3 - 1:0] in\$st\$data, input [$2 - 1:0] in\$st\$channel,
  input [0:0] out\$st\$ready, output [0:0] out\$st\$valid, output [$3 * $4 - 1:0] out\$st\$data, output [$2 - 1:0] out\$st\$channel);
  gatherer #(.CHANNELS($1), .WORD($3), .PARTS($4)) gatherer_ (.clk(clk), .reset(reset),
    .in_ready(in\$st\$ready), .in_valid(in\$st\$valid), .in_data(in\$st\$data), .in_channel(in\$st\$channel),
    .out_ready(out\$st\$ready), .out_valid(out\$st\$valid), .out_data(out\$st\$data), .out_channel(out\$st\$channel));
endmodule
VERILOG
}

# Both beside each other: a beat stays until it is accepted, and both ends are at times often there and at times seldom.
lockstep() {
  sed 's/module gather_interconnect/module ours/' "$folder/generated.v" >"$folder/ours.v"
  sed 's/module gather_interconnect/module theirs/' "$folder/hand.v" >"$folder/theirs.v"
  cat >"$folder/lockstep.v" <<VERILOG
module bench;
  reg clk = 0, reset = 1, valid = 0, ready = 0;
  reg [$3 - 1:0] data = 0; reg [$2 - 1:0] channel = 0;
  reg [2:0] often_valid, often_ready;
  wire ours_ready, ours_valid, their_ready, their_valid;
  wire [$3 * $4 - 1:0] ours_data, their_data; wire [$2 - 1:0] ours_channel, their_channel;
  integer cycle, errors = 0, beats = 0;
  ours a (.clk(clk), .reset(reset), .in\$st\$ready(ours_ready), .in\$st\$valid(valid), .in\$st\$data(data), .in\$st\$channel(channel),
    .out\$st\$ready(ready), .out\$st\$valid(ours_valid), .out\$st\$data(ours_data), .out\$st\$channel(ours_channel));
  theirs b (.clk(clk), .reset(reset), .in\$st\$ready(their_ready), .in\$st\$valid(valid), .in\$st\$data(data), .in\$st\$channel(channel),
    .out\$st\$ready(ready), .out\$st\$valid(their_valid), .out\$st\$data(their_data), .out\$st\$channel(their_channel));
  initial begin
    #5 clk = 1; #1 reset = 0;
    for (cycle = 0; cycle < 40000; cycle = cycle + 1) begin
      if (cycle % 256 == 0) begin often_valid = \$random & 7; often_ready = \$random & 7; end
      valid = (\$random & 7) <= often_valid;
      ready = (\$random & 7) <= often_ready;
      #4 clk = 0;
      if (ours_valid !== their_valid || valid && ours_ready !== their_ready) errors = errors + 1;
      if (ours_valid && (ours_data !== their_data || ours_channel !== their_channel)) errors = errors + 1;
      beats = beats + (ours_valid && ready);
      if (valid && ours_ready) begin data = {\$random, \$random, \$random, \$random}; channel = \$unsigned(\$random) % $1; end
      #5 clk = 1; #1;
    end
    if (errors == 0 && beats > 300) \$display("same"); else \$display("%0d differences, %0d beats", errors, beats);
    \$finish;
  end
endmodule
VERILOG
  iverilog -g2005 -s bench -o "$folder/lockstep" "$folder/lockstep.v" "$folder/ours.v" "$folder/theirs.v" "$top/bench/by_hand/gather.v" || exit 1
  [ "$(vvp -n "$folder/lockstep")" = same ] || { vvp -n "$folder/lockstep"; exit 1; }
}

# Channels, symbols of a word, parts, bits of a symbol.
weigh() {
  local channel=0 ours theirs
  while ((1 << channel < $1)); do channel=$((channel + 1)); done
  "$program" gather "$@" >"$folder/generated.v" || { cat "$folder/generated.v"; exit 1; }
  by_hand "$1" "$channel" $(($2 * $4)) "$3" >"$folder/hand.v"
  lockstep "$1" "$channel" $(($2 * $4)) "$3"
  ours=$(cells_of gather_interconnect "$folder/generated.v") && theirs=$(cells_of gather_interconnect "$folder/hand.v" "$top/bench/by_hand/gather.v") || exit 1
  echo "$ours $theirs" | awk -v what="$1 channels, $3 parts of $2 times $4 bits" '
    { printf "%-40s %6d %6d %6d %6d %6d %6d %6d %6d %6.2f %6.2f\n", what, $1, $4, $2, $3, $5, $8, $6, $7, $1 / $5, $2 / $6 }'
}

printf '%-40s %27s %27s %13s\n' "" ours "by hand" ratio
printf '%-40s %6s %6s %6s %6s %6s %6s %6s %6s %6s %6s\n' "" cells memory flops levels cells memory flops levels cells flops
for channels in 2 4 16; do
  for bits in 8 32; do weigh $channels 1 2 $bits; done
  weigh $channels 1 4 8
  weigh $channels 2 4 4
done
weigh 3 1 3 4
weigh 5 3 5 8
weigh 16 1 5 8
weigh 16 1 16 8
weigh 16 1 16 1
