#!/usr/bin/env bash
# Weighs what stands between a source and a sink beside Verilog of the same function that was written by hand (by_hand/streams.v), and tells how
# fast beats of other symbols go: streams.sh [PROGRAM] [routed].
#
# The first table has of both the logic cells, how many of these are bits of memory, the flip-flops and the levels of logic, as hardware.sh has
# them, and then ours to theirs. Each pair is first run in lock step with Icarus Verilog over 40,000 cycles of random beats. Multiplexers and
# demultiplexers of packets come last in it (by_hand/routed.v); `streams.sh PROGRAM routed` weighs these alone.
# The second has a row for each number of symbols of a source's beat, and a column for each of a sink's: the symbols a cycle that ours carries
# where both ends never stall, beside the smaller one of both numbers. The third has how many cycles behind the source's first beat the sink's
# first one comes, beside the least number of cycles. Not part of the gate.
set -eu
top=$(cd -- "$(dirname -- "$0")/.." && pwd)
program=$(readlink -f -- "${1:-$top/avalon}")
export PYTHONDONTWRITEBYTECODE=1
source "$top/bench/cells.sh"
# all memories in those of up to 32 places, which a module can read in the cycle in which it asks
synthesis=-nobram

# Generates what stands between, into `generated.v`: the words of streams.py.
generate() {
  "$top/bench/streams.py" "$@" "$folder"
  (cd "$folder" && "$program" generate stream.tcl source.tcl sink.tcl) >"$folder/generated.v" || { cat "$folder/generated.v"; exit 1; }
}

# What it is, and the words of streams.py.
weigh() {
  local what=$1 hand=$folder/stream.v ours theirs
  generate "${@:2}"
  "$top/bench/stream_lockstep.py" "$folder/generated.v" "$hand" "$folder" "$5" "$2" "$top/bench/by_hand/streams.v" >"$folder/same" || { cat "$folder/same"; exit 1; }
  ours=$(cells_of stream_interconnect "$folder/generated.v") && theirs=$(cells_of stream_interconnect "$hand" "$top/bench/by_hand/streams.v") || exit 1
  tell "$what" "$ours $theirs"
}

# What it is, and what `cells_of` says of ours and of theirs. Where neither has a flip-flop their ratio is 1.
tell() {
  echo "$2" | awk -v what="$1" '
    { printf "%-40s %6d %6d %6d %6d %6d %6d %6d %6d %6.1f %6.1f\n", what, $1, $4, $2, $3, $5, $8, $6, $7, $1 / $5, $6 ? $2 / $6 : 1 + $2 }'
}

# The words that ask for a multiplexer or a demultiplexer.
weigh_routed() {
  local ours theirs
  "$program" "$@" >"$folder/generated.v" || { cat "$folder/generated.v"; exit 1; }
  "$top/bench/routed.py" "$@" >"$folder/hand.v"
  "$top/bench/routed_lockstep.py" "$folder/generated.v" "$folder/hand.v" "$folder" "$3" "$top/bench/by_hand/routed.v" >"$folder/same" || { cat "$folder/same"; exit 1; }
  ours=$(cells_of "$1_interconnect" "$folder/generated.v") && theirs=$(cells_of "$1_interconnect" "$folder/hand.v" "$top/bench/by_hand/routed.v") || exit 1
  tell "$1 of $2, $3 symbols of $4 bits" "$ours $theirs"
}

all_routed() {
  local kind ends
  for kind in mux demux; do
    for ends in 2 4 16; do
      weigh_routed $kind $ends 1 8
      weigh_routed $kind $ends 1 32
      weigh_routed $kind $ends 4 8
    done
  done
}

printf '%-40s %27s %27s %13s\n' "" ours "by hand" ratio
printf '%-40s %6s %6s %6s %6s %6s %6s %6s %6s %6s %6s\n' "" cells memory flops levels cells memory flops levels cells flops
if [ "${2:-}" = routed ]; then all_routed; exit; fi
for latency in 1 8; do
  for bits in 8 32 128; do weigh "buffer, latency $latency, $bits bits" 1 1 $bits $latency 0 plain; done
done
for pace in 1+3 8+16; do
  for bits in 8 32 128; do weigh "buffer, latency ${pace/+/, allowance }, $bits bits" 1 1 $bits $pace 0 plain; done
done
for places in 1 3 4 64; do
  for bits in 8 32 128; do weigh "queue of $places, $bits bits" 1 1 $bits 0 $places plain; done
done
for symbols in 2 4 16; do weigh "$symbols symbols to 1, packets" $symbols 1 8 0 0 packets; done
for symbols in 2 4 16; do weigh "1 symbol to $symbols, packets" 1 $symbols 8 0 0 packets; done
for bits in 8 32; do weigh "1 symbol to 4, $bits bits a symbol" 1 4 $bits 0 0 plain; done
for bits in 8 32; do weigh "3 symbols to 4, packets, $bits bits a symbol" 3 4 $bits 0 0 packets; done
all_routed

printf '\nsymbols a cycle\n%6s' ""
printf ' %7d' 1 2 3 4 5 6 7 8
for symbols in 1 2 3 4 5 6 7 8; do
  printf '\n%6d' $symbols
  printf '%6d' $symbols >>"$folder/delays"
  for wanted in 1 2 3 4 5 6 7 8; do
    generate $symbols $wanted 8 0 0 plain
    "$top/bench/stream_rates.py" "$folder/generated.v" "$folder" >"$folder/rate"
    read -r rate delay <"$folder/rate"
    printf ' %7s' "$rate/$((symbols < wanted ? symbols : wanted))"
    printf ' %7s' "$delay/$(((wanted - 1) / symbols))" >>"$folder/delays"
  done
  echo >>"$folder/delays"
done
printf '\n\ncycles until the first beat\n%6s' ""
printf ' %7d' 1 2 3 4 5 6 7 8
echo
cat "$folder/delays"
