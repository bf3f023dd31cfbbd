#!/usr/bin/env bash
# Weighs what stands between hosts and agents beside Verilog of the same function that was written by hand (by_hand/): hardware.sh [PROGRAM [PART..]].
#
# A row has of both the logic cells, the flip-flops and the levels of logic, then ours to theirs, and of one host and one agent the writes and
# the reads a cycle of both where nothing waits. Each pair is first run in lock step with Icarus Verilog over 40,000 cycles of random commands; the
# first difference ends the run. The cycles of the small system aren't those of the one by hand, so each of the two has a scoreboard instead. A PART
# is one of those named at the end, or one row, as "width 32 8 lanes 1". Not part of the gate.
set -eu
top=$(cd -- "$(dirname -- "$0")/.." && pwd)
program=$(readlink -f -- "${1:-$top/avalon}")
export PYTHONDONTWRITEBYTECODE=1
source "$top/bench/cells.sh"
further=("$top"/bench/by_hand/{arbiter,bursts,crossbar,packs,widths}.v)

# Generates ours into `generated.v`: the folder of the scripts, and their names.
generate() {
  (cd "$1" && "$program" generate "${@:2}") >"$folder/generated.v" || { cat "$folder/generated.v"; exit 1; }
}

# The two ways to tell that ours does what the one by hand does: its text.
lockstep() {
  "$top/bench/lockstep.py" "$folder/generated.v" "$1" "$folder" "${further[@]}"
}

scoreboard() {
  local text
  for text in "$folder/generated.v" "$1"; do
    iverilog -g2005 -s bench -o "$folder/scoreboard" "$top/bench/by_hand/small_bench.v" "$text" "${further[@]}"
    vvp "$folder/scoreboard" | tee "$folder/score"
    grep -q ^same "$folder/score" || return 1
  done
}

# What it is, its name, its text by hand, and which of the two ways; where `rate` follows, the commands a cycle too.
weigh() {
  local what=$1 module=$2_interconnect hand=$3 ours theirs rates=
  "$4" "$hand" >"$folder/same" || { echo "$what" && cat "$folder/same" && exit 1; }
  ours=$(cells_of "$module" "$folder/generated.v") && theirs=$(cells_of "$module" "$hand" "${further[@]}") || exit 1
  if [ "${5-}" = rate ]; then
    rates="$("$top/bench/rates.py" "$folder/generated.v" "$folder") $("$top/bench/rates.py" "$hand" "$folder" "${further[@]}")"
  fi
  echo "$ours $theirs $rates" | awk -v what="$what" '{
    printf "%-42s %6d %6d %6d %6d %6d %6d %6.2f %6.2f", what, $1, $2, $3, $5, $6, $7, $1 / $5, $2 / $6
    if (NF > 8) printf "   %s %s  %s %s", $9, $12, $16, $19
    printf "\n" }'
}

# An example, the name of its system, its files.
example() {
  generate "$top/examples/$1" "${@:3}"
  weigh "examples/$1" "$2" "$top/bench/by_hand/$2.v" lockstep
}

# So many hosts that share one agent, and its latency, 0 where it says when a word comes.
share() {
  "$top/bench/share.py" "$1" "$2" "$folder"
  generate "$folder" share.tcl host.tcl agent.tcl
  weigh "$1 hosts, $(coming "$2")" share "$folder/share.v" lockstep
}

coming() {
  [ "$1" = 0 ] && echo readdatavalid || echo "latency $1"
}

# A host and an agent of so many bits, the kind of their lanes, and the agent's latency.
width() {
  "$top/bench/widths.py" "$1" "$2" "$3" "$4" "$folder"
  generate "$folder" width.tcl host.tcl agent.tcl
  weigh "$1 bits to $2, $3, $(coming "$4")" width "$folder/width.v" lockstep rate
}

# A host with bursts of up to 16 beats, and an agent whose burstcount has so many bits, 0 where it has none.
burst() {
  "$top/bench/bursts.py" "$1" "$folder"
  generate "$folder" bursts.tcl host.tcl agent.tcl
  weigh "bursts, $1 bits at the agent" bursts "$folder/bursts.v" lockstep rate
}

# The same of a host of so many bits, and an agent of more, whose words each burst reads once.
pack() {
  "$top/bench/packs.py" "$1" "$2" "$folder"
  generate "$folder" packs.tcl host.tcl agent.tcl
  weigh "bursts, $1 bits to $2" packs "$folder/packs.v" lockstep rate
}

examples() {
  example bus bus bus.tcl master.tcl memory.tcl
  example control control control.tcl cpu.tcl ram.tcl flash.tcl port.tcl
  example shared shared shared.tcl cpu.tcl ram.tcl
}

hosts() {
  for latency in 1 0; do
    for hosts in 2 4 8 16; do share $hosts $latency; done
  done
}

bursts() {
  for bits in 0 1 3 5; do burst $bits; done
}

packs() {
  for host in 8 16 32 64; do
    for agent in 16 32 64 128; do
      [ $host -ge $agent ] || pack $host $agent
    done
  done
}

# wide words to narrow ones, of agents that say when a word comes
said() {
  for pair in "32 8" "32 16" "64 8" "64 32" "128 8"; do
    for kind in lanes plain; do width $pair $kind 0; done
  done
}

# The same of all pairs of an agent of latency 1: their kind.
pairs() {
  for host in 8 16 32 64 128; do
    for agent in 8 16 32 64 128; do
      [ $host = $agent ] || width $host $agent "$1" 1
    done
  done
}

lanes() {
  pairs lanes
}

plain() {
  pairs plain
}

dropped() {
  for bits in 8 16 32 64 128; do width $bits $bits dropped 1; done
}

crossbar() {
  "$top/bench/crossbar.py" 4 6 "$folder"
  generate "$folder" crossbar.tcl host.tcl agent.tcl
  weigh "4 hosts, each at 6 agents" crossbar "$folder/crossbar.v" lockstep
}

small() {
  "$top/bench/small.py" "$folder"
  generate "$folder" small.tcl cpu.tcl dma.tcl u8.tcl t16.tcl r32.tcl p32.tcl m64.tcl
  weigh "a small system" small "$top/bench/by_hand/small.v" scoreboard
}

parts=("${@:2}")
[ ${#parts[@]} -gt 0 ] || parts=(examples hosts bursts packs dropped said lanes plain crossbar small)
printf '%-42s %20s %20s %13s   %s\n' "" ours "by hand" ratio "writes, reads a cycle"
printf '%-42s %6s %6s %6s %6s %6s %6s %6s %6s   %s\n' "" cells flops levels cells flops levels cells flops "ours, by hand"
for part in "${parts[@]}"; do $part; done
