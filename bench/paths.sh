#!/usr/bin/env bash
# Counts the levels of logic on the longest paths between hosts and agents, by where they begin and end: paths.sh [PROGRAM [PART..]].
#
# A level is a table of 6 inputs, as yosys maps the module. A row has the longest path of each kind: from a host's command (c), an agent's waitrequest
# (w), readdatavalid (v) or word (d), or a register or a memory (r), to the command at an agent (c), a host's waitrequest (w), readdatavalid (v) or
# word (d), or again a register or a memory (r); then the longest of all. Below ours is the module of by_hand/ where there is one. A PART is one
# of those named at the end, or one row, as "share 4 0". Not part of the gate.
set -eu
top=$(cd -- "$(dirname -- "$0")/.." && pwd)
program=$(readlink -f -- "${1:-$top/avalon}")
export PYTHONDONTWRITEBYTECODE=1
source "$top/bench/cells.sh"
further=("$top"/bench/by_hand/{arbiter,bursts,crossbar,packs,widths}.v)

# What it is, its module and its files. Gates are made first, and tables of them, so that few follow one another. A memory ends a path.
levels() {
  local what=$1 module=$2 files=${*:3}
  local gates="synth -flatten -top $module -run begin:fine; chtype -set memory t:\$mem_v2; synth -run fine:check"
  yosys -q -p "read_verilog $files; $gates; abc -lut 6; write_json $folder/tables.json" >"$folder/said" 2>&1 || { cat "$folder/said" >&2; exit 1; }
  "$top/bench/paths.py" "$folder/tables.json" | awk -v what="$what" '{
    printf "%-44s", what
    for (field = 1; field <= NF; field++) printf "%4s", $field
    printf "\n" }'
}

# What it is, its name, its stages, the other scripts. Where there are none there is one by hand in NAME.v of the same folder, or in by_hand.
both() {
  local what=$1 name=$2 stages=$3
  [ "$stages" = 0 ] || echo "set_interconnect_requirement {\$system} qsys_mm.maxAdditionalLatency $stages" >>"$folder/$name.tcl"
  (cd "$folder" && "$program" generate "$name.tcl" "${@:4}") >"$folder/generated.v" || { cat "$folder/generated.v"; exit 1; }
  [ "$stages" = 0 ] || what+=", $stages stage$([ "$stages" = 1 ] || echo s)"
  levels "$what" "${name}_interconnect" "$folder/generated.v"
  if [ "$stages" = 0 ]; then
    [ -e "$folder/$name.v" ] || cp "$top/bench/by_hand/$name.v" "$folder"
    levels "  by hand" "${name}_interconnect" "$folder/$name.v" "${further[@]}"
  fi
}

# So many hosts at one agent, its latency or 0 where it says when a word comes, and the stages.
share() {
  "$top/bench/share.py" "$1" "$2" "$folder"
  both "$1 hosts at an agent" share "${3-0}" host.tcl agent.tcl
}

# So many hosts, each at so many agents, and the stages.
crossbar() {
  "$top/bench/crossbar.py" "$1" "$2" "$folder"
  both "$1 hosts, each at $2 agents" crossbar "${3-0}" host.tcl agent.tcl
}

# The small system, and its stages.
small() {
  "$top/bench/small.py" "$folder"
  both "a small system" small "${1-0}" cpu.tcl dma.tcl u8.tcl t16.tcl r32.tcl p32.tcl m64.tcl
}

# A host with bursts of up to 16 beats, an agent whose burstcount has so many bits, and the stages.
burst() {
  "$top/bench/bursts.py" "$1" "$folder"
  both "bursts, $1 bits at the agent" bursts "${2-0}" host.tcl agent.tcl
}

# A host and an agent of other words: their bits, the kind of their lanes, the agent's latency.
width() {
  "$top/bench/widths.py" "$1" "$2" "$3" "$4" "$folder"
  both "$1 bits to $2, $3" width 0 host.tcl agent.tcl
}

# The same of a host with bursts, whose words are gathered of wider ones.
pack() {
  "$top/bench/packs.py" "$1" "$2" "$folder"
  both "bursts, $1 bits to $2" packs 0 host.tcl agent.tcl
}

arbiters() {
  for hosts in 2 4 8 16; do share $hosts 0; done
}

links() {
  burst 5
  burst 0
  width 8 32 lanes 1
  width 32 8 lanes 0
  width 64 32 plain 0
  width 32 32 dropped 1
  pack 8 32
  pack 32 128
}

systems() {
  crossbar 4 6
  small
}

stages() {
  for stages in 1 4; do
    burst 5 $stages
    share 4 0 $stages
    crossbar 4 6 $stages
    small $stages
  done
}

parts=("${@:2}")
[ ${#parts[@]} -gt 0 ] || parts=(systems arbiters links stages)
printf '%-44s' "from c, w, v, d, r to c, w, v, d, r"
printf '%4s' cc cw cr ww wr vv vr dd rc rw rv rd rr all
echo
for part in "${parts[@]}"; do $part; done
