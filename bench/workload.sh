#!/usr/bin/env bash
# Cycles a second of the workload systems, beside Icarus Verilog on the same text and the same inputs: workload.sh [PROGRAM].
#
# First `workload N` for N from 0 to 23, of 2,000 cycles; its seconds are those of the whole call: the launcher's look at the sources, the system
# and its scenario, the module, its text written and read back, and the run with what stands in for the components. Then `simulate` of all
# these systems for 20,000 cycles, on a scenario in which each host and each source does its statements a hundred times over; its seconds
# are those of the whole call too, scripts and trace included.
# Beside each are the seconds of `vvp`, which runs the inputs of that simulation, as judge_traces.py gives them, from a file, so that its components
# cost it nothing; and of `iverilog`, which compiles the text for it. `times` is how many times as long `vvp` alone took as our whole call, and `of all`
# how many times as long both took. Both must count the same.
# The hosts of a workload are done after some hundred cycles, so the second table is nearer to a busy system.
# Not part of the gate.
set -eu
top=$(cd -- "$(dirname -- "$0")/.." && pwd)
program=$(readlink -f -- "${1:-$top/avalon}")
# in memory where there is a folder for it, since traces of many lines go there
folder=$(mktemp -d -p "$([ -w /dev/shm ] && echo /dev/shm || echo "${TMPDIR:-/tmp}")")
trap 'rm -rf "$folder"' EXIT
for tool in iverilog vvp python3; do
  command -v "$tool" >/dev/null || { echo "$tool isn't installed"; exit 1; }
done
export PYTHONDONTWRITEBYTECODE=1

# The seconds of a command, whose output goes to a file: the least of five calls.
seconds() {
  local file=$1 from turn
  shift
  for turn in 1 2 3 4 5; do
    from=$EPOCHREALTIME
    "$@" >"$file"
    echo "$EPOCHREALTIME $from"
  done | awk '{ printf "%.4f\n", $1 - $2 }' | sort -n | head -1
}

# What a trace counts of commands that agents took and of words that hosts were given.
counts_of() {
  awk '$2 == "read" || $2 == "write" { taken++ } $2 == "get" { answered++ } END { print "taken", taken + 0, "answered", answered + 0 }' "$1"
}

# A row of the table: a number, cycles, and our seconds. Theirs must have counted what is in `ours`.
row() {
  local number=$1 cycles=$2 ours=$3 compiled theirs
  "$top/bench/judge_traces.py" waves text w.tcl scenario.txt $(tail -n +2 files) >waves
  "$top/bench/counting_bench.py" text waves bench
  compiled=$(seconds said iverilog -g2005 -o bench.vvp text bench.v)
  theirs=$(seconds theirs vvp -n bench.vvp)
  cmp ours theirs
  echo "$number $(grep -cE '^  (wire|reg) \[[0-9]+:0\] n' text) $cycles $ours $theirs $compiled" |
    awk '{ printf "%6d %6d %6d %8.4f %8.4f %8.4f %10d %10d %6.1f %6.1f\n", $1, $2, $3, $4, $5, $6, $3 / $4, $3 / $5, $5 / $4, ($5 + $6) / $4 }'
}

table() {
  echo "$1"
  printf '%6s %6s %6s %8s %8s %8s %10s %10s %6s %6s\n' number nets cycles "ours s" "vvp s" iverilog "ours /s" "vvp /s" times "of all"
}

cd "$folder"
"$program" workload 0 >ours # where it isn't built yet, it is built here
table "workload NUMBER"
for number in $(seq 0 23); do
  "$top/bench/workload_scripts.py" "$number" .
  "$program" generate $(cat files) >text
  ours=$(seconds line "$program" workload "$number")
  cut -d' ' -f5-8 line >ours
  row "$number" 2000 "$ours"
done
table "simulate, a longer scenario"
for number in $(seq 0 23); do
  "$top/bench/workload_scripts.py" "$number" . 100 20000
  "$program" generate $(cat files) >text
  ours=$(seconds trace "$program" simulate w.tcl scenario.txt $(tail -n +2 files))
  counts_of trace >ours
  row "$number" 20000 "$ours"
done
