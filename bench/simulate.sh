#!/usr/bin/env bash
# Simulates the systems of examples/simulate and the lane of examples/campaign, and judges their traces by a program apart from this one
# (judge_traces.py); so it does those of the first 24 workload systems, and their lines: simulate.sh [PROGRAM]. Not part of the gate.
set -eu
top=$(cd -- "$(dirname -- "$0")/.." && pwd)
program=$(readlink -f -- "${1:-$top/avalon}")
folder=$(mktemp -d)
trap 'rm -rf "$folder"' EXIT
export PYTHONDONTWRITEBYTECODE=1

# A system, a scenario, and components, in the folder that they are in.
judge() {
  local system=$1 scenario=$2
  shift 2
  "$program" generate "$system" "$@" >"$folder/text"
  "$program" simulate "$system" "$scenario" "$@" >"$folder/trace"
  "$top/bench/judge_traces.py" judge "$folder/trace" "$folder/text" "$system" "$scenario" "$@"
}

cd "$top/examples/simulate"
judge turns.tcl turns.scenario cpu.tcl dma.tcl ram.tcl
cmp "$folder/trace" turns.trace
judge pixels.tcl pixels.scenario camera.tcl screen.tcl
cmp "$folder/trace" pixels.trace
cd "$top/examples/campaign"
./lane.py 5 4 | cmp - lane_4.scenario
judge boot.tcl lane_4.scenario fetch.tcl flash.tcl
cmp "$folder/trace" lane_4.trace
cd "$folder"
for number in $(seq 0 23); do
  "$top/bench/workload_scripts.py" "$number" "$folder"
  judge w.tcl scenario.txt $(tail -n +2 files)
  "$program" workload "$number" >"$folder/line"
  "$top/bench/judge_traces.py" workload "$number" "$program" | cmp - "$folder/line"
done
