#!/usr/bin/env bash
# Eight lanes at once and plain simulators, side by side: `bench/lanes.sh [PROGRAM [CYCLES]]`. It needs python3, iverilog
# and vvp, and for the first table the program of crates/lane_runs as LANE_RUNS. Not part of the gate. On one machine and
# in one run it prints:
#
# 1. All nets busy: random inputs in every lane and cycle, CYCLES of them (2,000) for 1,000 nets, more for fewer. Each
#    line: the nets, the seconds of the lanes, of eight plain simulators, how many times as long these took, and what the
#    lanes took of memory beyond reading the text, in bytes a net. In the first 20 cycles each net must be the same in both.
# 2. Campaigns beside eight simulations of the same scenarios, and their memory (campaign_rates.py).
# 3. `simulate` beside Icarus on the same inputs, of 20,000 cycles (workload.sh, which prints `workload` beside it first).
# 4. `replay` beside Icarus, of sixteen busy streams and of others (replay.sh, by the launcher).
set -u
top=$(cd -- "$(dirname -- "$0")/.." && pwd)
program=$(readlink -f -- "${1:-$top/avalon}")
cycles=${2:-2000}
room=$(mktemp -d) && trap 'rm -rf "$room"' EXIT
export PYTHONDONTWRITEBYTECODE=1

# The seconds and the most memory (KB) of a call on a text, whose output goes nowhere.
measure() {
  local text=$1
  shift
  /usr/bin/time -q -f "%U %M" "$@" <"$text" 2>&1 >/dev/null | tail -1
}

busy() {
  local nets=$1 lanes lanes_room plain read_room
  "$top/bench/lane_modules.py" random "$nets" 1 >"$room/module.v" || exit 1
  "$LANE_RUNS" both 20 <"$room/module.v" | grep -q "the same in each lane" || { echo "$nets nets: lanes differ" >&2; exit 1; }
  # without its last line a text is read and refused
  head -n -1 "$room/module.v" >"$room/part.v"
  read -r _ read_room < <(measure "$room/part.v" "$LANE_RUNS" lanes 1)
  read -r lanes lanes_room < <(measure "$room/module.v" "$LANE_RUNS" lanes "$((cycles * 1000 / nets + 20))")
  read -r plain _ < <(measure "$room/module.v" "$LANE_RUNS" plain "$((cycles * 1000 / nets + 20))")
  echo "$nets $lanes $plain $lanes_room $read_room" |
    awk '{ printf "%6d %8.2f %8.2f %6.1f %6.0f\n", $1, $2, $3, $3 / ($2 > 0 ? $2 : 0.01), 1024 * ($4 - $5) / $1 }'
}

echo "all nets busy"
if [ -n "${LANE_RUNS-}" ]; then
  printf '%6s %8s %8s %6s %6s\n' nets lanes eight times "a net"
  for nets in 200 1000 3000 8000 20000; do busy "$nets"; done
else
  echo "(LANE_RUNS isn't set)"
fi
echo "campaigns"
"$top/bench/campaign_rates.py" "$program"
"$top/bench/workload.sh" "$program"
echo "replay"
"$top/bench/replay.sh"
