#!/usr/bin/env bash
# Shows what `dump` writes to GTKWave's converters and to Icarus Verilog, and times `dump` and `undump`: dump.sh [PROGRAM].
# For the texts of the examples and of the first 24 workload systems on 200 cycles of random waves: `fst2vcd` gives back what `vcd2fst` took, at
# each time; Icarus's own `$dumpvars` has the same values at each port in each cycle; and `undump` writes what judge_dumps.py reads. The last
# also of dumps with codes of two and three bytes and of 65,536 cycles. Then seconds and memory, on the camera's text and on files of 16 MiB.
# Needs Debian's gtkwave and iverilog. Fails where something differs. Not part of the gate.
set -eu
top=$(cd -- "$(dirname -- "$0")/.." && pwd)
program=$(readlink -f -- "${1:-$top/avalon}")
folder=$(mktemp -d)
trap 'rm -rf "$folder"' EXIT
for tool in iverilog vvp vcd2fst fst2vcd python3; do
  command -v "$tool" >/dev/null || { echo "$tool isn't installed"; exit 1; }
done
export PYTHONDONTWRITEBYTECODE=1 ASAN_OPTIONS=detect_leaks=0

# A dump: GTKWave's converters take it, and give it back.
convert() {
  rm -f back.fst
  vcd2fst "$1" back.fst
  fst2vcd back.fst >back
  "$top/bench/dump_values.py" same "$1" back >/dev/null
}

# A dump: it is read as judge_dumps.py reads it.
read_back() {
  "$program" undump "$1" >rows
  "$top/bench/judge_dumps.py" "$1" | cmp - rows
}

# A title, and the scripts of a system, in the folder that they are in.
show() {
  local title=$1 same
  shift
  "$program" generate "$@" >"$folder/text.v"
  cd "$folder"
  rm -f one.vcd
  "$top/bench/replay_waves.py" text.v 200 one dump
  "$program" dump text.v one.waves >dump.vcd
  iverilog -g2005 -o one.vvp text.v one.v
  vvp -n one.vvp >/dev/null
  convert dump.vcd
  read_back dump.vcd
  same=$("$top/bench/dump_values.py" sampled dump.vcd one.vcd)
  echo "$title: $same, as Icarus and GTKWave's converters have them"
}

# A title, and the number of ports and of cycles of a drawn dump, which GTKWave's converters are shown as well.
drawn() {
  "$top/bench/drawn_dump.py" "$2" "$3" >drawn.vcd
  read_back drawn.vcd
  convert drawn.vcd
  echo "$1: $2 ports, $3 cycles, read back"
}

# A title and a command: its seconds and its memory at most, the best of three runs. Its output goes to `said`.
measure() {
  python3 - "$@" <<'PY'
import os, subprocess, sys, time
best, memory = 1e9, 0
for _ in range(3):
    with open("said", "wb") as said:
        began = time.monotonic()
        process = subprocess.Popen(sys.argv[2:], stdout=said)
        _, status, used = os.wait4(process.pid, 0)
        best, memory = min(best, time.monotonic() - began), max(memory, used.ru_maxrss)
    if status:
        sys.exit(f"{sys.argv[1]}: status {os.waitstatus_to_exitcode(status)}")
print(f"{sys.argv[1]}: {best:.2f} s, {memory / 1024:.0f} MiB")
PY
}

cd "$top/examples/dump"
"$program" dump ../replay/camera.v ../replay/camera.waves | cmp - camera.vcd
echo "examples/dump: camera.vcd is what is written"
while read -r example scripts; do
  cd "$top/examples/$example"
  show "examples/$example/${scripts%% *}" $scripts
done <<'EXAMPLES'
one one.tcl gen.tcl chk.tcl
bus bus.tcl master.tcl memory.tcl
pair pair.tcl master.tcl memory.tcl
stream stream.tcl camera.tcl scaler.tcl
stream packets.tcl tuner.tcl framer.tcl voices.tcl mixer.tcl
top board.tcl master.tcl memory.tcl counter.tcl display.tcl
video video.tcl cpu.tcl rom.tcl dram.tcl camera.tcl writer.tcl reader.tcl screen.tcl
control control.tcl cpu.tcl ram.tcl flash.tcl port.tcl
shared shared.tcl cpu.tcl ram.tcl
simulate turns.tcl cpu.tcl dma.tcl ram.tcl
simulate pixels.tcl camera.tcl screen.tcl
EXAMPLES
cd "$folder"
for number in $(seq 0 23); do
  "$top/bench/workload_scripts.py" "$number" "$folder"
  show "workload $number" $(cat files)
done
drawn "codes of one byte and of two" 95 20
drawn "codes of three bytes" 9000 3
drawn "as many cycles as there may be" 2 65536

"$top/bench/replay_waves.py" "$top/examples/replay/camera.v" 65536 camera
measure "replay of the camera, 65,536 cycles" "$program" replay "$top/examples/replay/camera.v" camera.waves
measure "dump of it" "$program" dump "$top/examples/replay/camera.v" camera.waves
cp said camera.vcd
measure "undump of that" "$program" undump camera.vcd
"$top/bench/drawn_dump.py" 7 65536 32 >wide.vcd
"$top/bench/drawn_dump.py" 420000 1 >ports.vcd
for file in wide ports; do
  measure "undump of $(stat -c %s $file.vcd) bytes, $(grep -c '^\$var' $file.vcd) ports" "$program" undump $file.vcd
done
