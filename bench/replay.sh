#!/usr/bin/env bash
# Times replays beside Icarus Verilog, each started anew: the text of sixteen streams with queues of 64, on one cycle of waves, which is mostly
# reading and compiling it, and on 4,000; and the camera's text of examples/stream on 65,536, with its queue of four pixels and with one of 64.
# A file of waves has at most 1,048,576 bytes.
# Prints seconds, and fails where the outputs differ. Not part of the gate.
set -eu
top=$(cd -- "$(dirname -- "$0")/.." && pwd)
folder=$(mktemp -d)
trap 'rm -rf "$folder"' EXIT
for tool in iverilog vvp python3; do
  command -v "$tool" >/dev/null || { echo "$tool isn't installed"; exit 1; }
done
export PYTHONDONTWRITEBYTECODE=1

# The seconds of a command, whose output goes to a file.
seconds() {
  local file=$1 from
  shift
  from=$(date +%s.%N)
  "$@" >"$file"
  echo "$(date +%s.%N) $from" | awk '{ printf "%.2f", $1 - $2 }'
}

# A text, and how many cycles of random waves it is replayed on.
compare() {
  local text=$1 cycles=$2 name=$1.$2 compiled replayed run
  "$top/bench/replay_waves.py" "$text" "$cycles" "$name"
  compiled=$(seconds "$name.said" iverilog -g2005 -o "$name.vvp" "$text" "$name.v")
  replayed=$(seconds "$name.ours" "$top/avalon" replay "$text" "$name.waves")
  run=$(seconds "$name.theirs" vvp -n "$name.vvp")
  cmp "$name.ours" "$name.theirs"
  echo "$text, $(grep -cE '^  (wire|reg) \[[0-9]+:0\] n' "$text") nets, $cycles cycles: replay $replayed s, iverilog $compiled s and vvp $run s; the same outputs"
}

cd "$folder"
python3 "$top/bench/largest.py" 0 0 16 0 "$folder"
"$top/avalon" generate $(cat files) >streams.v
"$top/avalon" generate "$top"/examples/stream/{stream,camera,scaler}.tcl >camera.v
sed 's/fifoDepth 4/fifoDepth 64/' "$top/examples/stream/stream.tcl" >queue.tcl
"$top/avalon" generate queue.tcl "$top"/examples/stream/{camera,scaler}.tcl >queue.v
compare streams.v 1
compare streams.v 4000
compare camera.v 65536
compare queue.v 65536
