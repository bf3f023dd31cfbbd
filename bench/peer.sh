#!/usr/bin/env bash
# Gives the emitted text of each example to Icarus Verilog and Verilator, as far as they are installed, and says whether they
# take it without a word; and runs the benches of examples/top, examples/control and examples/shared. Not part of the gate.
set -eu
top=$(cd -- "$(dirname -- "$0")/.." && pwd)
folder=$(mktemp -d)
trap 'rm -rf "$folder"' EXIT

# A text, then the words of a tool that is to take it.
take() {
  local text=$1 tool=$2
  shift
  if ! command -v "$tool" >/dev/null; then
    echo "$tool isn't installed, so $(basename "$text") wasn't shown to it"
    return
  fi
  if ! "$@" "$text" >"$folder/said" 2>&1 || [ -s "$folder/said" ]; then
    cat "$folder/said"
    echo "$* doesn't take $(basename "$text")"
    exit 1
  fi
  echo "$* takes $(basename "$text")"
}

# The folder of an example, then its files, the system first.
show() {
  local example=$1 text=$folder/${2%.tcl}.v
  shift
  scripts=("$@")
  (cd "$top/examples/$example" && "$top/avalon" generate "$@") >"$text"
  take "$text" iverilog -Wall -t null
  take "$text" verilator --lint-only
}

# A folder of examples with a bench, the name of its system, which was shown last, and its Verilog: the bench passes, and prints the waves of its README.
run_bench() {
  local example=$1 name=$2
  shift 2
  if ! command -v iverilog >/dev/null; then
    echo "iverilog isn't installed, so the bench of examples/$example wasn't run"
    return
  fi
  (cd "$top/examples/$example" && python3 "$top/helpers/top.py" "$folder/$name.v" "${scripts[@]}") >"$folder/${name}_top.v"
  (cd "$top/examples/$example" && iverilog -g2005 -Wall -o "$folder/$name" "$@" "$folder/${name}_top.v" "$folder/$name.v") >"$folder/said" 2>&1 || { cat "$folder/said"; exit 1; }
  vvp "$folder/$name" >"$folder/waves"
  # the block of the README that begins with the cycles
  sed -n '/^cycle /,/^```$/{/^```$/d;p}' "$top/examples/$example/README.md" | diff - "$folder/waves" || {
    echo "the bench of examples/$example prints other waves than its README shows"
    exit 1
  }
  echo "the bench of examples/$example passes, with the waves of its README"
}

show one one.tcl gen.tcl chk.tcl
show bus bus.tcl master.tcl memory.tcl
show pair pair.tcl master.tcl memory.tcl
show stream stream.tcl camera.tcl scaler.tcl
show stream packets.tcl tuner.tcl framer.tcl voices.tcl mixer.tcl
show top board.tcl master.tcl memory.tcl counter.tcl display.tcl
run_bench top board bench.v master.v memory.v counter.v display.v
show video video.tcl cpu.tcl rom.tcl dram.tcl camera.tcl writer.tcl reader.tcl screen.tcl
show control control.tcl cpu.tcl ram.tcl flash.tcl port.tcl
run_bench control control bench.v cpu.v ram.v flash.v port.v
show shared shared.tcl cpu.tcl ram.tcl
run_bench shared shared bench.v cpu.v ram.v
