#!/usr/bin/env bash
# Lets each allocation of a call of each command fail in turn: faults.sh [PROGRAM]. Each run must end with status 10 and write `no
# memory` and no byte of a result. While the words of the call are read there is no such line, and where there is no room for all
# of them at once, it is asked for one by one: then the result is whole.
# Needs cc and the C library of GNU, since `rt try --fail-alloc` builds the program anew for each number. Not part of the gate.
set -eu
top=$(cd -- "$(dirname -- "$0")/.." && pwd)
program=$(readlink -f -- "${1:-$top/bin/avalon}")
folder=$(mktemp -d)
trap 'rm -rf "$folder"' EXIT
cc -O2 -shared -fPIC -o "$folder/failing.so" "$top/bench/failing_alloc.c"
cd "$folder"
cp "$top"/examples/one/*.tcl "$top"/examples/replay/camera.{v,waves} "$top"/examples/dump/camera.vcd .
cp "$top"/examples/bridge/{board.tcl,board.bytes,console.tcl,ram.tcl,leds.tcl} .
cat >three.scenario <<END
cycles 6
beat gen.out 11 0 0 s 0
beat gen.out 22 0 0 - 0
beat gen.out 33 0 0 e 0
stall chk.st 010
END
echo 'no memory' >no_memory
: >nothing

# Runs words without the allocation of a number: whether it came. `status` and `written` are of the run.
runs_without() {
  local number=$1
  shift
  status=0
  FAIL_ALLOC=$number LD_PRELOAD=$folder/failing.so "$program" "$@" >written 2>refused || status=$?
  [ -s refused ]
}

# How many allocations read so many words: a call of as many that have no reading takes no others.
count_for_words() {
  words=0
  while runs_without $((words + 1)) $(yes - | head -n "$1"); do words=$((words + 1)); done
}

is_due() {
  case $status in
    10) if (($1 > words)); then cmp -s written no_memory; else cmp -s written nothing; fi ;;
    0) (($1 <= words)) && cmp -s written whole ;;
    *) false ;;
  esac
}

judge() {
  local number=1 others=0
  count_for_words $#
  "$program" "$@" >whole
  while runs_without $number "$@"; do
    if ! is_due $number; then
      others=$((others + 1))
      echo "$*: allocation $number: status $status, $(wc -c <written) bytes"
    fi
    number=$((number + 1))
  done
  cmp written whole
  echo "$1: $((number - 1)) allocations, $words for words, $others not as they should"
  [ $others = 0 ]
}

judge generate one.tcl gen.tcl chk.tcl
judge simulate one.tcl three.scenario gen.tcl chk.tcl
judge campaign 5 one.tcl gen.tcl chk.tcl
judge check one.tcl gen.tcl chk.tcl
judge replay camera.v camera.waves
judge dump camera.v camera.waves
judge undump camera.vcd
judge bridge 400 board.tcl board.bytes console.tcl ram.tcl leds.tcl
judge workload 1
judge mux 2 3 8
judge demux 2 3 8
judge gather 2 2 2 8
