#!/usr/bin/env bash
# How long 64 files of 1 MiB each take to be read and judged. Prints seconds; judges nothing. Not part of the gate.
set -eu
top=$(cd -- "$(dirname -- "$0")/.." && pwd)
folder=$(mktemp -d)
trap 'rm -rf "$folder"' EXIT
cp "$top"/examples/one/*.tcl "$folder"
"$top/avalon" generate "$folder/one.tcl" "$folder/gen.tcl" "$folder/chk.tcl" >/dev/null
files=()
for k in $(seq 1 64); do
  # A component of a type of its own behind blanks, so that each file is read to its end and the last is judged too.
  sed "s/NAME gen/NAME gen$k/" "$folder/gen.tcl" >"$folder/component"
  { head -c $((1048576 - $(stat -c %s "$folder/component"))) /dev/zero | tr '\0' ' '; cat "$folder/component"; } >"$folder/$k.tcl"
  files+=("$folder/$k.tcl")
done
began=$(date +%s.%N)
"$top/avalon" generate "${files[@]}" || true
echo "64 files of 1 MiB: $(echo "$(date +%s.%N) - $began" | bc) s"
