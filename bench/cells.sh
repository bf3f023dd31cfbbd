# Read by scripts that weigh modules: looks for the tools, makes a folder that goes as the script ends, and counts cells with yosys.
folder=$(mktemp -d)
trap 'rm -rf "$folder"' EXIT
for tool in yosys iverilog; do
  command -v "$tool" >/dev/null || { echo "$tool isn't installed"; exit 1; }
done
# further words of the synthesis
synthesis=

# A module and its files: `LOGIC FLIPFLOPS LEVELS MEMORY`. A bit of memory counts as a logic cell; MEMORY says how many of these are such. A memory
# ends a path.
cells_of() {
  local module=$1 files=${*:2}
  yosys -q -p "read_verilog $files; synth_intel_alm -family cyclonev $synthesis -top $module; tee -q -o $folder/cells stat" >"$folder/said" 2>&1 || { cat "$folder/said" >&2; exit 1; }
  yosys -q -p "read_verilog $files; synth -flatten -top $module -run begin:fine; chtype -set memory t:\$mem_v2; synth -lut 6 -run fine:check; tee -q -o $folder/levels ltp -noff" >"$folder/said" 2>&1 || { cat "$folder/said" >&2; exit 1; }
  awk '/MISTRAL_FF/ { registers += $2 } /MISTRAL_(ALUT|NOT|MLAB)/ { logic += $2 } END { printf "%d %d ", logic, registers }' "$folder/cells"
  grep -o 'length=[0-9]*' "$folder/levels" | tail -n 1 | cut -d= -f2 | tr '\n' ' '
  awk '/MISTRAL_MLAB/ { memory += $2 } END { print memory + 0 }' "$folder/cells"
}
