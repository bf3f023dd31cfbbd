#!/usr/bin/env python3
"""Writes a bench for a module that runs waves by Icarus Verilog and counts: counting_bench.py TEXT WAVES NAME.

NAME.v reads the waves from NAME.hex, a line of all bits for each cycle, and prints in how many cycles an agent took a command or a beat, and how
many words hosts were given, each with readdatavalid.
"""
import sys
from pathlib import Path

from lockstep import end_of, ports_of
from replay_waves import digits


def counted(ports):
    """What is added in a cycle: to `taken` and to `answered`."""
    names = {name: way for way, _, name in ports}
    taken, answered = [], []
    for name, way in names.items():
        end, role = end_of(name) if "$" in name else (name, "")
        if way == "output" and role == "grant":
            shown = [wire_of(f"{end}${role}") for role in ("read", "write") if f"{end}${role}" in names]
            taken.append(f"(({' | '.join(shown)}) & ~{wire_of(f'{end}$waitrequest')})")
        if way == "output" and role == "readdatavalid":
            answered.append(wire_of(name))
    return taken, answered


def wire_of(name):
    return "p_" + name.replace("$", "_")


def added(count, terms):
    return [f"      if ({term}) {count} = {count} + 1;" for term in terms]


def main(text, waves, name):
    ports = [port for port in ports_of(text) if port[2] not in ("clk", "reset")]
    inputs = [(bits, port) for way, bits, port in ports if way == "input"]
    first, *lines = waves.splitlines()
    cycles, whole = int(first.split()[1]), sum(bits for bits, _ in inputs)
    rows = []
    for line in lines:
        row = 0
        for (bits, _), value in zip(inputs, line.split(" ")):
            row = row << bits | int(value, 16)
        rows.append(f"{row:0{digits(whole)}x}")
    Path(name + ".hex").write_text("\n".join(rows) + "\n")
    made = ["module bench;", "  reg clk = 0, reset = 1;", "  integer cycle, taken = 0, answered = 0;"]
    made += [f"  reg [{whole - 1}:0] rows [0:{cycles - 1}];", f"  reg [{whole - 1}:0] row;"]
    made += [f"  wire [{bits - 1}:0] {wire_of(port)};" for _, bits, port in ports]
    at = whole
    for bits, port in inputs:
        made.append(f"  assign {wire_of(port)} = row[{at - 1}:{at - bits}];")
        at -= bits
    joined = ["    .clk(clk)", "    .reset(reset)"] + [f"    .{port}({wire_of(port)})" for _, _, port in ports]
    made += [f"  {text.split()[1]} module_of_text (", ",\n".join(joined), "  );", "  initial begin", f'    $readmemh("{name}.hex", rows);']
    made += ["    row = 0;", "    #1 clk = 1;", "    #1 clk = 0; reset = 0;", f"    for (cycle = 0; cycle < {cycles}; cycle = cycle + 1) begin"]
    taken, answered = counted(ports)
    made += ["      row = rows[cycle];", "      #1;", *added("taken", taken), *added("answered", answered), "      clk = 1;", "      #1 clk = 0;", "    end"]
    made += ['    $display("taken %0d answered %0d", taken, answered);', "  end", "endmodule"]
    Path(name + ".v").write_text("\n".join(made) + "\n")


if __name__ == "__main__":
    main(Path(sys.argv[1]).read_text(), Path(sys.argv[2]).read_text(), sys.argv[3])
