#!/usr/bin/env python3
"""Writes random waves for a module, and a bench that runs them by Icarus Verilog: replay_waves.py TEXT CYCLES NAME [dump].

NAME.waves is what `replay` reads. NAME.v prints what `replay` does, a line a cycle; it reads the same inputs from NAME.hex, a line of all
bits for each cycle, and sets memories to 0, as `replay` does. With `dump` it also has Icarus dump all signals of the module into NAME.vcd:
cycle k stands there at time 2 + 2 k, and its edge comes one later.
"""
import random
import re
import sys
from pathlib import Path

from lockstep import ports_of


def digits(bits):
    return (bits + 3) // 4


def main(text, cycles, name, dumps):
    module = text.split()[1]
    ports = ports_of(text)
    inputs = [(bits, port) for way, bits, port in ports if way == "input" and port not in ("clk", "reset")]
    outputs = [(bits, port) for way, bits, port in ports if way == "output"]
    whole = sum(bits for bits, _ in inputs)
    draw = random.Random(1)
    waves, rows = [f"cycles {cycles}"], []
    for _ in range(cycles):
        values = [draw.getrandbits(bits) for bits, _ in inputs]
        waves.append(" ".join(f"{value:0{digits(bits)}x}" for (bits, _), value in zip(inputs, values)))
        row = 0
        for (bits, _), value in zip(inputs, values):
            row = row << bits | value
        rows.append(f"{row:0{digits(whole)}x}")
    Path(name + ".waves").write_text("\n".join(waves) + "\n")
    Path(name + ".hex").write_text("\n".join(rows) + "\n")
    joined = ["    .clk(clk)", "    .reset(reset)"]
    at = whole
    for bits, port in inputs:
        joined.append(f"    .{port}(row[{at - 1}:{at - bits}])")
        at -= bits
    joined += [f"    .{port}(o{k})" for k, (_, port) in enumerate(outputs)]
    shown = " ".join(f"{port}=%h" for _, port in outputs)
    values = ", ".join(f"o{k}" for k in range(len(outputs)))
    lines = ["module bench;", "  reg clk = 0, reset = 1;", "  integer cycle;", f"  reg [{whole - 1}:0] rows [0:{cycles - 1}];", f"  reg [{whole - 1}:0] row;"]
    lines += [f"  wire [{bits - 1}:0] o{k};" for k, (bits, _) in enumerate(outputs)]
    lines += [f"  {module} module_of_text (", ",\n".join(joined), "  );", "  initial begin", f'    $readmemh("{name}.hex", rows);']
    for memory, last in re.findall(r"reg \[\d+:0\] (m\d+) \[0:(\d+)\];", text):
        lines.append(f"    for (cycle = 0; cycle <= {last}; cycle = cycle + 1) module_of_text.{memory}[cycle] = 0;")
    if dumps:
        lines += [f'    $dumpfile("{name}.vcd");', "    $dumpvars(1, module_of_text);"]
    lines += ["    row = 0;", "    #1 clk = 1;"]
    lines += ["    #1 clk = 0; reset = 0;", f"    for (cycle = 0; cycle < {cycles}; cycle = cycle + 1) begin", "      row = rows[cycle];"]
    lines += [f'      #1 $display("%0d {shown}", cycle, {values});', "      clk = 1;", "      #1 clk = 0;", "    end", f'    $display("end {cycles}");', "  end", "endmodule"]
    Path(name + ".v").write_text("\n".join(lines) + "\n")


if __name__ == "__main__":
    main(Path(sys.argv[1]).read_text(), int(sys.argv[2]), sys.argv[3], sys.argv[4:] == ["dump"])
