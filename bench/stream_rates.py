#!/usr/bin/env python3
"""Prints how many symbols a cycle a module carries where both ends never stall, and how many cycles behind the first beat of the source the first
one of the sink comes: stream_rates.py TEXT FOLDER.

TEXT is a module that streams.py describes, without packets and with symbols of 8 bits. Run by Icarus Verilog.
"""
import subprocess
import sys
from pathlib import Path

from lockstep import ports_of

# each number of symbols up to 8 divides it, so that a source's and a sink's beats begin together again
BEATS = 840


def bench(text):
    lines = ["module bench;", "  reg clk = 0, reset = 1; integer cycle, came = 0, start;"]
    joins = [".clk(clk)", ".reset(reset)"]
    symbols = 0
    for way, bits, name in ports_of(text):
        flat = name.replace("$", "_")
        symbols = bits // 8 if name == "b$into$data" else symbols
        if name not in ("clk", "reset"):
            lines.append(f"  {'reg' if way == 'input' else 'wire'} [{bits - 1}:0] {flat}{' = 1' if way == 'input' else ''};")
            joins.append(f".{name}({flat})")
    lines += [f"  stream_interconnect join_ ({', '.join(joins)});", "  initial begin", "    #5 clk = 1; #1 reset = 0;"]
    lines += [f"    for (cycle = 0; came <= {BEATS} && cycle < {16 * BEATS}; cycle = cycle + 1) begin", "      #4 clk = 0;"]
    lines += ["      if (b_into_valid) begin if (came == 0) start = cycle; came = came + 1; end", "      #5 clk = 1; #1;", "    end"]
    lines += [f'    $display("%0.2f %0d", {symbols * BEATS}.0 / (cycle - 1 - start), start);', "    $finish;", "  end", "endmodule"]
    return "\n".join(lines) + "\n"


text, folder = Path(sys.argv[1]), Path(sys.argv[2])
(folder / "rates.v").write_text(bench(text.read_text()))
subprocess.run(["iverilog", "-g2005", "-s", "bench", "-o", folder / "rates", folder / "rates.v", text], check=True)
rate, delay = subprocess.run(["vvp", folder / "rates"], check=True, capture_output=True, text=True).stdout.split()
print(f"{float(rate):g} {delay}")
