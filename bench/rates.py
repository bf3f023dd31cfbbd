#!/usr/bin/env python3
"""Prints how many of a host's writes and reads a cycle are taken where the host always asks for whole words, in its longest bursts, and nothing
waits: rates.py TEXT FOLDER [FURTHER]..

TEXT is a module that widths.py or bursts.py describes, and FURTHER are files with what it may be made of. An agent with readdatavalid gives a
word in each cycle in which it owes one. Run by Icarus Verilog.
"""
import re
import subprocess
import sys
from pathlib import Path

from lockstep import ports_of

CYCLES = 1600


def bench(text):
    ports = ports_of(text)
    module = re.search(r"\bmodule\s+(\w+_interconnect)", text).group(1)
    lines = ["module bench;", "  reg clk = 0, reset = 1; integer cycle, writes = 0, reads = 0, owed = 0;"]
    joins = [".clk(clk)", ".reset(reset)"]
    for way, bits, name in ports:
        flat = name.replace("$", "_")
        if name not in ("clk", "reset"):
            lines.append(f"  {'reg' if way == 'input' else 'wire'} [{bits - 1}:0] {flat}{' = 0' if way == 'input' else ''};")
            joins.append(f".{name}({flat})")
    lines.append(f"  {module} join_ ({', '.join(joins)});")
    bits = {name: bits for _, bits, name in ports}
    full = ["    h_m_byteenable = ~0;"] if "h$m$byteenable" in bits else []
    full += [f"    h_m_burstcount = {1 << bits['h$m$burstcount'] - 1};"] if "h$m$burstcount" in bits else []
    phase = f"for (cycle = 0; cycle < {CYCLES}; cycle = cycle + 1) begin #4 clk = 0;"
    gives, asks = "", ""
    if "a$m$readdatavalid" in bits:
        gives = "a_m_readdatavalid = owed > 0; #1"
        asks = f"owed = owed + (a_m_read ? {'a_m_burstcount' if 'a$m$burstcount' in bits else 1} : 0) - a_m_readdatavalid; "
    lines += ["  initial begin", "    #5 clk = 1; #1 reset = 0;"] + full + ["    h_m_write = 1;", f"    {phase}"]
    lines += ["      writes = writes + !h_m_waitrequest; #5 clk = 1; #1;", "    end", "    h_m_write = 0; h_m_read = 1;", f"    {phase} {gives}"]
    lines += [f"      reads = reads + h_m_readdatavalid; {asks}#5 clk = 1; #1;", "    end"]
    lines += [f'    $display("%0.2f writes and %0.2f reads a cycle", writes / {CYCLES}.0, reads / {CYCLES}.0);', "    $finish;", "  end", "endmodule"]
    return "\n".join(lines) + "\n"


text, folder = Path(sys.argv[1]), Path(sys.argv[2])
(folder / "rates.v").write_text(bench(text.read_text()))
files = [folder / "rates.v", text] + sys.argv[3:]
subprocess.run(["iverilog", "-g2005", "-s", "bench", "-o", folder / "rates"] + files, check=True)
print(subprocess.run(["vvp", folder / "rates"], check=True, capture_output=True, text=True).stdout, end="")
