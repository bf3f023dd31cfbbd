#!/usr/bin/env python3
"""Runs two modules of routed.py side by side over random beats, by Icarus Verilog: routed_lockstep.py OURS THEIRS FOLDER SYMBOLS FURTHER..

Each source keeps the rules: a beat stays until it is accepted, packets begin and end, and a packet is on one channel. Sources and sinks are at
times often there and at times seldom. Both modules must show the same in each cycle. What a beat shows counts where it is valid, and `empty`
where it ends a packet. FURTHER are files with what THEIRS may be made of.
"""
import subprocess
import sys
from pathlib import Path

from lockstep import ports_of, random, renamed

CYCLES = 40000


def flat(name):
    return name.replace("$", "_")


def end_of(name):
    return name.split("$")[0]


def nets(ports):
    """The nets of both modules, with a_ before the outputs of ours and b_ before those of theirs, and the modules. Inputs are shared."""
    lines = []
    for way, bits, name in ports:
        for mark in [""] if way == "input" else ["a_", "b_"]:
            kind, start = ("reg", " = 0") if way == "input" else ("wire", "")
            lines.append(f"  {kind} [{bits - 1}:0] {mark}{flat(name)}{start};")
    for mark, module in (("a_", "ours"), ("b_", "theirs")):
        joins = [f".{name}({'' if way == 'input' else mark}{flat(name)})" for way, _, name in ports]
        lines.append(f"  {module} {mark}module (.clk(clk), .reset(reset), {', '.join(joins)});")
    return lines


def drawn_beat(end, sizes, symbols, sinks):
    """Sets a beat, which follows what is open at the end."""
    e = f"{end}_st"
    lines = [f"{e}_data = {random(sizes[f'{e}_data'])};"]
    if f"{e}_channel" in sizes:
        lines.append(f"if (!open_{end}) {e}_channel = $unsigned($random) % {sinks};")
    lines += [f"{e}_startofpacket = !open_{end};", f"{e}_endofpacket = ($random & 3) == 0;", f"open_{end} = !{e}_endofpacket;"]
    if f"{e}_empty" in sizes:
        lines.append(f"{e}_empty = {e}_endofpacket ? $unsigned($random) % {symbols} : $random;")
    return lines


def bench(ports, symbols):
    sizes = {flat(name): bits for _, bits, name in ports}
    sources = [end_of(name) for way, _, name in ports if way == "input" and name.endswith("$valid")]
    sinks = [end_of(name) for way, _, name in ports if way == "input" and name.endswith("$ready")]
    often = ", ".join(f"often_{end}" for end in sources + sinks)
    lines = ["module bench;", f"  reg clk = 0, reset = 1; reg [2:0] {often}; integer cycle, errors = 0, beats = 0;"]
    lines += [f"  reg open_{end} = 0, shown_{end} = 0;" for end in sources] + nets(ports) + ["  initial begin", "    #5 clk = 1; #1 reset = 0;"]
    lines += [f"    for (cycle = 0; cycle < {CYCLES}; cycle = cycle + 1) begin"]
    lines += [f"      if (cycle % 256 == 0) {{{often}}} = {random(3 * len(sources + sinks))};"]
    for end in sources:
        # a beat that wasn't accepted stays
        lines += [f"      if (!shown_{end} && ($random & 7) <= often_{end}) begin"]
        lines += ["        " + line for line in drawn_beat(end, sizes, symbols, len(sinks)) + [f"shown_{end} = 1;"]]
        lines += ["      end", f"      {end}_st_valid = shown_{end};"]
    lines += [f"      {end}_st_ready = ($random & 7) <= often_{end};" for end in sinks] + ["      #4 clk = 0;"]
    for way, _, name in ports:
        if way == "output":
            end, name = end_of(name), flat(name)
            when = "1" if name.endswith(("_ready", "_valid")) else f"a_{end}_st_valid"
            when += f" && a_{end}_st_endofpacket" if name.endswith("_empty") else ""
            told = f'$display("cycle %0d: {name} %h %h", cycle, a_{name}, b_{name});'
            lines.append(f"      if ({when} && a_{name} !== b_{name}) begin errors = errors + 1; if (errors < 5) {told} end")
    lines += [f"      if (shown_{end} && a_{end}_st_ready) begin beats = beats + 1; shown_{end} = 0; end" for end in sources]
    lines += ["      #5 clk = 1; #1;", "    end", '    if (errors == 0 && beats > 1000) $display("same over %0d cycles, %0d beats", cycle, beats);']
    lines += ['    else $display("%0d differences, %0d beats", errors, beats);', "    $finish;", "  end", "endmodule"]
    return "\n".join(lines) + "\n"


def main():
    ours, theirs, folder, symbols = Path(sys.argv[1]).read_text(), Path(sys.argv[2]).read_text(), Path(sys.argv[3]), int(sys.argv[4])
    ports = [port for port in ports_of(ours) if port[2] not in ("clk", "reset")]
    (folder / "ours.v").write_text(renamed(ours, "ours"))
    (folder / "theirs.v").write_text(renamed(theirs, "theirs"))
    (folder / "lockstep.v").write_text(bench(ports, symbols))
    files = [folder / "lockstep.v", folder / "ours.v", folder / "theirs.v"] + sys.argv[5:]
    subprocess.run(["iverilog", "-g2005", "-s", "bench", "-o", folder / "lockstep"] + files, check=True)
    said = subprocess.run(["vvp", folder / "lockstep"], check=True, capture_output=True, text=True).stdout
    print(said, end="")
    if not said.startswith("same"):
        sys.exit(1)


if __name__ == "__main__":
    main()
