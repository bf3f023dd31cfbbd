#!/usr/bin/env python3
"""Runs two modules of streams.py side by side over random beats, by Icarus Verilog:
stream_lockstep.py OURS THEIRS FOLDER PACE SYMBOLS FURTHER..

The source has the ready latency, as 1, or with its ready allowance, as 1+3, and so many symbols in a beat, and keeps the rules: a beat stays until it is accepted, and packets begin and end.
Both ends are at times often there and at times seldom. Both modules must show the same in each cycle. What a beat shows counts where it is valid,
and `empty` where it ends a packet. FURTHER are files with what THEIRS may be made of.
"""
import subprocess
import sys
from pathlib import Path

from lockstep import ports_of, random, renamed
from streams import pace_of

CYCLES = 40000
START = ["  initial begin", "    #5 clk = 1; #1 reset = 0;"]
MOOD = "      if (cycle % 256 == 0) begin often_valid = $random & 7; often_ready = $random & 7; end"
CLOCK = ["      #5 clk = 1; #1;", "    end"]


def nets(ports):
    """The nets of both modules, with a_ before the outputs of ours and b_ before those of theirs, and the modules. Inputs are shared."""
    lines = []
    for way, bits, name in ports:
        for mark in [""] if way == "input" else ["a_", "b_"]:
            kind, start = ("reg", " = 0") if way == "input" else ("wire", "")
            lines.append(f"  {kind} [{bits - 1}:0] {mark}{flat(name)}{start};")
    for mark, module in (("a_", "ours"), ("b_", "theirs")):
        joins = [f".{name}({'' if way == 'input' else mark}{flat(name)})" for way, _, name in ports]
        lines.append(f"  {module} {mark}module (.clk(clk), .reset(reset), {', '.join(joins)});")
    return lines


def flat(name):
    return name.split("$", 1)[1].replace("$", "_")


def drawn_beat(sizes, symbols):
    """Sets a beat, which follows what is `open`."""
    lines = [f"out_data = {random(sizes['out_data'])};"]
    if "out_endofpacket" in sizes:
        lines += ["out_startofpacket = !open;", "out_endofpacket = ($random & 7) == 0;", "open = !out_endofpacket;"]
    if "out_empty" in sizes:
        lines += [f"out_empty = out_endofpacket ? $unsigned($random) % {symbols} : $random;"]
    return lines


def in_cycles(ports, sizes, pace, symbols):
    """What the source shows goes to both, and it goes by the ready of ours."""
    latency, allowance = pace
    lines = ["module bench;", "  reg clk = 0, reset = 1, open = 0, sent = 0; reg [2:0] often_valid, often_ready; integer cycle, errors = 0, beats = 0;"]
    lines += [f"  reg [{max(latency, 1) - 1}:0] promised = 0; reg came = 0; integer since = 0;"] + nets(ports)
    lines += START + ["    " + line for line in drawn_beat(sizes, symbols)]
    lines += [f"    for (cycle = 0; cycle < {CYCLES}; cycle = cycle + 1) begin", MOOD]
    due = f"promised[{latency - 1}]"
    may = f"(came || {due}) && since < {allowance} && " if allowance > latency else f"{due} && " if latency else ""
    lines += [f"      out_valid = {may}($random & 7) <= often_valid;", "      into_ready = ($random & 7) <= often_ready;", "      #4 clk = 0;"]
    for way, _, name in ports:
        if way == "output":
            name = flat(name)
            when = "1" if name in ("out_ready", "into_valid", "into_dropped") else "a_into_valid"
            when += " && a_into_endofpacket" if name == "into_empty" else ""
            told = f'$display("cycle %0d: {name} %h %h", cycle, a_{name}, b_{name});'
            lines.append(f"      if ({when} && a_{name} !== b_{name}) begin errors = errors + 1; if (errors < 5) {told} end")
    lines.append("      beats = beats + (a_into_valid && into_ready);")
    lines.append("      sent = out_valid;")
    lines.append(f"      if (out_valid{'' if latency else ' && a_out_ready'}) begin")
    lines += ["        " + line for line in drawn_beat(sizes, symbols)] + ["      end"]
    if latency:
        lines += ["      since = a_out_ready ? 0 : since + sent;", f"      came = came || {due};", "      promised = {promised, a_out_ready};"]
    lines += CLOCK + ['    if (errors == 0 && beats > 1000) $display("same over %0d cycles, %0d beats", cycle, beats);']
    lines += ['    else $display("%0d differences, %0d beats", errors, beats);', "    $finish;", "  end", "endmodule"]
    return "\n".join(lines) + "\n"


def main():
    ours, theirs, folder = Path(sys.argv[1]).read_text(), Path(sys.argv[2]).read_text(), Path(sys.argv[3])
    pace, symbols = pace_of(sys.argv[4]), int(sys.argv[5])
    ports = [port for port in ports_of(ours) if port[2] not in ("clk", "reset")]
    sizes = {flat(name): bits for _, bits, name in ports}
    (folder / "ours.v").write_text(renamed(ours, "ours"))
    (folder / "theirs.v").write_text(renamed(theirs, "theirs"))
    (folder / "lockstep.v").write_text(in_cycles(ports, sizes, pace, symbols))
    files = [folder / "lockstep.v", folder / "ours.v", folder / "theirs.v"] + sys.argv[6:]
    subprocess.run(["iverilog", "-g2005", "-s", "bench", "-o", folder / "lockstep"] + files, check=True)
    said = subprocess.run(["vvp", folder / "lockstep"], check=True, capture_output=True, text=True).stdout
    print(said, end="")
    if not said.startswith("same"):
        sys.exit(1)


if __name__ == "__main__":
    main()
