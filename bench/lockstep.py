#!/usr/bin/env python3
"""Runs two modules of one header side by side over random inputs, by Icarus Verilog: lockstep.py OURS THEIRS FOLDER [FURTHER]..

FURTHER are files with what THEIRS may be made of. Agents with readdatavalid, which have waitrequest too, give a word only where they owe
one, as the rules ask, since the two may differ where a word comes that nobody asked. So hosts with burstcount keep its rules too.
What an output shows counts only where it means something: a host's word where it is valid, and of it the lanes that its read enabled; a
command where it is shown, its word only where it writes; the address and the burstcount of a burst in its first beat. At an agent with
waitrequest a beat that waits stands unchanged, its word too, and a module that changes it is told.
"""
import re
import subprocess
import sys
from pathlib import Path

CYCLES = 40000
MOST_WORDS = 1024  # more than a host can be owed


def ports_of(text):
    """The ports of a module: (direction, bits, name)."""
    header = text[: text.index(");")]
    found = re.findall(r"(input|output)\s+(?:wire\s+)?(?:\[(\d+):0\]\s+)?([\w$]+)", header)
    return [(way, int(high or 0) + 1, name) for way, high, name in found]


def renamed(text, name):
    return re.sub(r"\bmodule\s+[\w$]+", f"module {name}", text, count=1)


def end_of(name):
    return name.rsplit("$", 1)


def random(bits):
    return "{" + ", ".join(["$random"] * ((bits + 31) // 32)) + "}"


def told(condition, what, *values):
    """Counts a difference, and tells of the first ones."""
    shown = "".join(f", {value}" for value in values)
    return f'if ({condition}) begin errors = errors + 1; if (errors < 5) $display("cycle %0d: {what}{" %h" * len(values)}", cycle{shown}); end'


def bench(ports):
    inputs = [p for p in ports if p[0] == "input" and p[2] not in ("clk", "reset")]
    outputs = [p for p in ports if p[0] == "output"]
    lines = ["module bench;", "  reg clk = 0, reset = 1; integer cycle, errors = 0;"]
    flat = lambda name: name.replace("$", "_")
    for _, bits, name in inputs:
        lines.append(f"  reg [{bits - 1}:0] {flat(name)} = 0;")
    for _, bits, name in outputs:
        lines.append(f"  wire [{bits - 1}:0] a_{flat(name)}, b_{flat(name)};")
    for which in "ab":
        joined = [".clk(clk)", ".reset(reset)"] + [f".{n}({flat(n)})" for _, _, n in inputs] + [f".{n}({which}_{flat(n)})" for _, _, n in outputs]
        lines.append(f"  {'ours' if which == 'a' else 'theirs'} {which} ({', '.join(joined)});")
    names = {n for _, _, n in ports}
    agents = sorted({end_of(n)[0] for _, _, n in outputs if end_of(n)[1] == "grant"})
    hosts = sorted({end_of(n)[0] for w, _, n in outputs if end_of(n)[1] == "waitrequest"})
    saying = [agent for agent in agents if f"{agent}$readdatavalid" in names]
    for agent in saying:
        lines.append(f"  integer owed_{flat(agent)} = 0;")
    for host in hosts:
        lines.append(f"  reg stands_{flat(host)} = 0;")
    # the lanes of the words that a host is still to be given
    lanes = {end_of(n)[0]: bits for _, bits, n in inputs if end_of(n)[1] == "byteenable"}
    for host, bits in lanes.items():
        h = flat(host)
        lines += [f"  reg [{bits - 1}:0] lanes_{h} [0:{MOST_WORDS - 1}]; integer asked_{h} = 0, given_{h} = 0, word_{h};"]
        lines += [f"  wire [{bits - 1}:0] enabled_{h} = {f'lanes_{h}[given_{h} % {MOST_WORDS}]' if f'{host}$readdatavalid' in names else f'{h}_byteenable'};"]
    # what a beat at an agent was that waited, and whether one did
    commands = {agent: [n for _, _, n in outputs if end_of(n)[0] == agent and end_of(n)[1] != "grant"] for agent in agents}
    waiting = [agent for agent in agents if f"{agent}$waitrequest" in names]
    widths = {name: bits for _, bits, name in ports}
    for agent in waiting:
        for which in "ab":
            lines.append(f"  reg [{sum(widths[n] for n in commands[agent]) - 1}:0] was_{which}_{flat(agent)}; reg waited_{which}_{flat(agent)} = 0;")
    bursting = sorted({end_of(n)[0] for _, _, n in ports if end_of(n)[-1] == "burstcount"})
    for end in bursting:
        lines.append(f"  integer left_{flat(end)} = 0;")
    lines += ["  initial begin", "    #5 clk = 1; #1 reset = 0;", f"    for (cycle = 0; cycle < {CYCLES}; cycle = cycle + 1) begin"]
    for host in hosts:
        h = flat(host)
        lines.append(f"      if (!stands_{h}) begin")
        for _, bits, name in inputs:
            if end_of(name)[0] == host:
                role = end_of(name)[1]
                if role in ("read", "write"):
                    continue
                lines.append(f"        {flat(name)} = {random(bits)};")
                if role == "address":
                    # few high bits, so that most addresses are near a base
                    lines.append(f"        if ($random & 3) {flat(name)} = {flat(name)} & $random & $random;")
                if role == "burstcount":
                    lines.append(f"        if (left_{h} == 0) {flat(name)} = 1 + ($random & {(1 << bits - 1) - 1});")
        lines.append(f"        case ($random & 3) 0: begin {h}_read = 0; {h}_write = 0; end 1: begin {h}_read = 0; {h}_write = 1; end default: begin {h}_read = 1; {h}_write = 0; end endcase")
        if host in bursting and f"{host}$read" in names:
            lines.append(f"        if (left_{h} > 0) {h}_read = 0;")
        lines.append("      end")
    for agent in agents:
        a = flat(agent)
        words = [bits for _, bits, name in inputs if name == f"{agent}$readdata"]
        gives = {"waitrequest": "($random & 3) == 0", "readdata": random(max(words, default=1))}
        if agent in saying:
            gives["readdatavalid"] = f"owed_{a} > 0 && ($random & 1)"
        lines += [f"      {a}_{role} = {value};" for role, value in gives.items() if f"{agent}${role}" in names]
    lines.append("      #4 clk = 0;")
    for _, _, name in outputs:
        end, role = end_of(name)
        f = flat(name)
        e = flat(end)
        differs = f"a_{f} !== b_{f}"
        if role in ("readdata",):
            when = f"a_{e}_readdatavalid" if f"{end}$readdatavalid" in names else f"{e}_read && !a_{e}_waitrequest"
            if end in lanes:
                mask = ", ".join(f"{{8{{enabled_{e}[{lane}]}}}}" for lane in reversed(range(lanes[end])))
                differs = f"((a_{f} ^ b_{f}) & {{{mask}}}) !== 0"
        elif role in ("address", "writedata", "byteenable", "burstcount", "grant"):
            shows = [f"a_{e}_{k}" for k in ("read", "write") if f"{end}${k}" in names]
            if role == "writedata":
                shows = [s for s in shows if s.endswith("write")]
            when = " || ".join(shows) or "1"
            if end in bursting and role in ("address", "burstcount"):
                when = f"left_{e} == 0 && ({when})"
        elif role == "waitrequest":
            when = f"{e}_read || {e}_write"
        else:
            when = "1"
        lines.append("      " + told(f"({when}) && {differs}", name, f"a_{f}", f"b_{f}"))
    for agent in waiting:
        a = flat(agent)
        for which in "ab":
            command = "{" + ", ".join(f"{which}_{flat(n)}" for n in commands[agent]) + "}"
            shown = " || ".join(f"{which}_{flat(n)}" for n in commands[agent] if end_of(n)[1] in ("read", "write"))
            changed = told(f"waited_{which}_{a} && was_{which}_{a} !== {command}", f"{'ours' if which == 'a' else 'theirs'} changes what waits at {agent}")
            lines.append(f"      {changed}")
            lines.append(f"      was_{which}_{a} = {command}; waited_{which}_{a} = ({shown}) && {a}_waitrequest;")
    for agent in saying:
        a = flat(agent)
        asked = f"a_{a}_burstcount" if agent in bursting else "1"
        lines.append(f"      owed_{a} = owed_{a} + (a_{a}_read && !{a}_waitrequest ? {asked} : 0) - {a}_readdatavalid;")
    for end in bursting:
        e = flat(end)
        beat, wait = (f"a_{e}", f"{e}_waitrequest") if end in agents else (e, f"a_{e}_waitrequest")
        if f"{end}$write" in names:
            lines.append(f"      if ({beat}_write && !{wait}) left_{e} = (left_{e} ? left_{e} : {beat}_burstcount) - 1;")
    for host in lanes:
        h = flat(host)
        words = f"{h}_burstcount" if host in bursting else "1"
        lines.append(f"      if ({h}_read && !a_{h}_waitrequest) for (word_{h} = {words}; word_{h} > 0; word_{h} = word_{h} - 1) begin")
        lines.append(f"        lanes_{h}[asked_{h} % {MOST_WORDS}] = {h}_byteenable; asked_{h} = asked_{h} + 1;")
        lines.append("      end")
        if f"{host}$readdatavalid" in names:
            lines.append(f"      given_{h} = given_{h} + a_{h}_readdatavalid;")
    for host in hosts:
        h = flat(host)
        lines.append(f"      stands_{h} = ({h}_read || {h}_write) && a_{h}_waitrequest;")
    lines += ["      #5 clk = 1; #1;", "    end", '    if (errors == 0) $display("same over %0d cycles", cycle); else $display("%0d differences", errors);', "    $finish;", "  end", "endmodule"]
    return "\n".join(lines) + "\n"


def main():
    ours, theirs, folder = Path(sys.argv[1]).read_text(), Path(sys.argv[2]).read_text(), Path(sys.argv[3])
    (folder / "ours.v").write_text(renamed(ours, "ours"))
    (folder / "theirs.v").write_text(renamed(theirs, "theirs"))
    (folder / "lockstep.v").write_text(bench(ports_of(ours)))
    files = [folder / "lockstep.v", folder / "ours.v", folder / "theirs.v"] + sys.argv[4:]
    subprocess.run(["iverilog", "-g2005", "-s", "bench", "-o", folder / "lockstep"] + files, check=True)
    said = subprocess.run(["vvp", folder / "lockstep"], check=True, capture_output=True, text=True).stdout
    print(said, end="")
    if not said.rstrip().startswith("same"):
        sys.exit(1)


if __name__ == "__main__":
    main()
