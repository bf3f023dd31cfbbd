#!/usr/bin/env python3
"""Writes a file of waves (VCD) with a scope for each instance and each interface, of what `avalon replay` prints or of another such file."""
import argparse
import re

from scripts import Fault, Header, read_text, run

LONG = """\
waves.py TEXT WAVES OUTPUTS >NAME.vcd
waves.py OTHER.vcd >NAME.vcd

TEXT is what `avalon generate` writes, WAVES the inputs as `avalon replay` reads them, and OUTPUTS what it prints. GTKWave and other viewers show
the file. A cycle has 10 ns; the values are those before its rising edge, which comes in its middle.

OTHER.vcd is a file of waves in which signals are named INSTANCE$INTERFACE$role, as a simulator writes of the generated module; these get scopes.
"""


def code(number):
    """A short name of a signal."""
    word = ""
    while True:
        word += chr(33 + number % 94)
        number //= 94
        if number == 0:
            return word


def scopes(rows):
    """The lines of signals, each with its kind, its width, its code and its name, in scopes by their names."""
    lines, tree = [], {}
    for kind, width, it, name in rows:
        instance, interface, role = name.split("$")
        tree.setdefault(instance, {}).setdefault(interface, []).append(f"$var {kind} {width} {it} {role} $end")
    for instance, interfaces in tree.items():
        lines.append(f"$scope module {instance} $end")
        for interface, signals in interfaces.items():
            lines += [f"$scope module {interface} $end", *signals, "$upscope $end"]
        lines.append("$upscope $end")
    return lines


def heads(header, codes):
    rows = [("wire", width, codes[name], name) for name, width, _ in header.ports]
    return ["$timescale 1ns $end", f"$scope module {header.name}_interconnect $end", f"$var wire 1 {code(0)} clk $end", *scopes(rows),
            "$upscope $end", "$enddefinitions $end"]


def rewritten(text):
    """A file of waves, in which signals whose names have three parts stand in scopes."""
    head, mark, rest = text.partition("$enddefinitions")
    if not mark:
        raise Fault("this is no file of waves")
    lines, waiting = [], [[]]
    for line in head.splitlines():
        found = re.match(r"\s*\$var\s+(\w+)\s+(\d+)\s+(\S+)\s+(\w+\$\w+\$\w+)(?:\s+\[\d+:\d+\])?\s+\$end", line)
        if found:
            waiting[-1].append(found.groups())
            continue
        if line.strip().startswith("$scope"):
            waiting.append([])
        if line.strip().startswith("$upscope"):
            lines += scopes(waiting.pop())
        lines.append(line)
    return "\n".join(lines) + "\n" + mark + rest


def replayed(text, waves, outputs):
    """The lines of a file of waves of a replay."""
    header = Header(read_text(text), text)
    codes = {name: code(k) for k, (name, _, _) in enumerate(header.ports, 1)}
    inputs = [name for name, _, is_output in header.ports if not is_output]
    rows, told = read_text(waves).splitlines()[1:], read_text(outputs).splitlines()
    if len(told) != len(rows) + 1 or told[-1] != f"end {len(rows)}":
        raise Fault(f"{outputs} isn't what `avalon replay` prints of {waves}")
    yield from heads(header, codes)
    last = {}
    for cycle, row in enumerate(rows):
        now = dict(zip(inputs, row.split(" ")))
        now |= dict(re.findall(r" ([^ =]+)=([0-9a-f]+)", told[cycle]))
        yield f"#{10 * cycle}\n0{code(0)}"
        for name, value in now.items():
            if last.get(name) != value:
                yield f"b{int(value, 16):b} {codes[name]}"
        last = now
        yield f"#{10 * cycle + 5}\n1{code(0)}"
    yield f"#{10 * len(rows)}"


def main():
    words = argparse.ArgumentParser(description=LONG, formatter_class=argparse.RawDescriptionHelpFormatter)
    words.add_argument("files", nargs="+", metavar="file")
    files = words.parse_args().files
    if len(files) == 1:
        print(rewritten(read_text(files[0])), end="")
    elif len(files) == 3:
        for line in replayed(*files):
            print(line)
    else:
        words.error("a text, its waves and their outputs, or one file of waves")


if __name__ == "__main__":
    run(main)
