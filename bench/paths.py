#!/usr/bin/env python3
"""Levels of logic on the longest path of each kind in a module of tables, as yosys writes it: paths.py TABLES.json [FROM TO].

A path begins at an input port, or at a register or a memory, and ends at an output port, or at one of those again. Printed are the most
tables in a row on a path of each kind, in the order of `COLUMNS`, and then of all. With FROM and TO, of the names in `KINDS`, one longest path of
that kind is printed, a net a line.
"""
import json
import sys
from pathlib import Path

# the kinds of ends: what the hosts say or the agents say, and registers
KINDS = ["command", "wait", "valid", "word", "register"]
COLUMNS = [
    ("command", "command"), ("command", "wait"), ("command", "register"), ("wait", "wait"), ("wait", "register"), ("valid", "valid"),
    ("valid", "register"), ("word", "word"), ("register", "command"), ("register", "wait"), ("register", "valid"), ("register", "word"),
    ("register", "register"),
]
# the ports of tables, registers and memories
GIVEN, CLOCKS = ("Y", "Q", "RD_DATA"), ("C", "RD_CLK", "WR_CLK")
ROLES = {"waitrequest": "wait", "readdatavalid": "valid", "readdata": "word", "response": "word"}


def kind_of(port):
    """The kind of a port, None where nothing is timed. A number of the host that is served goes with the agent's command."""
    return None if port in ("clk", "reset") else ROLES.get(port.split("$")[-1], "command")


class Tables:
    """Each net has either inputs, those of the table that gives it, or the kind in which a path begins there."""

    def __init__(self, module):
        self.inputs, self.begins, self.ends, self.names, self.known = {}, {}, [], {}, {}
        for name, port in module["ports"].items():
            for bit in port["bits"]:
                if port["direction"] == "input":
                    self.begins[bit] = kind_of(name)
                else:
                    self.ends.append((bit, kind_of(name)))
        for cell in module["cells"].values():
            self.add(cell)
        for name, net in module["netnames"].items():
            for place, bit in enumerate(net["bits"]):
                if bit not in self.names or len(name) < len(self.names[bit].split("[")[0]):
                    self.names[bit] = f"{name}[{place}]"

    def add(self, cell):
        given, taken = [], []
        for port, bits in cell["connections"].items():
            if port in GIVEN:
                given += bits
            elif port not in CLOCKS:
                taken += bits
        if cell["type"] == "$lut":
            self.inputs[given[0]] = taken
        else:
            self.begins.update((bit, "register") for bit in given)
            self.ends += [(bit, "register") for bit in taken]

    def before(self, net):
        """The longest path to a net from each kind: (tables, the net before it)."""
        waiting = [net]
        while waiting:
            each = waiting[-1]
            later = [bit for bit in self.inputs.get(each, []) if bit not in self.known]
            if later:
                waiting += later
                continue
            waiting.pop()
            if each not in self.known:
                kind, most = self.begins.get(each), {}
                if kind:
                    most[kind] = (0, None)
                for bit in self.inputs.get(each, []):
                    for start, (tables, _) in self.known[bit].items():
                        if start not in most or most[start][0] <= tables:
                            most[start] = (tables + 1, bit)
                self.known[each] = most
        return self.known[net]

    def longest(self):
        """Of each kind of path the most tables, and the net in which it ends."""
        most = {}
        for net, end in self.ends:
            for start, (tables, _) in self.before(net).items():
                if end and tables > most.get((start, end), (-1, None))[0]:
                    most[start, end] = (tables, net)
        return most

    def path(self, start, end):
        tables, net = self.longest()[start, end]
        while net is not None:
            yield f"{self.before(net)[start][0]:3} {self.names.get(net, net)}"
            net = self.before(net)[start][1]


def main(file, *kinds):
    (module,) = [module for module in json.loads(Path(file).read_text())["modules"].values() if int(module["attributes"].get("top", "0"), 2)]
    tables = Tables(module)
    if kinds:
        print("\n".join(tables.path(*kinds)))
        return
    most = tables.longest()
    print(*(most[column][0] if column in most else "-" for column in COLUMNS), max(levels for levels, _ in most.values()))


if __name__ == "__main__":
    main(*sys.argv[1:])
