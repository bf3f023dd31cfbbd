#!/usr/bin/env python3
"""Runs the generated text with a reader, a writer, a processor and a memory, and prints the waves of README.md: bench.py TEXT."""
import sys
from pathlib import Path

sys.path.insert(0, str(Path(__file__).resolve().parent.parent.parent / "helpers"))

from pybench import Module  # pylint: disable=wrong-import-position

CYCLES = 27


class Host:
    """Shows its beats in order, each from its cycle on, until it is accepted."""

    def __init__(self, module, name, beats):
        self.module, self.name, self.beats = module, name, beats

    def show(self, cycle):
        first, values = self.beats[0] if self.beats else (CYCLES, {})
        for role in ("read", "write", "address", "burstcount", "writedata", "byteenable"):
            if f"{self.name}.{role}" in self.module.inputs:
                self.module[f"{self.name}.{role}"] = values.get(role, 0) if first <= cycle else 0

    def accept(self):
        shows = any(self.module[f"{self.name}.{role}"] for role in ("read", "write") if f"{self.name}.{role}" in self.module.inputs)
        if shows and not self.module[f"{self.name}.waitrequest"]:
            del self.beats[0]


class Memory:
    """Never waits, and gives the first word three cycles after a read; word n holds n."""

    def __init__(self, module, name):
        self.module, self.name, self.waiting, self.left = module, name, [], 0

    def show(self, cycle):
        comes = bool(self.waiting) and self.waiting[0][0] <= cycle
        self.module[f"{self.name}.readdatavalid"] = comes
        self.module[f"{self.name}.readdata"] = self.waiting.pop(0)[1] if comes else 0

    def accept(self, cycle):
        """Takes what is shown, and tells whether it is the first beat of a burst."""
        count, word = self.module[f"{self.name}.burstcount"], self.module[f"{self.name}.address"]
        is_first = self.left == 0
        if self.module[f"{self.name}.read"]:
            self.waiting += [(cycle + 3, word + k) for k in range(count)]
        elif self.module[f"{self.name}.write"]:
            self.left = (count if is_first else self.left) - 1
        return is_first


def rows_of(module, is_first):
    """What the table shows of a cycle, row by row; None stands for what doesn't count."""
    reader, writer, cpu, memory = "reader_0.frame.", "writer_0.frame.", "cpu_0.data.", "dram_0.s."

    def value(name, counts, form="x", mask=(1 << 64) - 1):
        return f"{module[name] & mask:{form}}" if counts else None

    reads, writes = module[reader + "read"], module[writer + "write"]
    asks, taken = module[cpu + "read"] or module[cpu + "write"], module[memory + "read"] or module[memory + "write"]
    yield "reader read", value(reader + "read", True)
    yield "reader burstcount", value(reader + "burstcount", reads, "d")
    yield "reader waitrequest", value(reader + "waitrequest", reads)
    yield "reader readdata", value(reader + "readdata", module[reader + "readdatavalid"])
    yield "", None
    yield "writer write", value(writer + "write", True)
    yield "writer burstcount", value(writer + "burstcount", writes, "d")
    yield "writer writedata", value(writer + "writedata", writes)
    yield "writer waitrequest", value(writer + "waitrequest", writes)
    yield "", None
    yield "cpu write", value(cpu + "write", True)
    yield "cpu read", value(cpu + "read", True)
    yield "cpu address", value(cpu + "address", asks)
    yield "cpu waitrequest", value(cpu + "waitrequest", asks)
    yield "", None
    yield "memory read", value(memory + "read", True)
    yield "memory write", value(memory + "write", True)
    yield "memory address", value(memory + "address", taken and is_first)
    yield "memory burstcount", value(memory + "burstcount", taken and is_first, "d")
    yield "memory byteenable", value(memory + "byteenable", taken, "02x")
    yield "memory grant", value(memory + "grant", taken)
    yield "memory readdata", value(memory + "readdata", module[memory + "readdatavalid"])


def main():
    if len(sys.argv) != 2:
        sys.exit(__doc__)
    module = Module(sys.argv[1])
    burst = [(0 if k < 3 else 9, {"write": 1, "address": 0x2000, "burstcount": 10, "writedata": 0xa0 + k}) for k in range(10)]
    single = {"write": 1, "address": 0x104, "writedata": 0xc0c1c2c3, "byteenable": 3}
    hosts = [Host(module, "reader_0.frame", [(0, {"read": 1, "address": 0x100, "burstcount": 20})]), Host(module, "writer_0.frame", burst),
             Host(module, "cpu_0.data", [(1, single)] + [(1, {"read": 1, "address": address, "byteenable": 15}) for address in (0x100, 0x104)])]
    memory, table = Memory(module, "dram_0.s"), []
    for cycle in range(CYCLES):
        memory.show(cycle)
        for host in hosts:
            host.show(cycle)
        table.append(list(rows_of(module, memory.accept(cycle))))
        for host in hosts:
            host.accept()
        module.edge()
    print("cycle".ljust(19) + "".join(f"{cycle:4}" for cycle in range(CYCLES)))
    for at, (name, _) in enumerate(table[0]):
        cells = [row[at][1] or "." for row in table]
        print((name.ljust(19) + "".join(f"{cell:>4}" for cell in cells)) if name else "")


if __name__ == "__main__":
    main()
