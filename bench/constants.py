#!/usr/bin/env python3
"""Counts what needn't stand in generated texts: constants.py PROGRAM [SYSTEMS], 300 where nothing is said.

A net is dead where no output port rests on it. A bit of a register is constant where it has the value of its reset in each cycle of every
run, and so is a bit of a memory's words where only 0 is ever written to it: as many such bits as hold one another up, found bit by bit in three
values. A third of the systems are workloads, the others the drawn ones of latency.py that aren't plain, with `response` at hosts and agents as is
drawn. Each system with something left is told, and then the sums; `whole` are registers of which each bit is constant.
"""
import random
import re
import subprocess
import sys
from pathlib import Path
from tempfile import TemporaryDirectory

import latency
from row_scripts import agent_script, host_script, system_script
from workload_scripts import scripts_of as scripts_of_workload

NET = re.compile(r"  (?:wire|reg) \[(\d+):0\] n(\d+)(?: = (.*))?;$")
MEMORY = re.compile(r"  reg \[(\d+):0\] m(\d+) \[0:(\d+)\];$")
REGISTER = re.compile(r"  always @\(posedge clk\) if \(reset\) n(\d+) <= \d+'h(\w+); else n\d+ <= n(\d+);$")
WRITE = re.compile(r"  always @\(posedge clk\) if \(n(\d+)\) m(\d+)\[n(\d+)\] <= n(\d+);$")
OUTPUT = re.compile(r"  assign \S+ = n(\d+);$")
NUMBER = re.compile(r"n(\d+)")


class Text:
    """The equations of a text: of each net its width and its right side, of registers their reset and the net behind, of memories bits and words."""

    def __init__(self, text):
        self.nets, self.registers, self.memories, self.writes, self.outputs = {}, {}, {}, {}, []
        for line in text.splitlines():
            if found := NET.match(line):
                self.nets[int(found[2])] = (int(found[1]) + 1, found[3] or "")
            elif found := MEMORY.match(line):
                self.memories[int(found[2])] = (int(found[1]) + 1, int(found[3]) + 1)
            elif found := REGISTER.match(line):
                self.registers[int(found[1])] = (int(found[2], 16), int(found[3]))
            elif found := WRITE.match(line):
                self.writes.setdefault(int(found[2]), []).append((int(found[1]), int(found[3]), int(found[4])))
            elif found := OUTPUT.match(line):
                self.outputs.append(int(found[1]))
        self.sides = {net: side_of(side) for net, (_, side) in self.nets.items() if net not in self.registers}

    def dead(self):
        """The nets on which no output rests, but for those of input ports."""
        reached, waiting = set(), list(self.outputs)
        while waiting:
            net = waiting.pop()
            if net in reached:
                continue
            reached.add(net)
            if net in self.registers:
                waiting.append(self.registers[net][1])
                continue
            kind, *parts = self.sides[net]
            if kind == "m":
                waiting.append(parts[1])
                waiting += [each for write in self.writes.get(parts[0], []) for each in write]
            elif kind in INPUTS:
                waiting += parts[: INPUTS[kind]]
        return [net for net in self.nets if net not in reached and self.sides.get(net, ("",))[0] != "port"]

    def constants(self):
        """Of each register, and of each memory, the bits that are constant, as a mask."""
        values = {net: (ones(self.nets[net][0]), reset) for net, (reset, _) in self.registers.items()}
        kept, order, changed = {memory: ones(bits) for memory, (bits, _) in self.memories.items()}, sorted(self.sides), True
        while changed:
            changed = False
            for net in order:
                values[net] = value_of(self.sides[net], self.nets, values, kept)
            for net, (_, behind) in self.registers.items():
                value = either(values[net], values[behind])
                changed |= value != values[net]
                values[net] = value
            for memory, writes in self.writes.items():
                for enable, _, word in writes:
                    known, value = values[word]
                    stays = kept[memory] if values[enable] == (1, 0) else kept[memory] & known & ~value
                    changed |= stays != kept[memory]
                    kept[memory] = stays
        return {net: values[net][0] for net in self.registers}, kept


# how many of the parts of a side are nets
INPUTS = {"~": 1, "any": 1, "[": 1, "?": 3, "{": 2, "&": 2, "|": 2, "^": 2, "+": 2, "-": 2, "==": 2, "<": 2}


def side_of(side):
    """A right side as its kind and its numbers: nets first, but for a memory."""
    numbers = [int(number) for number in NUMBER.findall(side)]
    if "'h" in side:
        return "number", int(side.split("'h")[1], 16)
    if "$" in side:
        return ("port",)
    if side[0] == "m":
        return "m", int(side[1:].split("[")[0]), numbers[0]
    if side[0] in "~{":
        return side[0], *numbers
    if side[0] == "|":
        return "any", *numbers
    if "?" in side:
        return "?", *numbers
    if "[" in side:
        high, low = side.split("[")[1].rstrip("]").split(":")
        return "[", numbers[0], int(low)
    return side.split()[1], *numbers


def ones(bits):
    return (1 << bits) - 1


def either(one, other):
    """What is known where it is one of two values, each a mask of the known bits and their levels."""
    known = one[0] & other[0] & ~(one[1] ^ other[1])
    return known, one[1] & known


def value_of(side, nets, values, kept):
    kind, *parts = side
    if kind == "number":
        return -1, parts[0]
    if kind == "port":
        return 0, 0
    if kind == "m":
        return kept[parts[0]], 0
    known, value = values[parts[0]]
    full = ones(nets[parts[0]][0])
    known &= full
    if kind == "?":
        return values[parts[1] if value else parts[2]] if known else either(values[parts[1]], values[parts[2]])
    if kind == "~":
        return known, known & ~value
    if kind == "any":
        return (1, 1) if value else (int(known == full), 0)
    if kind == "[":
        return known >> parts[1], value >> parts[1]
    other, level = values[parts[1]]
    width = nets[parts[1]][0]
    other &= ones(width)
    if kind == "{":
        return known << width | other, value << width | level
    if kind == "&":
        return known & ~value | other & ~level | value & level, value & level
    if kind == "|":
        return value | level | known & ~value & other & ~level, value | level
    both = known & other
    if kind == "^":
        return both, (value ^ level) & both
    if kind == "==":
        return (1, 0) if both & (value ^ level) else (int(both == full), int(value == level))
    if kind == "<":
        return (1, 1) if value | full & ~known < level else (1, 0) if value >= level | full & ~other else (0, 0)
    # the low bits of a sum or a difference, as long as both are known
    low = (both + 1 & ~both) - 1 if both != full else full
    return low, (value + level if kind == "+" else value - level) & low


# ---- the systems

def scripts_of(number):
    """What a system is called, and its scripts, its system's first."""
    if number % 3 == 0:
        return f"workload {number // 3}", scripts_of_workload(number // 3)
    kinds, draw = [kind for kind in latency.KINDS if not kind.startswith("plain")], random.Random(number)
    kind = kinds[number % len(kinds)]
    row = latency.drawn(kind, number, 1)
    for host in row.hosts:
        host.response = draw.random() < 0.3
    for agent in row.agents:
        agent.codes = "0" if draw.random() < 0.3 else None
    ends = [host_script(host, each) for each, host in enumerate(row.hosts)] + [agent_script(agent, each) for each, agent in enumerate(row.agents)]
    return f"{kind} {number}", [system_script(row), *ends]


def generated(program, scripts):
    with TemporaryDirectory() as folder:
        names = [f"{number}.tcl" for number in range(len(scripts))]
        for name, script in zip(names, scripts):
            (Path(folder) / name).write_text(script)
        said = subprocess.run([program, "generate", *names], cwd=folder, stdout=subprocess.PIPE, check=False)
    assert said.returncode == 0, said.stdout
    return Text(said.stdout.decode())


def main(program, systems="300"):
    program, sums = str(Path(program).resolve()), [0] * 7
    for number in range(int(systems)):
        name, scripts = scripts_of(number)
        text = generated(program, scripts)
        dead, (registers, memories) = text.dead(), text.constants()
        bits = {f"n{net}": bin(mask & ones(text.nets[net][0])).count("1") for net, mask in registers.items()}
        words = {f"m{memory}": bin(mask).count("1") * text.memories[memory][1] for memory, mask in memories.items()}
        counts = [len(text.nets), len(dead), sum(text.nets[net][0] for net in registers), sum(bits.values()),
                  sum(width * depth for width, depth in text.memories.values()), sum(words.values()),
                  sum(mask & ones(text.nets[net][0]) == ones(text.nets[net][0]) for net, mask in registers.items())]
        sums = [one + other for one, other in zip(sums, counts)]
        left = [f"n{net} dead" for net in dead] + [f"{count} bits of {each}" for each, count in {**bits, **words}.items() if count]
        if left:
            print(f"{name}: {', '.join(left)}", flush=True)
    nets, dead, register_bits, constant, memory_bits, never, whole = sums
    print(f"{systems} systems: {dead} of {nets} nets dead; constant {constant} of {register_bits} bits of registers, {whole} whole, "
          f"and {never} of {memory_bits} bits of memory")


if __name__ == "__main__":
    main(*sys.argv[1:])
