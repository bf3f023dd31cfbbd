#!/usr/bin/env python3
"""Writes a module in the emitted form, to be run in lanes: lane_modules.py random NETS SEED | lane_modules.py operators

`random` has so many nets: inputs of some widths, registers, a few memories, and operators over earlier nets, mostly of
1 to 64 bits. `operators` has each operator at the widths 1, 63, 64, 65, 127 and 128, a register of each and a memory of
each.
"""
import sys
from random import Random

WIDTHS = [1, 1, 1, 1, 4, 8, 16, 32, 32, 36, 64, 72, 128]


class Writer:
    def __init__(self, name):
        self.name, self.ports, self.memories, self.nets, self.registers, self.outputs = name, [], [], [], [], []
        self.widths, self.writes = [], []

    def net(self, width, right):
        self.nets.append(f"  wire [{width - 1}:0] n{len(self.nets)} = {right};")
        self.widths.append(width)
        return len(self.nets) - 1

    def input(self, width):
        port = f"p{len(self.ports)}$d"
        self.ports.append(f"  input wire [{width - 1}:0] {port}")
        return self.net(width, port)

    def register(self, width):
        self.nets.append(f"  reg [{width - 1}:0] n{len(self.nets)};")
        self.widths.append(width)
        self.registers.append(len(self.nets) - 1)
        return len(self.nets) - 1

    def memory(self, width, bits):
        self.memories.append(f"  reg [{width - 1}:0] m{len(self.memories)} [0:{2**bits - 1}];")
        return len(self.memories) - 1

    def output(self, net):
        port = f"o{len(self.outputs)}$d"
        self.ports.append(f"  output wire [{self.widths[net] - 1}:0] {port}")
        self.outputs.append(f"  assign {port} = n{net};")

    def text(self, next_of, reset_of):
        lines = [f"module {self.name}_interconnect (", "  input wire clk,", "  input wire reset" + ("," if self.ports else "")]
        lines += [f"{port}," for port in self.ports[:-1]] + self.ports[-1:] + [");"] + self.memories + self.nets
        for net in self.registers:
            width = self.widths[net]
            reset = f"{width}'h{reset_of(net):0{(width + 3) // 4}x}"
            lines.append(f"  always @(posedge clk) if (reset) n{net} <= {reset}; else n{net} <= n{next_of(net)};")
        lines += [f"  always @(posedge clk) if (n{e}) m{m}[n{a}] <= n{b};" for m, (e, a, b) in enumerate(self.writes)]
        return "\n".join(lines + self.outputs + ["endmodule"]) + "\n"


def of_width(writer, random, width):
    """An earlier net of this width, made of others where there is none."""
    found = [net for net in range(max(0, len(writer.widths) - 400), len(writer.widths)) if writer.widths[net] == width]
    if found:
        return random.choice(found)
    wide = [net for net, other in enumerate(writer.widths) if other > width]
    if wide:
        net = random.choice(wide)
        low = random.randint(0, writer.widths[net] - width)
        return writer.net(width, f"n{net}[{low + width - 1}:{low}]")
    half = width // 2
    return writer.net(width, f"{{n{of_width(writer, random, width - half)}, n{of_width(writer, random, half)}}}")


def operator(writer, random):
    width = random.choice(WIDTHS)
    a, b = of_width(writer, random, width), of_width(writer, random, width)
    kind = random.randrange(12)
    if kind < 5:
        return writer.net(width, f"n{a} {'&|^+-'[kind]} n{b}")
    if kind < 7:
        return writer.net(width, f"n{of_width(writer, random, 1)} ? n{a} : n{b}")
    if kind < 9:
        return writer.net(1, f"n{a} {['==', '<'][kind - 7]} n{b}")
    if kind == 9:
        return writer.net(width, f"~n{a}")
    if kind == 10:
        return writer.net(1, f"|n{a}")
    other = random.choice([w for w in (1, 8, 16, 32) if width + w <= 128] or [0])
    return writer.net(width + other, f"{{n{a}, n{of_width(writer, random, other)}}}") if other else writer.net(width, f"~n{a}")


def random_module(count, seed):
    random, writer = Random(seed), Writer("random")
    for k in range(max(8, count // 40)):
        writer.input(WIDTHS[k % len(WIDTHS)])
    for k in range(max(4, count // 8)):
        writer.register(WIDTHS[k % len(WIDTHS)])
    for k in range(max(1, min(64, count // 300))):
        memory = writer.memory(random.choice([8, 36, 72]), 4)
        writer.net(int(writer.memories[memory].split("[")[1].split(":")[0]) + 1, f"m{memory}[n{of_width(writer, random, 4)}]")
    while len(writer.nets) < count:
        operator(writer, random)
    for memory in range(len(writer.memories)):
        width = int(writer.memories[memory].split("[")[1].split(":")[0]) + 1
        writer.writes.append((of_width(writer, random, 1), of_width(writer, random, 4), of_width(writer, random, width)))
    for net in random.sample(range(len(writer.nets)), min(16, len(writer.nets))):
        writer.output(net)
    nexts = {net: of_width(writer, random, writer.widths[net]) for net in writer.registers}
    return writer.text(nexts.get, lambda net: random.getrandbits(writer.widths[net]))


def operators_module():
    writer, widths = Writer("operators"), [1, 63, 64, 65, 127, 128]
    pairs = [(writer.input(width), writer.input(width)) for width in widths]
    choice, address = writer.input(1), writer.input(4)
    for memory, width in enumerate(widths):
        writer.memory(width, 4)
    results = []
    for (a, b), width in zip(pairs, widths):
        last = [writer.net(width, f"n{a} {sign} n{b}") for sign in "&|^+-"]
        bits = [writer.net(1, f"n{a} {sign} n{b}") for sign in ("==", "<")] + [writer.net(1, f"|n{a}")]
        last += [writer.net(width, f"~n{a}"), writer.net(width, f"n{choice} ? n{a} : n{b}")]
        register = writer.register(width)
        read = writer.net(width, f"m{widths.index(width)}[n{address}]")
        last += [writer.net(width, f"n{register} + n{last[3]}"), writer.net(width, f"n{read} ^ n{a}")]
        results.append((bits, last, register))
    for (a, _), width in zip(pairs, widths):
        writer.net(width, f"n{a}[{width - 1}:0]")
        if width > 1:
            writer.net(width // 2, f"n{a}[{width - 1}:{width - width // 2}]")
            writer.net(1, f"n{a}[{width // 2}:{width // 2}]")
    for (one, _), (two, _), width, other in [(pairs[i], pairs[j], widths[i], widths[j]) for i in range(6) for j in range(6)]:
        if width + other <= 128:
            writer.net(width + other, f"{{n{one}, n{two}}}")
    for (bits, last, _), (a, b) in zip(results, pairs):
        writer.writes.append((bits[1], address, a))
    for _, last, _ in results:
        writer.output(last[-1])
    nexts = {register: last[-2] for _, last, register in results}
    return writer.text(nexts.get, lambda net: 1)


def main(what, *words):
    sys.stdout.write(operators_module() if what == "operators" else random_module(*map(int, words)))


if __name__ == "__main__":
    main(*sys.argv[1:])
