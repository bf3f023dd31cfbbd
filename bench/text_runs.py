"""Runs the text of an interconnect, apart from the program: the text becomes one Python function, which evaluates a cycle.

Written from the form of texts in docs/FORMATS.md. A text that isn't of that form is refused by judge_texts.
"""
import re

from judge_texts import Reader

NET = r"(n\d+)"
FORMS = [(re.compile(form + "$"), made) for form, made in [
    (r"\d+'h([0-9a-f]+)", lambda w, r, v: f"0x{v[0]}"),
    (rf"{NET} ([&|^]) {NET}", lambda w, r, v: f"{v[0]} {v[1]} {v[2]}"),
    (rf"{NET} ([+-]) {NET}", lambda w, r, v: f"({v[0]} {v[1]} {v[2]}) & {mask(r)}"),
    (rf"{NET} (==|<) {NET}", lambda w, r, v: f"{v[0]} {v[1]} {v[2]}"),
    (rf"{NET} \? {NET} : {NET}", lambda w, r, v: f"{v[1]} if {v[0]} else {v[2]}"),
    (rf"~{NET}", lambda w, r, v: f"{v[0]} ^ {mask(r)}"),
    (rf"\|{NET}", lambda w, r, v: f"{v[0]} != 0"),
    (rf"{NET}\[(\d+):(\d+)\]", lambda w, r, v: f"{v[0]} >> {v[2]} & {mask(int(v[1]) - int(v[2]) + 1)}"),
    (rf"\{{{NET}, {NET}\}}", lambda w, r, v: f"{v[0]} << {w[int(v[1][1:])]} | {v[1]}"),
    (rf"m(\d+)\[{NET}\]", lambda w, r, v: f"m[{v[0]}][{v[1]}]"),
]]


def mask(bits):
    return hex((1 << bits) - 1)


def right(widths, width, text):
    for form, made in FORMS:
        if found := form.match(text):
            return made(widths, width, found.groups())
    raise ValueError(text)


def listed(names):
    return "(" + "".join(name + ", " for name in names) + ")"


class Text:
    """A module: its name, its ports in the order of the header as (name, bits), and a run of it from reset on, with memories of 0."""

    def __init__(self, text):
        reader = Reader(text)
        reader.whole()
        self.name = text.split()[1].decode()
        ports = [(name.decode(), bits, output) for name, bits, output in reader.ports]
        self.inputs = [(name, bits) for name, bits, output in ports if not output]
        self.outputs = [(name, bits) for name, bits, output in ports if output]
        self.nets = len(reader.widths)
        lines = text.decode().splitlines()
        self.begin(reader, lines)
        source = self.source(reader, lines)
        names = {}
        exec(compile(source, self.name, "exec"), names)
        self.cycle = names["cycle"]

    def begin(self, reader, lines):
        """The registers as they are reset, and the memories."""
        self.clocked = re.findall(r"if \(reset\) (n\d+) <= \d+'h(\w+); else n\d+ <= (n\d+);", "\n".join(lines))
        self.registers = tuple(int(value, 16) for _, value, _ in self.clocked)
        self.memories = [[0] * (1 << bits) for _, bits in reader.memories]

    def source(self, reader, lines):
        made = ["def cycle(i, r, m):"]
        made += [f"    {listed(f'n{k}' for k in range(len(self.inputs)))} = i"] if self.inputs else []
        made += [f"    {listed(n for n, _, _ in self.clocked)} = r"] if self.clocked else []
        nets = re.compile(r"  wire \[(\d+):0\] (n\d+) = (.*);$")
        for line in lines:
            found = nets.match(line)
            if found and int(found[2][1:]) >= len(self.inputs):
                made.append(f"    {found[2]} = {right(reader.widths, int(found[1]) + 1, found[3])}")
        written = re.findall(r"if \((n\d+)\) m(\d+)\[(n\d+)\] <= (n\d+);", "\n".join(lines))
        driven = re.findall(r"  assign \S+ = (n\d+);", "\n".join(lines))
        writes = listed(f"({enable}, {memory}, {address}, {word})" for enable, memory, address, word in written)
        made.append(f"    return {listed(driven)}, {listed(n for _, _, n in self.clocked)}, {writes}")
        return "\n".join(made)

    def show(self, inputs):
        """The values of the outputs in the present cycle."""
        outputs, self.behind, self.writes = self.cycle(inputs, self.registers, self.memories)
        return outputs

    def edge(self):
        """The clock's edge, behind the inputs that were shown last."""
        self.registers = self.behind
        for enable, memory, address, word in self.writes:
            if enable:
                self.memories[memory][address] = word
