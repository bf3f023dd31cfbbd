#!/usr/bin/env python3
"""A test bench in Python over a generated text, without a simulator.

    from pybench import Module

    it = Module("board_interconnect.v")
    it["cpu_0.data.read"] = 1              # an input keeps its value until another is set
    it["cpu_0.data.waitrequest"]           # a port in this cycle, before the clock's edge
    it.edge()                              # the clock's edge; the run begins behind reset, with memories of 0

A port is INSTANCE.INTERFACE.role. `python3 helpers/pybench.py TEXT` lists the ports of a text. It runs the text by bench/text_runs.py, some ten
thousand cycles a second for a small one.
"""
import sys
from pathlib import Path

sys.path.insert(0, str(Path(__file__).resolve().parent.parent / "bench"))

from text_runs import Text  # pylint: disable=wrong-import-position


class Module:
    def __init__(self, file):
        self.text = Text(Path(file).read_bytes())
        self.widths = {name.replace("$", "."): bits for name, bits in self.text.inputs + self.text.outputs}
        self.inputs = {name.replace("$", "."): 0 for name, _ in self.text.inputs}
        self.outputs = [name.replace("$", ".") for name, _ in self.text.outputs]
        self.cycle, self.shown = 0, None

    def __setitem__(self, name, value):
        if name not in self.inputs:
            raise KeyError(f"{name} is no input of {self.text.name}")
        if not 0 <= value < 1 << self.widths[name]:
            raise ValueError(f"{value} doesn't fit the {self.widths[name]} bits of {name}")
        self.inputs[name], self.shown = value, None

    def show(self):
        """All outputs in this cycle, by their names."""
        if self.shown is None:
            self.shown = dict(zip(self.outputs, map(int, self.text.show(tuple(self.inputs.values())))))
        return self.shown

    def __getitem__(self, name):
        return self.inputs[name] if name in self.inputs else self.show()[name]

    def edge(self, cycles=1):
        """So many edges of the clock, with the inputs as they stand."""
        for _ in range(cycles):
            self.show()
            self.text.edge()
            self.cycle, self.shown = self.cycle + 1, None


def main(words):
    if words[:1] in (["-h"], ["--help"]):
        print(__doc__)
        return
    if len(words) != 1:
        sys.exit(__doc__)
    it = Module(words[0])
    for name, bits in it.widths.items():
        print(f"{'in ' if name in it.inputs else 'out'} {bits:3} {name}")


if __name__ == "__main__":
    main(sys.argv[1:])
