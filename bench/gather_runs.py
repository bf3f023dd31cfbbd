#!/usr/bin/env python3
"""Runs gatherers on drawn inputs, apart from the program: gather_runs.py [PROGRAM [SHAPES]].

Draws so many shapes, besides the least and the largest ones, and of each asks PROGRAM (by default ./avalon) for the text, as
`PROGRAM gather CHANNELS IN PARTS BITS`. The text is run by text_runs.py for 3,000 cycles on beats of random symbols and channels, with memories
that hold random words at first. Both ends are at times always there, at times often and at times seldom, and channels come at times in a row and
at times mixed. What goes out is judged by what came in alone, written from docs/INTERFACES.md: the symbols of each channel in their order, whole
beats, at most three of them behind, the ready that the source sees, and the beats that a sink is owed.
"""
import random
import subprocess
import sys
from pathlib import Path

from text_runs import Text

CYCLES, WINDOW = 3000, 8
LEAST_AND_MOST = [(2, 1, 2, 1), (2, 1, 2, 8), (16, 1, 2, 1), (2, 16, 2, 4), (2, 1, 16, 8), (16, 2, 16, 4), (16, 1, 16, 1), (3, 16, 2, 1), (2, 1, 2, 64), (5, 3, 5, 8)]


def may_be(channels, symbols, parts, bits):
    return symbols * parts <= 32 and symbols * parts * bits <= 128


def drawn_shape(rng):
    while True:
        shape = rng.randint(2, 16), rng.randint(1, 16), rng.randint(2, 16), rng.choice([1, 2, 3, 4, 7, 8, 9, 16, 32])
        if may_be(*shape):
            return shape


def text_of(program, shape):
    return subprocess.run([program, "gather", *map(str, shape)], check=True, capture_output=True).stdout


def parted(word, symbols, bits):
    """The symbols of a word, the first one from the high-order bits."""
    return [word >> bits * (symbols - 1 - k) & (1 << bits) - 1 for k in range(symbols)]


class Run:
    """A module, and what came in and went out on each channel."""

    def __init__(self, text, shape, rng):
        self.channels, self.symbols, self.parts, self.bits = shape
        self.text, self.rng = Text(text), rng
        for memory in self.text.memories:
            memory[:] = [rng.getrandbits(self.symbols * self.bits * (self.parts - 1)) for _ in memory]
        self.taken, self.given = ([[] for _ in range(self.channels)] for _ in range(2))
        self.beat, self.shown, self.cycle = None, None, 0
        self.unready = self.unpaid = 0

    def drawn(self, mixed):
        """A beat: its channel and its word."""
        channel = self.rng.randrange(self.channels) if mixed or not self.beat else self.beat[0]
        return channel, self.rng.getrandbits(self.symbols * self.bits)

    def judge(self, what, holds):
        if not holds:
            sys.exit(f"{self.channels} {self.symbols} {self.parts} {self.bits}, cycle {self.cycle}: {what}")

    def step(self, valid, channel, word, ready):
        """A cycle, judged; whether the beat was accepted."""
        taking, shows, out, out_channel = self.text.show((valid, word, channel, ready))
        whole = self.symbols * self.parts
        if self.shown:
            self.judge("a beat that waits is left", shows and (out, out_channel) == self.shown)
        self.shown = (out, out_channel) if shows and not ready else None
        owed = ready and any(len(given) + whole <= len(taken) for taken, given in zip(self.taken, self.given))
        self.unready = self.unready + 1 if ready and not taking else 0
        self.unpaid = self.unpaid + 1 if owed and not shows else 0
        self.judge("the source sees no ready", self.unready < WINDOW)
        self.judge("a beat is owed", self.unpaid < WINDOW)
        if valid and taking:
            self.taken[channel] += parted(word, self.symbols, self.bits)
        if shows and ready:
            self.judge("no such channel", out_channel < self.channels)
            self.given[out_channel] += parted(out, whole, self.bits)
        for k, (taken, given) in enumerate(zip(self.taken, self.given)):
            self.judge(f"channel {k} has other symbols", taken[:len(given)] == given)
            self.judge(f"channel {k} is far behind", len(taken) <= len(given) + 3 * whole)
            # what both have is behind us
            both = len(given) - len(given) % whole
            del taken[:both], given[:both]
        self.text.edge()
        self.cycle += 1
        return valid and taking

    def run(self):
        accepted = 0
        for cycle in range(CYCLES):
            if cycle % 200 == 0:
                often, room, mixed = self.rng.choice([1, .7, .2]), self.rng.choice([1, .7, .2]), self.rng.random() < .7
            if self.beat is None:
                self.beat = self.drawn(mixed)
                waiting = False
            valid = waiting or self.rng.random() < often
            ready = self.rng.random() < room
            waiting = valid
            if self.step(int(valid), *self.beat, int(ready)):
                accepted += 1
                self.beat, waiting = self.drawn(mixed), False
        return accepted


def worked(program):
    """Parts of two channels that come in turn, before a sink that is always ready."""
    run = Run(text_of(program, (2, 1, 2, 8)), (2, 1, 2, 8), random.Random(0))
    out = []
    for channel, word in [(0, 0x11), (1, 0xaa), (0, 0x22), (1, 0xbb)]:
        _, shows, beat, beat_channel = run.text.show((1, word, channel, 1))
        out += [(beat_channel, beat)] if shows else []
        run.step(1, channel, word, 1)
    if out != [(0, 0x1122), (1, 0xaabb)]:
        sys.exit(f"the row that was worked by hand: {out}")


def main(words):
    program = Path(words[0] if words else "./avalon").resolve()
    count = int(words[1]) if len(words) > 1 else 90
    rng = random.Random(1)
    worked(program)
    beats = 0
    shapes = LEAST_AND_MOST + [drawn_shape(rng) for _ in range(count)]
    for shape in shapes:
        beats += Run(text_of(program, shape), shape, rng).run()
    print(f"{len(shapes)} gatherers, {beats} beats accepted in {CYCLES * len(shapes)} cycles")


if __name__ == "__main__":
    main(sys.argv[1:])
