#!/usr/bin/env python3
"""Judges multiplexers and demultiplexers by what they must do, whatever stands inside them: judge_routed.py PROGRAM COUNT [SEED]

Draws so many modules, and lets the program write each. The text is run by text_runs.py beside sources and sinks that keep the rules, and are at
times often there, seldom or never; in some runs each packet is one beat. Of each run is judged, cycle by cycle: that what a channel delivers is
what it accepted, at most two beats behind; that the module is a legal source, so no two packets are mixed; that a packet that waits is passed by
at most as many others as there are inputs; and that in eight cycles in which beats wait and the outputs are ready one is accepted, and one
delivered where a symbol waits. The program then replays the same waves, and must tell the same outputs. Last come numbers at their least, their
most and beyond.
"""
import subprocess
import sys
import tempfile
from pathlib import Path
from random import Random

from routed import channel_bits
from text_runs import Text

CYCLES = 400
WINDOW = 8
MOODS = [0, 1, 4, 7, 8, 8]  # eighths of the cycles
ACCEPTED = [(2, 1, 1), (2, 1, 8), (2, 1, 128), (2, 16, 8), (16, 1, 1), (16, 16, 8), (3, 3, 42)]
REFUSED = [(1, 1, 8), (17, 1, 8), (2, 0, 8), (2, 17, 1), (2, 1, 0), (2, 1, 129), (2, 16, 9), (2, 3, 43), (0, 1, 8)]


def demand(holds, law, cycle):
    if not holds:
        raise SystemExit(f"cycle {cycle}: {law}")


class Beats:
    """Symbols of beats: (symbol, first, last)."""

    def __init__(self, symbols, bits):
        self.symbols, self.bits = symbols, bits

    def of(self, beat):
        count = self.symbols - (beat.get("empty", 0) if beat["endofpacket"] else 0)
        low = [self.bits * (self.symbols - 1 - place) for place in range(count)]
        return [
            (beat["data"] >> shift & (1 << self.bits) - 1, beat["startofpacket"] == 1 and place == 0, beat["endofpacket"] == 1 and place == count - 1)
            for place, shift in enumerate(low)
        ]


class Source:
    """Shows beats of packets, each until it is accepted."""

    def __init__(self, random, beats, channels, lone):
        self.random, self.beats, self.channels, self.lone = random, beats, channels, lone
        self.open, self.beat, self.often, self.channel = False, None, 8, 0

    def begin(self):
        if self.beat is None and self.random.randrange(8) < self.often:
            last = self.lone or self.random.randrange(4) == 0
            if not self.open:
                self.channel = self.random.randrange(self.channels) if self.channels else 0
            self.beat = {"valid": 1, "data": self.random.getrandbits(self.beats.symbols * self.beats.bits), "endofpacket": int(last)}
            self.beat |= {"channel": self.channel, "startofpacket": int(not self.open)}
            self.beat["empty"] = self.random.randrange(self.beats.symbols) if last else 0

    def shown(self):
        return self.beat or {"valid": 0, "data": 0, "channel": 0, "startofpacket": 0, "endofpacket": 0, "empty": 0}

    def end(self, accepted):
        if accepted:
            self.open, self.beat = not self.beat["endofpacket"], None


class Legal:
    """What a source showed, and that it keeps the rules."""

    def __init__(self, beats, channels):
        self.beats, self.channels, self.open, self.channel, self.held = beats, channels, False, 0, None

    def see(self, beat, ready, cycle):
        """Whether a beat transfers."""
        beat = {role: value for role, value in beat.items() if role != "ready"}
        demand(self.held is None or beat == self.held, "a beat that waits changes", cycle)
        self.held = beat if beat["valid"] and not ready else None
        if not beat["valid"]:
            return False
        demand(beat["startofpacket"] == (not self.open), "a first mark where none is due, or none where one is", cycle)
        demand(beat.get("channel", 0) < self.channels, "a channel out of range", cycle)
        demand(not self.open or beat.get("channel", 0) == self.channel, "two channels in a packet", cycle)
        demand(not beat["endofpacket"] or beat.get("empty", 0) < self.beats.symbols, "no symbol in a last beat", cycle)
        if ready:
            self.open, self.channel = not beat["endofpacket"], beat.get("channel", 0)
        return bool(ready)


class Follows:
    """What is delivered on each channel is what was accepted there."""

    def __init__(self, channels, lag):
        self.accepted, self.delivered, self.lag = [[] for _ in range(channels)], [0] * channels, lag

    def accept(self, channel, symbols):
        self.accepted[channel] += symbols

    def deliver(self, channel, symbols, cycle):
        done = self.delivered[channel]
        demand(self.accepted[channel][done : done + len(symbols)] == symbols, f"other symbols on channel {channel}", cycle)
        self.delivered[channel] += len(symbols)

    def waits(self):
        return any(len(accepted) > done for accepted, done in zip(self.accepted, self.delivered))

    def judge(self, cycle):
        most = max(len(accepted) - done for accepted, done in zip(self.accepted, self.delivered))
        demand(most <= self.lag, "too many symbols on their way", cycle)


class Window:
    """In so many cycles with what it asks, what it promises comes."""

    def __init__(self, law):
        self.law, self.length = law, 0

    def see(self, asked, came, cycle):
        self.length = self.length + 1 if asked and not came else 0
        demand(self.length < WINDOW, self.law, cycle)


class Judge:
    def __init__(self, kind, ends, beats):
        self.kind, self.ends, self.beats = kind, ends, beats
        outputs = 1 if kind == "mux" else ends
        self.legal = [Legal(beats, ends if kind == "mux" else 1) for _ in range(outputs)]
        self.follows = Follows(ends, 2 * beats.symbols)
        self.accepts, self.delivers = Window("beats wait, and none is accepted"), Window("a symbol waits, and none is delivered")
        self.open, self.passed, self.presented = [False] * ends, [0] * ends, [False] * ends

    def see(self, ins, outs, cycle):
        """What each end shows, by role."""
        waited = self.follows.waits()
        taken = [end["valid"] and end["ready"] for end in ins]
        all_ready = all(end["ready"] for end in outs)
        inside = all(end["valid"] for end, opened in zip(ins, self.open) if opened) if self.kind == "mux" else True
        self.accepts.see(all_ready and inside and any(end["valid"] for end in ins), any(taken), cycle)
        if self.kind == "mux":
            self.fair(ins, taken, cycle)
        for number, end in enumerate(ins):
            if taken[number]:
                self.open[number] = not end["endofpacket"]
                self.follows.accept(number if self.kind == "mux" else end["channel"], self.beats.of(end))
        given = [legal.see(end, end["ready"], cycle) for legal, end in zip(self.legal, outs)]
        for number, end in enumerate(outs):
            if given[number]:
                self.follows.deliver(end["channel"] if self.kind == "mux" else number, self.beats.of(end), cycle)
        self.delivers.see(all_ready and waited, any(given), cycle)
        self.follows.judge(cycle)

    def fair(self, ins, taken, cycle):
        begun = [bool(taken[number] and end["startofpacket"]) for number, end in enumerate(ins)]
        for number, end in enumerate(ins):
            if end["valid"] and end["startofpacket"] and not self.presented[number]:
                self.presented[number], self.passed[number] = True, 0
            if taken[number]:
                self.presented[number] = False
            elif self.presented[number]:
                self.passed[number] += sum(begun[other] for other in range(self.ends) if other != number)
                demand(self.passed[number] <= self.ends, f"input {number} is passed by too often", cycle)


def by_end(ports, values):
    found = {}
    for (name, _), value in zip(ports, values):
        end, role = name.split("$st$")
        found.setdefault(end, {})[role] = int(value)
    return found


def run(text, kind, ends, symbols, bits, random):
    """The inputs of each cycle, and what the outputs show."""
    module, beats = Text(text), Beats(symbols, bits)
    comes = [f"in{number}" for number in range(ends)] if kind == "mux" else ["in"]
    goes = ["out"] if kind == "mux" else [f"out{number}" for number in range(ends)]
    judge, lone = Judge(kind, ends, beats), random.randrange(3) == 0
    sources = {end: Source(random, beats, ends if kind == "demux" else 0, lone) for end in comes}
    often, inputs, outputs = {}, [], []
    for cycle in range(CYCLES):
        if cycle % 50 == 0:
            often = {end: random.choice(MOODS) for end in goes}
            for source in sources.values():
                source.often = random.choice(MOODS) if cycle % 100 else 8
        for source in sources.values():
            source.begin()
        ready = {end: int(random.randrange(8) < often[end]) for end in goes}
        values = [ready[end] if end in ready else sources[end].shown()[role] for end, role in (name.split("$st$") for name, _ in module.inputs)]
        shown = module.show(tuple(values))
        inputs.append(values)
        outputs.append([int(value) for value in shown])
        seen = by_end(module.inputs + module.outputs, list(values) + list(shown))
        judge.see([seen[end] for end in comes], [seen[end] for end in goes], cycle)
        for end, source in sources.items():
            source.end(seen[end]["valid"] and seen[end]["ready"])
        module.edge()
    return module, inputs, outputs, sum(judge.follows.delivered)


def line(ports, values):
    return " ".join(f"{value:0{(bits + 3) // 4}x}" for (_, bits), value in zip(ports, values))


def replayed(program, text, module, inputs, outputs):
    with tempfile.TemporaryDirectory() as folder:
        (Path(folder) / "text.v").write_bytes(text)
        waves = "\n".join([f"cycles {len(inputs)}"] + [line(module.inputs, values) for values in inputs]) + "\n"
        (Path(folder) / "waves").write_text(waves)
        said = subprocess.run([program, "replay", f"{folder}/text.v", f"{folder}/waves"], capture_output=True, text=True, check=True).stdout
    wanted = ""
    for cycle, values in enumerate(outputs):
        shown = " ".join(f"{name}={value:0{(bits + 3) // 4}x}" for (name, bits), value in zip(module.outputs, values))
        wanted += f"{cycle} {shown}\n"
    demand(said == wanted + f"end {len(outputs)}\n", "a replay tells other outputs", len(outputs))


def made(program, kind, numbers):
    return subprocess.run([program, kind] + [str(number) for number in numbers], capture_output=True)


def main():
    program, count, random = sys.argv[1], int(sys.argv[2]), Random(int(sys.argv[3]) if len(sys.argv) > 3 else 1)
    for number in range(count):
        kind, ends, symbols = random.choice(["mux", "demux"]), random.choice([2, 2, 3, 4, 5, 8, 9, 16]), random.choice([1, 1, 2, 3, 4, 16])
        bits = random.randint(1, min(128 // symbols, 40))
        text = made(program, kind, (ends, symbols, bits)).stdout
        print(f"{number}: {kind} {ends} {symbols} {bits}: ", end="", flush=True)
        module, inputs, outputs, delivered = run(text, kind, ends, symbols, bits, random)
        demand(any(bits == channel_bits(ends) for name, bits in module.inputs + module.outputs if name.endswith("$channel")), "another width of channels", 0)
        replayed(program, text, module, inputs, outputs)
        print(f"{module.nets} nets, {delivered} symbols")
    for kind in ("mux", "demux"):
        for numbers in ACCEPTED + REFUSED:
            status = made(program, kind, numbers).returncode
            demand(status == (0 if numbers in ACCEPTED else 2), f"{kind} {numbers}: status {status}", 0)
    print("all as they must be")


if __name__ == "__main__":
    main()
