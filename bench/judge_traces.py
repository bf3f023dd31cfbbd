#!/usr/bin/env python3
"""What a simulation must write, apart from the program: a text is run with what stands in for its components, and told as a trace.

    judge_traces.py trace TEXT SYSTEM SCENARIO COMPONENT..   prints the trace
    judge_traces.py judge TRACE TEXT SYSTEM SCENARIO COMPONENT..   compares a trace with it, and tells the first line that differs
    judge_traces.py counts TEXT SYSTEM SCENARIO COMPONENT..   prints the four counts
    judge_traces.py waves TEXT SYSTEM SCENARIO COMPONENT..   prints the inputs of each cycle, as `replay` reads them
    judge_traces.py workload NUMBER PROGRAM   prints what `workload` must, over the text that PROGRAM generates

Written from docs/FORMATS.md. Texts are run by text_runs and scenarios read by judge_scenarios; the program is asked for texts alone.
"""
import subprocess
import sys
import tempfile
from collections import deque
from pathlib import Path

import draw_scenarios
from judge_scenarios import judge, lines_of
from script_systems import System
from text_runs import Text
from workload_scripts import scripts_of

CYCLES_OF_WORKLOADS = 2000


def digits(bits):
    return (bits + 3) // 4


class Pins:
    """Where the ports of an interface stand among all inputs and then all outputs of a module."""

    def __init__(self, name, places):
        self.name, self.places = name.replace(".", "$"), places

    def place(self, role):
        return self.places.get(f"{self.name}${role}")

    def read(self, levels, role, absent=0):
        place = self.place(role)
        return absent if place is None else int(levels[place])

    def set(self, inputs, **values):
        """Sets the inputs that are there."""
        for role, value in values.items():
            place = self.place(role)
            if place is not None:
                inputs[place] = value


# ---- what stands in for components

class Host:
    """Works through its statements: each beat stands until a cycle in which waitrequest is low."""

    def __init__(self, name, end, pins, statements):
        self.name, self.end, self.pins, self.answered = name, end, pins, 0
        self.steps = deque()
        for words in statements:
            self.steps.extend(getattr(self, words[0])(words))

    def idle(self, words):
        return [None] * int(words[2])

    def command(self, words, count, **values):
        address, enables = int(words[2], 16) // self.end.unit(), int(words[3], 16)
        return {"address": address, "byteenable": enables, "burstcount": count, **values}

    def write(self, words):
        return [self.command(words, len(words) - 4, write=1, writedata=int(word, 16)) for word in words[4:]]

    def read(self, words):
        return [self.command(words, int(words[4]), read=1)]

    def show(self, inputs, cycle):
        self.pins.set(inputs, address=0, read=0, write=0, writedata=0, byteenable=0, burstcount=0)
        if self.steps and self.steps[0]:
            self.pins.set(inputs, **self.steps[0])

    def told(self, cycle, levels):
        waits, reads = (self.pins.read(levels, role) for role in ("waitrequest", "read"))
        given = self.pins.read(levels, "readdatavalid") if self.end.has("readdatavalid") else reads and not waits
        if given:
            self.answered += 1
            code = f" {self.pins.read(levels, 'response'):x}" if self.end.has("response") else ""
            yield f"{cycle} get {self.name} {self.pins.read(levels, 'readdata'):0{digits(self.end.word())}x}{code}"
        if self.steps and (self.steps[0] is None or not waits):
            self.steps.popleft()


class Stalls:
    """A pattern, over and over; none where nothing is said."""

    def __init__(self, statements):
        self.pattern = next((words[2] for words in statements if words[0] == "stall"), "0")

    def at(self, cycle):
        return int(self.pattern[cycle % len(self.pattern)])


class Agent:
    """A map of bytes. A read that is taken fixes its words at once."""

    def __init__(self, name, end, pins, statements):
        self.name, self.end, self.pins = name, end, pins
        self.bytes, self.stalls, self.taken = {}, Stalls(statements), 0
        self.latency = next((int(words[2]) for words in statements if words[0] == "latency"), 1)
        for words in statements:
            if words[0] == "fill":
                self.bytes.update(enumerate(bytes.fromhex(words[3]), int(words[2], 16)))
        self.codes = [(int(words[2], 16), int(words[3], 16)) for words in statements if words[0] == "code"]
        self.waiting = deque()  # (cycle, word, its code, whether it is the last of its read)
        self.stood = self.left = self.next = 0

    def is_late(self):
        return self.end.has("readdatavalid")

    def answers_at_once(self):
        """Whether it gives a word in the cycle in which its read is taken."""
        return self.end.has("read") and not self.is_late() and self.end.number("readLatency", 0) == 0

    def due(self, cycle):
        return self.waiting and (self.waiting[0][0] <= cycle if self.is_late() else self.waiting[0][0] == cycle)

    def show(self, inputs, cycle):
        given = self.due(cycle)
        _, word, code, _ = self.waiting[0] if given else (0, 0, 0, True)
        self.pins.set(inputs, waitrequest=self.stalls.at(cycle), readdatavalid=int(bool(given)), readdata=word, response=code)

    def wait_time(self, writes):
        return self.end.number("writeWaitTime", 0) if writes else self.end.number("readWaitTime", 1)

    def accepts(self, levels):
        reads, writes = (self.pins.read(levels, role) for role in ("read", "write"))
        if not reads and not writes:
            return False
        if self.end.has("waitrequest"):
            return not self.pins.read(levels, "waitrequest")
        return self.stood == self.wait_time(writes)

    def offset(self, levels):
        """The byte address of the word that the port names, modulo the span."""
        at = self.pins.read(levels, "address") * self.end.unit()
        return (at - at % (self.end.word() // 8)) % self.end.reached()

    def place(self, at):
        return at % self.end.reached()

    def word_at(self, at):
        return sum(self.bytes.get(self.place(at + lane), 0) << 8 * lane for lane in range(self.end.word() // 8))

    def code_at(self, at):
        """That of the last statement for a byte of the word; 0 where there is none."""
        size = self.end.word() // 8
        return next((code for offset, code in reversed(self.codes) if offset // size == self.place(at) // size), 0)

    def answer(self, inputs, levels):
        """Whether it gives a word at once, which is set."""
        answers = self.answers_at_once() and self.accepts(levels) and not self.pins.read(levels, "write")
        if answers:
            offset = self.offset(levels)
            self.pins.set(inputs, readdata=self.word_at(offset), response=self.code_at(offset))
        return answers

    def told(self, cycle, levels):
        if self.due(cycle):
            self.waiting.popleft()
        reads, writes = (self.pins.read(levels, role) for role in ("read", "write"))
        accepts = self.accepts(levels)
        self.stood = self.stood + 1 if (reads or writes) and not accepts else 0
        if not accepts:
            return
        count = self.pins.read(levels, "burstcount", 1)
        enables, host = self.pins.read(levels, "byteenable", self.end.lanes()), self.pins.read(levels, "grant")
        offset = self.write(levels, enables, count) if writes else self.offset(levels)
        head = f"{cycle} {'write' if writes else 'read'} {self.name} {host} {offset:08x} {enables:0{digits(self.end.word() // 8)}x}"
        if writes:
            self.taken += 1
            yield f"{head} {self.pins.read(levels, 'writedata'):0{digits(self.end.word())}x}"
        else:
            self.taken += count
            self.read(cycle, offset, count)
            yield f"{head} {count}"

    def write(self, levels, enables, count):
        """Takes a beat, and gives its offset."""
        offset = self.next if self.left else self.offset(levels)
        self.left = self.left - 1 if self.left else count - 1
        self.next = self.place(offset + self.end.word() // 8)
        word = self.pins.read(levels, "writedata")
        for lane in range(self.end.word() // 8):
            if enables >> lane & 1:
                self.bytes[self.place(offset + lane)] = word >> 8 * lane & 0xFF
        return offset

    def read(self, cycle, offset, count):
        if not self.is_late():
            if not self.answers_at_once():
                self.waiting.append((cycle + self.end.number("readLatency", 0), self.word_at(offset), self.code_at(offset), True))
            return
        open_ = sum(last for *_, last in self.waiting)
        if open_ >= max(self.end.number("maximumPendingReadTransactions", 0), 1) or count > self.end.longest():
            return
        for k in range(count):
            at = offset + k * self.end.word() // 8
            self.waiting.append((cycle + self.latency, self.word_at(at), self.code_at(at), k + 1 == count))


class StreamEnd:
    """What both ends of a stream tell of a beat."""

    def __init__(self, name, end, pins):
        self.name, self.end, self.pins = name, end, pins

    def transfers(self, levels):
        ready = self.pins.read(levels, "ready", 1)
        return self.pins.read(levels, "valid") and (self.end.latency() > 0 or ready)

    def line(self, cycle, what, levels):
        first, last = (self.pins.read(levels, role) for role in ("startofpacket", "endofpacket"))
        flags = "s" * first + "e" * last or "-"
        channel, error, empty = (self.pins.read(levels, role) for role in ("channel", "error", "empty"))
        word = f"{self.pins.read(levels, 'data'):0{digits(self.end.width('data'))}x}"
        return f"{cycle} {what} {self.name} {word} {channel:x} {error:x} {flags} {empty if last else 0:x}"


class Source(StreamEnd):
    """Presents its next beat in every cycle at ready latency 0, and above it in every cycle in which its latency and its allowance let it,
    whatever `ready` is in it; a gap counts cycles."""

    def __init__(self, name, end, pins, statements):
        super().__init__(name, end, pins)
        self.lately = deque([0] * end.latency())  # `ready` of the cycles before, the earliest first
        self.late = end.most_late() if end.most_late() > end.latency() else None
        self.came, self.since = 0, 0  # whether a ready cycle came, and how many beats were sent since `ready`
        self.steps = deque()
        for words in statements:
            self.steps.extend([None] * int(words[2]) if words[0] == "gap" else [self.beat(words)])

    @staticmethod
    def beat(words):
        data, channel, error, empty = (int(words[k], 16) for k in (2, 3, 4, 6))
        return {"valid": 1, "data": data, "channel": channel, "error": error, "empty": empty,
                "startofpacket": int("s" in words[5]), "endofpacket": int("e" in words[5])}

    def show(self, inputs, cycle):
        self.pins.set(inputs, valid=0, data=0, channel=0, error=0, empty=0, startofpacket=0, endofpacket=0)
        if self.steps and self.steps[0] and self.may_send():
            self.pins.set(inputs, **self.steps[0])

    def may_send(self):
        if not self.lately:
            return True
        return self.lately[0] if self.late is None else (self.came or self.lately[0]) and self.since < self.late

    def told(self, cycle, levels):
        sent = self.transfers(levels)
        if sent:
            yield self.line(cycle, "sent", levels)
        ready = self.pins.read(levels, "ready", 1)
        self.lately.append(ready)
        self.came |= self.lately.popleft()
        self.since = 0 if ready else self.since + int(bool(sent))
        if self.steps and (self.steps[0] is None or sent):
            self.steps.popleft()


class Sink(StreamEnd):
    """Is ready but for the cycles of a 1 of its pattern."""

    def __init__(self, name, end, pins, statements):
        super().__init__(name, end, pins)
        self.stalls, self.delivered, self.dropped = Stalls(statements), 0, 0

    def show(self, inputs, cycle):
        self.pins.set(inputs, ready=1 - self.stalls.at(cycle))

    def told(self, cycle, levels):
        if self.transfers(levels):
            last = self.pins.read(levels, "endofpacket")
            self.delivered += self.end.symbols() - (self.pins.read(levels, "empty") if last else 0)
            yield self.line(cycle, "got", levels)
        if self.pins.read(levels, "dropped"):
            self.dropped += 1
            yield f"{cycle} dropped {self.name}"


# ---- simulations

class Refused(Exception):
    """A scenario that isn't one."""


class Simulation:
    """A text, the interfaces in the order in which they are told, and the scenario's cycles."""

    def __init__(self, text, system, scenario):
        self.text = Text(text)
        answer = judge(system, scenario)
        if answer.startswith("line "):
            raise Refused(answer)
        statements = [line.decode().split(" ") for line in lines_of(scenario) if line and not line.startswith(b"#")]
        self.cycles, said = 0, {name: [] for ends in system.ends.values() for name in ends}
        for words in statements:
            if words[0] == "cycles":
                self.cycles = int(words[1])
            else:
                said[words[1]].append(words)
        ports = [name for name, _ in self.text.inputs + self.text.outputs]
        self.join(system, said, {name: k for k, name in enumerate(ports)})

    def join(self, system, said, places):
        def made(kind, make, names):
            return [make(name, system.ends[kind][name], Pins(name, places), said[name]) for name in names]

        self.hosts, self.agents = made("host", Host, system.ends["host"]), made("agent", Agent, system.ends["agent"])
        sources, self.sinks = made("source", Source, [s for s, _ in system.streams]), made("sink", Sink, [k for _, k in system.streams])
        self.ends = self.hosts + self.agents + [end for ends in zip(sources, self.sinks) for end in ends]
        self.at_once = [agent for agent in self.agents if agent.answers_at_once()]

    def run(self):
        """Each cycle's inputs, and the lines that are told of it."""
        inputs = [0] * len(self.text.inputs)
        for cycle in range(self.cycles):
            for end in self.ends:
                end.show(inputs, cycle)
            levels = inputs + list(self.text.show(inputs))
            if any([agent.answer(inputs, levels) for agent in self.at_once]):
                levels = inputs + list(self.text.show(inputs))
            yield inputs, levels, [line for end in self.ends for line in end.told(cycle, levels)]
            self.text.edge()

    def trace(self):
        for _, _, lines in self.run():
            yield from lines
        yield f"end {self.cycles}"

    def counts(self):
        for _ in self.run():
            pass
        taken, answered = sum(agent.taken for agent in self.agents), sum(host.answered for host in self.hosts)
        delivered, dropped = sum(sink.delivered for sink in self.sinks), sum(sink.dropped for sink in self.sinks)
        return f"taken {taken} answered {answered} delivered {delivered} dropped {dropped}"

    def waves(self):
        yield f"cycles {self.cycles}"
        for inputs, _, _ in self.run():
            yield " ".join(f"{value:0{digits(bits)}x}" for value, (_, bits) in zip(inputs, self.text.inputs))


def simulation_of(words):
    text, system, scenario, *components = (Path(word).read_bytes() for word in words)
    return Simulation(text, System(system.decode(), [component.decode() for component in components]), scenario)


def compare(path, wanted):
    """Whether the file has these lines; else the first that differs is told."""
    *told, rest = Path(path).read_text().split("\n")
    told += [rest] if rest else []
    for number, line in enumerate(wanted, 1):
        if number > len(told) or told[number - 1] != line:
            print(f"line {number} is {told[number - 1] if number <= len(told) else 'missing'}\n  and must be {line}")
            return False
    if len(told) > number or rest:
        print(f"line {number + 1} is {told[number]}\n  and must be missing" if len(told) > number else "the last line has no end")
        return False
    print(f"{number} lines, as they must be")
    return True


# ---- texts that a program generates

def generated(program, system, components):
    """The text of a system, of its scripts."""
    with tempfile.TemporaryDirectory() as folder:
        names = []
        for k, script in enumerate([system, *components]):
            names.append(f"{folder}/{k}.tcl")
            Path(names[-1]).write_bytes(script)
        return subprocess.run([program, "generate", *names], stdout=subprocess.PIPE, check=False).stdout


def workload(number, program):
    """The line that `workload` must write."""
    system, *components = scripts_of(number)
    text = generated(program, system.encode(), [component.encode() for component in components])
    scenario = "\n".join(draw_scenarios.drawn(number, 0, CYCLES_OF_WORKLOADS)[1:]).encode()
    told = System(system, components)
    return f"workload {number} weight {told.weight()} {Simulation(text, told, scenario).counts()}"


def main(words):
    what, *words = words
    if what == "judge":
        sys.exit(not compare(words[0], simulation_of(words[1:]).trace()))
    elif what == "workload":
        print(workload(int(words[0]), words[1]))
    elif what == "counts":
        print(simulation_of(words).counts())
    else:
        for line in getattr(simulation_of(words), what)():
            print(line)


if __name__ == "__main__":
    try:
        main(sys.argv[1:])
    except Refused as refused:
        print(f"scenario refused: file 2 {refused}")
