#!/usr/bin/env python3
"""A model of what stands between a source and a sink, stage by stage, written from the documents and apart from the program.

Reads rows as crates/stream_rows/stdin has them, and prints what crates/stream_rows must print of each, and how long their streams
stood still:

    python3 bench/stream_model.py <crates/stream_rows/stdin | diff - crates/stream_rows/stdout

A stage has three calls a cycle: `forward` gives what it shows downstream, `backward` the ready that it shows upstream, and
`edge` takes the clock's edge. A beat is (symbols in order, first, last, empty, channel, error).
"""
import sys


class Wire:
    def forward(self, valid, beat):
        return valid, beat

    def backward(self, ready):
        return ready

    def edge(self):
        pass


class TieReady(Wire):
    def backward(self, ready):
        return 1


class ReadyDelay(Wire):
    def __init__(self, up, cycles):
        self.up, self.history = up, [0] * cycles

    def forward(self, valid, beat):
        if not self.history:
            return valid, beat
        return int(bool(valid and (self.up > 0 or self.history[-1]))), beat

    def backward(self, ready):
        self.ready = ready
        return self.history[-1] if self.history else ready

    def edge(self):
        if self.history:
            self.history = [self.ready] + self.history[:-1]


class Holding:
    """Beats wait here, the oldest is shown, and one that comes while none waits goes through."""

    def __init__(self):
        self.held = []

    def forward(self, valid, beat):
        self.valid, self.beat = valid, beat
        return (1, self.held[0]) if self.held else (valid, beat)

    def move(self, comes, places):
        shown = bool(self.held) or self.valid
        held = self.held + ([self.beat] if comes else [])
        self.held = held[1:] if shown and self.ready else held
        assert len(self.held) <= places


class ReadyBuffer(Holding):
    def __init__(self, latency):
        super().__init__()
        self.latency, self.history = latency, [0] * latency

    def backward(self, ready):
        self.ready = ready
        self.up = int(len(self.held) + sum(self.history) < self.latency + 1)
        return self.up

    def edge(self):
        self.move(self.valid, self.latency + 1)
        self.history = ([self.up] + self.history)[: self.latency]


class AllowanceBuffer(Holding):
    def __init__(self, allowance):
        super().__init__()
        self.places, self.allowance = allowance + 2, allowance

    def backward(self, ready):
        self.ready = ready
        return int(len(self.held) + self.allowance < self.places)

    def edge(self):
        self.move(self.valid, self.places)


class Fifo(Holding):
    def __init__(self, depth):
        super().__init__()
        self.depth = depth

    def backward(self, ready):
        self.ready = ready
        self.up = int(len(self.held) < self.depth) if self.depth else ready
        return self.up

    def edge(self):
        self.move(self.valid and self.up, self.depth)


class ChannelFilter(Wire):
    def __init__(self, latency, largest):
        self.latency, self.largest = latency, largest

    def forward(self, valid, beat):
        self.valid, self.beat = valid, beat
        self.shown = int(bool(valid and beat[4] <= self.largest))
        return self.shown, beat

    def backward(self, ready):
        up = int(bool(ready or (self.latency == 0 and not self.shown)))
        self.dropped = int(bool(self.valid and self.beat[4] > self.largest and (self.latency > 0 or up)))
        return up


class ErrorTie(Wire):
    def forward(self, valid, beat):
        return valid, (beat[:5] + (0,) if beat else beat)


class Clear(Wire):
    def forward(self, valid, beat):
        if beat and beat[2] and beat[3]:
            whole = len(beat[0]) - beat[3]
            beat = (beat[0][:whole] + (0,) * beat[3],) + beat[1:]
        return valid, beat


class Narrow:
    def __init__(self, parts):
        self.parts, self.left = parts, []

    def pieces(self, beat):
        symbols, first, last, empty, channel, error = beat
        size = len(symbols) // self.parts
        count = len(symbols) - (empty if last else 0)
        pieces = []
        for part in range(self.parts):
            held = min(size, max(0, count - part * size))
            if held == 0:
                break
            ends = count <= (part + 1) * size
            pieces.append((symbols[part * size : (part + 1) * size], first if part == 0 else 0,
                           last if ends else 0, size - held if last and ends else 0, channel, error))
        return pieces

    def forward(self, valid, beat):
        self.now = self.left or (self.pieces(beat) if valid else [])
        return (1, self.now[0]) if self.now else (0, None)

    def backward(self, ready):
        self.ready = ready
        return int(not self.left and ready)

    def edge(self):
        if self.now and self.ready:
            self.left = self.now[1:]


class Widen:
    def __init__(self, parts):
        self.parts, self.gathered = parts, []

    def forward(self, valid, beat):
        self.valid, self.beat = valid, beat
        self.done = int(bool(valid and (beat[2] or len(self.gathered) + 1 == self.parts)))
        if not self.done:
            return 0, None
        beats = self.gathered + [beat]
        empty = len(beat[0]) * (self.parts - len(beats))
        symbols = sum((each[0] for each in beats), ()) + (0,) * empty
        error = 0
        for each in beats:
            error |= each[5]
        return 1, (symbols, beats[0][1], beat[2], empty + beat[3] if beat[2] else 0, beat[4], error)

    def backward(self, ready):
        self.up = int(not self.done or ready)
        return self.up

    def edge(self):
        if self.valid and self.up:
            self.gathered = [] if self.done else self.gathered + [self.beat]


class Window:
    """Symbols wait here until there are enough for a beat, or a packet ends."""

    def __init__(self, size):
        self.size, self.held = size, ((), 0, 0, 0, 0)

    def whole(self, row):
        return len(row[0]) >= self.size or bool(row[2])

    def joined(self, beat):
        symbols, first, last, empty, channel, error = beat
        held, opens, _, _, errors = self.held
        return held + symbols[: len(symbols) - (empty if last else 0)], opens if held else first, last, channel, errors | error

    def forward(self, valid, beat):
        self.valid, self.alone = valid, self.whole(self.held)
        self.row, self.error = (self.held, self.held[4]) if self.alone else (self.joined(beat), beat[5]) if valid else (self.held, 0)
        self.done = int(self.alone or bool(valid and self.whole(self.row)))
        if not self.done:
            return 0, None
        symbols, first, last, channel, error = self.row
        empty = max(0, self.size - len(symbols))
        return 1, (symbols[: self.size] + (0,) * empty, first, last if len(symbols) <= self.size else 0, empty if last else 0, channel, error)

    def backward(self, ready):
        self.ready = ready
        self.up = int(not self.alone and bool(not self.done or ready))
        return self.up

    def edge(self):
        symbols, _, last, channel, _ = self.row
        if self.done and self.ready:
            left = symbols[self.size :]
            self.held = left, 0, last if left else 0, channel, self.error if left else 0
        elif self.valid and self.up:
            self.held = self.row


class End:
    """An end as a row writes it: `3x8,ready=2,packets,empty=2`."""

    def __init__(self, word):
        sizes, *properties = word.split(",")
        self.symbols, self.bits = (int(number) for number in sizes.split("x"))
        self.low = self.packets = False
        self.ready, self.allowance, self.empty, self.error, self.channel, self.largest = None, None, 0, 0, 0, 0
        for each in properties:
            name, _, number = each.partition("=")
            setattr(self, name, int(number) if number else True)

    def latency(self):
        return self.ready or 0

    def most_late(self):
        """How many beats may come after ready fell."""
        return self.latency() if self.allowance is None else self.allowance

    def form(self):
        return self.symbols, self.low, self.channel, self.error, self.empty

    def split(self, word):
        symbols = tuple(word >> self.bits * place & (1 << self.bits) - 1 for place in range(self.symbols))
        return symbols if self.low else symbols[::-1]

    def join(self, symbols):
        order = symbols if self.low else symbols[::-1]
        return sum(symbol << self.bits * place for place, symbol in enumerate(order))


def stages(source, sink, depth):
    """The stages from the source on, and the filter if it is one of them."""
    latency = source.latency()
    one_form = source.form() == sink.form() and source.largest <= sink.largest
    strict = source.most_late() == latency
    if one_form and sink.ready is not None and depth == 0 and strict and latency <= sink.ready:
        return [ReadyDelay(latency, sink.ready - latency)], None
    row, channel = [], None
    if source.largest > sink.largest:
        channel = ChannelFilter(latency, sink.largest)
        row.append(channel)
    if sink.ready is None and sink.symbols % source.symbols == 0:
        row.append(TieReady())
    elif not strict:
        row.append(AllowanceBuffer(source.most_late()))
    elif latency:
        row.append(ReadyBuffer(latency))
    if sink.error and not source.error:
        row.append(ErrorTie())
    if source.symbols != sink.symbols and source.empty and sink.symbols > 1:
        row.append(Clear())
    if source.symbols % sink.symbols and sink.symbols % source.symbols:
        row.append(Window(sink.symbols))
    elif source.symbols > sink.symbols:
        row.append(Narrow(source.symbols // sink.symbols))
    elif sink.symbols > source.symbols:
        row.append(Widen(sink.symbols // source.symbols))
    return row + [Fifo(depth), ReadyDelay(0, sink.latency())], channel


def level(levels, cycle):
    if levels.endswith("+"):
        return int(levels[min(cycle, len(levels) - 2)])
    return int(levels[cycle % len(levels)])


def counted_beats(end, count):
    for number in range(1, count + 1):
        yield tuple((number + k) % (1 << end.bits) for k in range(end.symbols)), 0, 0, 0, 0, 0


def counted_packets(end, count):
    latest = 0
    for length in range(1, count + 1):
        symbols = []
        for _ in range(length):
            latest = latest % 255 + 1
            symbols.append(latest % (1 << end.bits))
        for start in range(0, length, end.symbols):
            part = tuple(symbols[start : start + end.symbols])
            empty = end.symbols - len(part)
            last = int(start + end.symbols >= length)
            yield part + ((1 << end.bits) - 1,) * empty, int(start == 0), last, empty, 0, 0


def written_beat(end, word):
    data, *marks = word.split("/")
    named = dict(mark.split("=") for mark in marks if "=" in mark)
    number = lambda name: int(named.get(name, 0))
    return (end.split(int(data, 16)), int("s" in marks), int("e" in marks), number("empty"), number("channel"), number("error"))


def beats_of(end, words):
    for word in words:
        if word.startswith("beats="):
            yield from counted_beats(end, int(word[6:]))
        elif word.startswith("packets="):
            yield from counted_packets(end, int(word[8:]))
        else:
            yield written_beat(end, word)


def text(end, beat):
    symbols, first, last, empty, channel, error = beat
    marks = ("/s" if first else "") + ("/e" if last else "") + (f"/empty={empty}" if last and empty else "")
    return f"{end.join(symbols):x}{marks}" + (f"/channel={channel}" if channel else "") + (f"/error={error}" if error else "")


def symbols_of(beats):
    marked = []
    for symbols, first, last, empty, _, _ in beats:
        count = len(symbols) - (empty if last else 0)
        marked += [(symbols[k], first and k == 0, last and k == count - 1) for k in range(count)]
    return marked


def beats_begun(size, symbols):
    """How many beats of so many symbols these fill or begin."""
    beats, room = 0, 0
    for _, first, last in symbols:
        if room == 0 or first:
            beats, room = beats + 1, size
        room = 0 if last else room - 1
    return beats


class Stretches:
    """For each clause on windows the longest row of cycles in which all that it asks holds and what it promises doesn't come."""

    clauses = "delivers", "accepts", "takes_in", "shows", "frees"

    def __init__(self, source, sink, depth):
        self.source, self.sink, self.depth = source, sink, depth
        self.way = []
        self.now = dict.fromkeys(self.clauses, 0)
        self.longest = dict.fromkeys(self.clauses, 0)

    def count(self, clause, asked, comes):
        self.now[clause] = self.now[clause] + 1 if asked and not comes else 0
        self.longest[clause] = max(self.longest[clause], self.now[clause])

    def cycle(self, beat, up, accepted, seen, ready_cycle, delivered):
        """A cycle: the beats that both ends show, and what of them moves. What is on its way is told as the cycle begins."""
        there = len(self.way) >= self.sink.symbols or any(last for _, _, last in self.way)
        room = beats_begun(self.sink.symbols, self.way) + self.source.symbols <= self.depth
        direct = self.sink.latency() == 0
        self.count("delivers", ready_cycle and there, delivered)
        self.count("accepts", ready_cycle, up)
        self.count("takes_in", room, up)
        self.count("shows", direct and there, seen)
        self.count("frees", direct and beat and not seen, accepted)
        if accepted and beat[4] <= self.sink.largest:
            self.way += symbols_of([beat])
        if delivered:
            self.way = self.way[len(symbols_of([seen])) :]


def window(source, sink, depth):
    """The cycles of a window of the stream."""
    late = max(source.most_late(), sink.most_late())
    lag = source.symbols * (late + 3) + sink.symbols * (depth + 3)
    return 8 * (lag + 2 * late + 8)


def step(source, sink, row, levels, cycles, beats, channel, still):
    """What came to the sink, in which cycles, how many beats were dropped, and when the source was first held back."""
    upstream, downstream, waited = [], [], 0
    sent, since, came, times, dropped, held_back = 0, 0, [], [], 0, None
    latency, late = source.latency(), source.most_late()
    for cycle in range(cycles):
        if late > latency:
            may_show = any(upstream[: max(0, cycle - latency + 1)]) and since < late
        else:
            may_show = latency == 0 or (cycle >= latency and upstream[cycle - latency])
        beat = beats[sent] if may_show and sent < len(beats) else None
        valid = shown = int(beat is not None)
        seen = beat
        for stage in row:
            shown, seen = stage.forward(shown, seen)
        ready = up = 1 if sink.ready is None else waited if levels == "v" else level(levels, cycle)
        for stage in reversed(row):
            up = stage.backward(up)
        upstream.append(up)
        downstream.append(ready)
        accepted = valid and (latency > 0 or up)
        delivered = shown and (sink.latency() > 0 or ready)
        ready_cycle = cycle >= sink.latency() and downstream[cycle - sink.latency()]
        still.cycle(beat, up, accepted, seen if shown else None, ready_cycle, delivered)
        waited = int(bool(shown and not delivered))
        dropped += channel.dropped if channel else 0
        if accepted:
            sent += 1
        since = 0 if up else since + int(bool(accepted))
        if delivered:
            came.append(seen)
            times.append(cycle)
        if not up and sent > 0 and held_back is None:
            held_back = cycle
        for stage in row:
            stage.edge()
    return came, times, dropped, held_back


def answer(line, number, longest):
    first, second, depth, levels, cycles, *words = line.split()
    source, sink, depth = End(first), End(second), int(depth)
    beats = list(beats_of(source, words))
    row, channel = stages(source, sink, depth)
    still = Stretches(source, sink, depth)
    came, times, dropped, held_back = step(source, sink, row, levels, int(cycles), beats, channel, still)
    for clause, stretch in still.longest.items():
        if stretch > longest[clause][0]:
            longest[clause] = stretch, window(source, sink, depth), number
    if any(word.startswith(("beats=", "packets=")) for word in words):
        sent, taken = symbols_of(beats), symbols_of(came)
        assert taken == sent[: len(taken)]
        told = f"{len(taken)} of {len(sent)} symbols in {len(came)} beats, each once and in order"
    else:
        told = " ".join(["got"] + ([text(sink, beat) for beat in came] or ["nothing"]))
    told += f", in cycles {times[0]} to {times[-1]}" if times else ""
    told += f", {dropped} dropped" if dropped else ""
    told += ", the source never held back" if held_back is None else f", the source held back in cycle {held_back}"
    return f"{line}: {told}"


longest = dict.fromkeys(Stretches.clauses, (0, 0, 0))
for number, line in enumerate(sys.stdin, 1):
    print(answer(line.rstrip("\n"), number, longest))
for clause, (stretch, bound, number) in longest.items():
    print(f"still: {clause} {stretch} of {bound} cycles (row {number})")
