#!/usr/bin/env python3
"""A model of what stands between hosts and their agents, written from the documents and definitions and apart from the program.

Reads rows as crates/bus_rows/stdin has them, and prints what crates/bus_rows must print of each:

    python3 bench/bus_model.py <crates/bus_rows/stdin | diff - crates/bus_rows/stdout

From a host on stand the part next to it and its route, and the links that fit its words and lanes to those of each of its agents; to an
agent lead the arbiter of its hosts, the pipeline stages, and the part next to it. Each says in a cycle what it shows below, what it tells
above, and takes the clock's edge.
"""
import sys
from typing import NamedTuple

MOST_READS = 16


class Properties:
    """A host or an agent as a row writes it: `32,rw,address=10,valid`."""

    hexadecimal = ("at", "first")
    as_written = ("wait", "late", "from", "codes")

    def __init__(self, word):
        bits, kinds, *properties = word.split(",")
        self.bits, self.bytes = int(bits), int(bits) // 8
        self.reads, self.writes = "r" in kinds, "w" in kinds
        self.address = self.pending = self.at = self.first = self.readwait = self.writewait = self.burst = 0
        self.latency, self.wait, self.late, self.seats, self.codes = 1, None, None, None, None
        self.response = self.valid = self.fixed = self.enables = self.counts_words = self.counts_bytes = self.loose = False
        for each in properties:
            name, _, value = each.partition("=")
            if name in ("words", "bytes"):
                name = "counts_" + name
            if name not in self.as_written and value:
                value = int(value, 16 if name in self.hexadecimal else 10)
            if name == "from":
                name, value = "seats", [tuple(int(part) for part in (seat + "*1").split("*")[:2]) for seat in value.split("+")]
            setattr(self, name, value or (value if value == 0 else True))

    def serves(self, kind):
        return self.reads if kind == "r" else self.writes

    def all_lanes(self):
        return (1 << self.bytes) - 1

    def span(self):
        """The bytes that an agent's address can name: at least one word."""
        return max(1 << self.address, self.bytes) if self.counts_bytes else self.bytes << self.address

    def range(self):
        """The bytes that a host's address can name."""
        return self.bytes << self.address if self.counts_words else 1 << self.address

    def bound(self):
        return max(self.pending, 1)

    def longest(self):
        """The beats of its longest burst."""
        return 1 << max(self.burst, 1) - 1

    def joins(self, number):
        return any(host == number for host, _ in self.seats)

    def code_of(self, number):
        """The code of an agent's word, 0 where it has no `response`."""
        return int(self.codes[number % len(self.codes)]) if self.codes else 0


class Word(NamedTuple):
    """A word with its code."""

    bits: int
    code: int

    def part(self, bytes_, place):
        """So many of its bytes, from one on: what is read of it has its code."""
        return Word(self.bits >> 8 * place & (1 << 8 * bytes_) - 1, self.code)


# what registers of words hold at first, and what the default agent gives
NO_WORD, DEFAULT = Word(0, 0), Word(0, 3)

class Access:
    """A read command or a beat of a write, behind so many cycles in which the host shows nothing. `left` are the beats of its command from it
    on, and `begins` says whether it is the first of them. The address is the beat's own, whatever stands at the host's port."""

    def __init__(self, gap, kind, address, word, lanes, left=1, begins=True):
        self.gap, self.kind, self.address, self.word, self.lanes, self.left, self.begins = gap, kind, address, word, lanes, left, begins


def beats_of(host, gap, address, beats):
    """The beats of a write: (gap, word, lanes) of each."""
    step = 1 if host.counts_words else host.bytes
    for k, (further, word, lanes) in enumerate(beats):
        yield Access(gap if k == 0 else further, "w", address + k * step, word % (1 << host.bits), lanes, len(beats) - k, k == 0)


def listed_beats(host, text):
    """The beats of `10/f;11/3;+2;12`, each with the gap before it."""
    gap, beats = 0, []
    for part in text.split(";"):
        if part.startswith("+"):
            gap += int(part[1:])
            continue
        word, _, lanes = part.partition("/")
        beats.append((gap, int(word, 16), int(lanes, 16) if lanes else host.all_lanes()))
        gap = 0
    return beats


def accesses_of(host, words):
    gap = 0
    for word in words:
        if word.startswith("+"):
            gap += int(word[1:])
            continue
        one, _, times = word.partition("*")
        one, _, count = one.partition(":")
        place, _, data = one[1:].partition("=")
        place, _, lanes = place.partition("/")
        address, lanes = int(place, 16), int(lanes, 16) if lanes else host.all_lanes()
        count, step = int(count or 1), 1 if host.counts_words else host.bytes
        for k in range(int(times or 1)):
            behind = address + k * count * step
            if word[0] == "r":
                yield Access(gap, "r", behind, 0, lanes, count)
            else:
                beats = listed_beats(host, data or "0")
                if len(beats) == 1:
                    beats = [(0, beats[0][1] + k * count + beat, beats[0][2]) for beat in range(count)]
                yield from beats_of(host, gap, behind, beats)
            gap = 0


class Command:
    """What is shown inside: a kind, or None where nothing is, an address in bytes, a word, lanes, the beats of its burst from it on, whether it
    begins the burst, whether another beat of the same command follows, and the host behind the arbiter."""

    def __init__(self, kind, address=0, word=0, lanes=0, left=1, begins=True, more=False, tag=None):
        self.kind, self.address, self.word, self.lanes, self.left, self.begins = kind, address, word, lanes, left, begins
        self.more, self.tag = more, tag

    def but(self, **changed):
        return Command(**{**vars(self), **changed})

    def words(self):
        """The words that a read asks for."""
        return self.left if self.kind == "r" else 0


NOTHING = Command(None)


class HostPart:
    """Lets at most 16 reads go unanswered. A read of a host without readdatavalid waits until its word comes."""

    def __init__(self, host):
        self.host, self.reads, self.asked = host, Reads(), False

    def below(self, access):
        self.shown = access
        if access is None:
            return NOTHING
        shut = len(self.reads.left) >= MOST_READS if self.host.valid else self.asked
        self.held = access.kind == "r" and shut
        if self.held:
            return NOTHING
        unit = self.host.bytes if self.host.counts_words else 1
        address = access.address * unit
        more = access.kind == "w" and access.left > 1
        return Command(access.kind, address - address % self.host.bytes, access.word, access.lanes, access.left, access.begins, more)

    def above(self, wait, word):
        """Whether the host waits, and the word that it is given."""
        self.taken = self.shown is not None and self.shown.kind == "r" and not self.held and not wait
        self.came = word is not None
        if self.shown is None:
            return True, word if self.host.valid else None
        if self.shown.kind == "r" and not self.host.valid:
            done = self.asked and self.came
            return not done, word if done else None
        return self.held or wait, word if self.host.valid else None

    def edge(self):
        if self.host.valid:
            self.reads.edge(self.shown if self.taken else None, self.came)
        else:
            self.asked = (self.asked or self.taken) and not self.came


class Reads:
    """Reads that aren't fully answered, oldest first: the words that each still lacks, and its host."""

    def __init__(self):
        self.left, self.tags = [], []

    def edge(self, taken, came):
        if came and self.left:
            self.left[0] -= 1
            if self.left[0] == 0:
                del self.left[0], self.tags[0]
        if taken:
            self.left.append(taken.left)
            self.tags.append(getattr(taken, "tag", None))


class Route:
    """Sends each command to its place, None for the default agent, and a burst whole to that of its first beat. A read waits while another
    place owes words."""

    def __init__(self, number, host, agents):
        self.number, self.host, self.agents, self.owed, self.owing, self.now = number, host, agents, 0, None, None

    def place(self, command):
        for number, agent in enumerate(self.agents):
            if agent.joins(self.number) and agent.at <= command.address < agent.at + max(agent.span(), self.host.bytes):
                return number if agent.serves(command.kind) else None
        return None

    def below(self, command):
        """What each agent is shown."""
        self.command = command
        commands = [NOTHING] * len(self.agents)
        if command.kind is not None:
            if command.begins:
                self.now = self.place(command)
            self.open = command.kind == "w" or self.owed == 0 or self.owing == self.now
            if self.open and self.now is not None:
                commands[self.now] = command
        return commands

    def above(self, waits, words):
        """Whether the part above waits, and the word that it is given."""
        word = (DEFAULT if self.owed > 0 else None) if self.owing is None else words[self.owing]
        self.taken, self.came = False, word is not None
        if self.command.kind is None:
            return True, word
        wait = not self.open or (self.now is not None and waits[self.now])
        self.taken = self.command.kind == "r" and not wait
        return wait, word

    def edge(self):
        self.owed += (self.command.words() if self.taken else 0) - self.came
        if self.taken:
            self.owing = self.now


class Cutter:
    """Makes bursts of at most so many beats, or as many as lie in one wide word of so many bytes. A write passes beat by beat; a read is
    accepted with its first burst, and the others are sent by itself, one a cycle, while what stands above waits."""

    def __init__(self, host, longest, wide=None):
        self.bytes, self.longest, self.wide, self.rest, self.place = host.bytes, longest, wide, None, 0

    def most(self, address):
        """The beats that a read from an address on may have."""
        return (self.wide - address % self.wide) // self.bytes if self.wide else self.longest

    def below(self, command):
        self.command, self.shown = command, self.rest or command
        if self.shown.kind is None:
            return NOTHING
        if self.shown.kind == "r":
            most = self.most(self.shown.address)
            return self.shown.but(left=min(self.shown.left, most), more=self.shown.left > most)
        self.done = 0 if command.begins else self.place
        begins = self.done % self.longest == 0
        behind = self.longest - self.done % self.longest
        return command.but(left=min(command.left, behind), begins=begins)

    def above(self, wait, word):
        self.gone = self.shown.kind is not None and not wait
        return self.rest is not None or wait, word

    def edge(self):
        if not self.gone:
            return
        if self.shown.kind == "w":
            self.place = self.done + 1
            return
        most = self.most(self.shown.address)
        further = self.shown.but(address=self.shown.address + most * self.bytes, left=self.shown.left - most)
        self.rest = further if further.left > 0 else None


class Selector:
    """From narrow words to wide ones: a beat goes to the lanes at its place in the wide word, and its word is repeated on all places."""

    def __init__(self, host, agent, room):
        self.narrow, self.wide, self.room, self.places = host.bytes, agent.bytes, room, []

    def below(self, command):
        self.command = command
        self.shut = command.kind == "r" and len(self.places) >= self.room
        if command.kind is None or self.shut:
            return NOTHING
        self.place = command.address % self.wide
        word = sum(command.word << 8 * k for k in range(0, self.wide, self.narrow))
        return command.but(address=command.address - self.place, word=word, lanes=command.lanes << self.place)

    def above(self, wait, word):
        self.taken = self.command.kind == "r" and not self.shut and not wait
        self.came = word is not None
        given = None if word is None else word.part(self.narrow, (self.places + [0])[0])
        return self.shut or wait, given

    def edge(self):
        self.places = self.places[self.came :] + ([self.place] if self.taken else [])


class Gatherer(Selector):
    """A selector for reads that lie in one wide word: each goes as one beat, and its words are given out of the wide one, one a cycle.

    Wide words that come wait behind the reads that they are for; one that finds none before it is given from in its cycle.
    """

    def __init__(self, host, agent, room):
        super().__init__(host, agent, room)
        self.words, self.done = [], 0

    def below(self, command):
        shown = super().below(command)
        if shown.kind != "r":
            return shown
        self.asked = [self.place + k * self.narrow for k in range(command.left)]
        return shown.but(left=1, lanes=sum(command.lanes << place for place in self.asked))

    def above(self, wait, word):
        self.taken = self.command.kind == "r" and not self.shut and not wait
        self.words += [] if word is None else [word]
        self.gives = bool(self.words)
        given = self.words[0].part(self.narrow, self.places[0][self.done]) if self.gives else None
        return self.shut or wait, given

    def edge(self):
        if self.gives:
            self.done += 1
            if self.done == len(self.places[0]):
                self.done = 0
                del self.places[0], self.words[0]
        self.places += [self.asked] if self.taken else []


class Splitter:
    """From wide words to narrow ones: the pieces that have a lane go one by one, and a wide word is given as the last of its pieces comes, with
    the greatest of their codes.

    All reads under way have the same pieces: one with others waits until no word is owed. Pieces that aren't read hold what was kept there, the
    last one of the wide word what comes.
    """

    def __init__(self, host, agent, room):
        self.wide, self.narrow, self.room = host.bytes, agent.bytes, room
        self.place, self.pieces, self.reads = 0, [], 0
        self.come, self.kept, self.code = 0, 0, 0

    def piece(self, command, number):
        lanes = command.lanes >> number * self.narrow & (1 << self.narrow) - 1
        word = command.word >> 8 * number * self.narrow & (1 << 8 * self.narrow) - 1
        return command.but(address=command.address + number * self.narrow, word=word, lanes=lanes, more=True)

    def below(self, command):
        """A read, and the end of a command, come to one piece at least."""
        self.command, self.shown = command, NOTHING
        if command.kind is None:
            return NOTHING
        self.parts = [k for k in range(self.wide // self.narrow) if self.piece(command, k).lanes]
        if not self.parts and not (command.kind == "w" and command.more):
            self.parts = [0]
        fits = self.place > 0 or self.reads == 0 or self.pieces == self.parts
        self.opens = command.kind == "w" or self.reads < self.room and fits
        if self.opens and self.place < len(self.parts):
            self.shown = self.piece(command, self.parts[self.place])
            self.last = self.place + 1 == len(self.parts)
            self.shown.more = command.more if self.last else True
        return self.shown

    def above(self, wait, word):
        self.gone = self.shown.kind is not None and not wait
        self.accepted = self.command.kind is not None and self.opens and (not self.parts or self.gone and self.last)
        self.came, given = word, None
        if word is not None:
            self.filled, self.greatest = self.fill(self.pieces[self.come], word.bits), max(self.code, word.code)
            if self.come + 1 >= len(self.pieces):
                given = Word(self.filled | word.bits << 8 * (self.wide - self.narrow), self.greatest)
        self.given = given is not None
        return not self.accepted, given

    def fill(self, number, bits):
        """The pieces below the last one of the wide word, with these bits where the piece with the number is one of them."""
        at, each, whole = 8 * number * self.narrow, (1 << 8 * self.narrow) - 1, (1 << 8 * (self.wide - self.narrow)) - 1
        return (self.kept & ~(each << at) | bits << at) & whole

    def edge(self):
        if self.came is not None:
            self.kept = self.filled
            self.come, self.code = (0, 0) if self.given else (self.come + 1, self.greatest)
        if self.gone and self.command.kind == "r":
            self.pieces = self.parts
        self.reads += (self.accepted and self.command.kind == "r") - self.given
        self.place = 0 if self.accepted else self.place + self.gone


class Dropper:
    """Before an agent without byte enables: a beat without a lane goes no further. A read of it is given what `bus` shows, with code 0, once
    nothing is owed.

    A write that another beat of its command may follow is kept until it is known whether one with a lane does.
    """

    def __init__(self, room):
        self.room, self.kept, self.reads, self.own, self.bus = room, None, 0, False, NO_WORD

    def below(self, command):
        self.command, self.shown, self.acts = command, NOTHING, command.lanes != 0
        if command.kind is None:
            return NOTHING
        if self.kept:
            if self.acts or not command.more:
                self.shown = self.kept.but(more=self.acts)
        elif self.acts and (not command.more if command.kind == "w" else self.reads < self.room):
            self.shown = command
        return self.shown

    def accepts(self):
        """Whether what stands above is accepted, where it is known whether a beat is taken below."""
        now = self.command
        if now.kind is None:
            return False
        if not self.acts:
            free = now.kind == "w" or self.reads == 0
            return free and (self.gone or not (self.kept and not now.more))
        if now.kind == "w" and now.more:
            return self.gone or not self.kept
        return self.gone and not self.kept

    def above(self, wait, word):
        self.gone = self.shown.kind is not None and not wait
        self.accepted, self.came = self.accepts(), word is not None
        return not self.accepted, Word(self.bus.bits, 0) if self.own else word

    def edge(self):
        now = self.command
        self.reads += (self.gone and self.shown.kind == "r") - self.came
        self.own = self.accepted and now.kind == "r" and not self.acts
        if self.accepted and now.kind == "w" and now.more and self.acts:
            self.kept = now
        elif self.gone:
            self.kept = None


class Links:
    """What fits a host's bursts, words and lanes to those of an agent. Where words or lanes differ, bursts are of one beat; reads of a narrower
    host with bursts are as long as a wide word lasts, and gathered to one beat."""

    def __init__(self, host, agent, stages):
        # the reads that host, agent and pipe let be under way
        below = (max(agent.latency, 1) + 1 if agent.fixed else agent.bound()) + 3 * stages
        above = min(MOST_READS if host.valid else 1, below)
        drops = host.enables and not agent.enables
        narrower, packs = host.bytes < agent.bytes, host.bytes < agent.bytes and host.longest() > 1
        longest = agent.longest() if host.bytes == agent.bytes and not drops else 1
        self.links = []
        if longest < host.longest():
            self.links.append(Cutter(host, longest, agent.bytes if packs else None))
        if packs:
            self.links.append(Gatherer(host, agent, max(below + 1, 2)))
        if narrower and not packs:
            self.links.append(Selector(host, agent, max(above, 2)))
        if host.bytes > agent.bytes:
            self.links.append(Splitter(host, agent, above))
        if drops:
            self.links.append(Dropper(below if host.bytes > agent.bytes else above))

    def below(self, command):
        for link in self.links:
            command = link.below(command)
        return command

    def above(self, wait, word, bus):
        """Whether the part above waits, and the word that it is given, where `bus` stands below whether or not it is a word for this host."""
        for link in reversed(self.links):
            link.bus = bus
            wait, word = link.above(wait, word)
        return wait, word

    def edge(self):
        for link in self.links:
            link.edge()


class Arbiter:
    """Gives the agent's hosts turns, by round robin with shares. A command that has begun keeps the agent until its last beat is taken."""

    def __init__(self, seats):
        self.seats, self.holder, self.left, self.open = seats, len(seats) - 1, 0, None

    def choose(self, asks):
        """The seat that begins a command, None where no host asks, and the holder and its shares after it."""
        if asks[self.holder] and self.left > 0:
            return self.holder, self.holder, self.left - 1
        for behind in range(1, len(self.seats) + 1):
            seat = (self.holder + behind) % len(self.seats)
            if asks[seat]:
                return seat, seat, self.seats[seat][1] - 1
        return None, self.holder, 0

    def below(self, commands):
        """Shows the command of the host whose turn it is; `commands` has those of all hosts, by number."""
        shown = [commands[host] for host, _ in self.seats]
        if self.open is not None:
            self.chosen, self.after = self.open, (self.holder, self.left)
        else:
            self.chosen, *self.after = self.choose([command.kind is not None for command in shown])
        self.shown = NOTHING if self.chosen is None else shown[self.chosen]
        if self.shown.kind is None:
            return NOTHING
        return self.shown.but(tag=self.seats[self.chosen][0])

    def above(self, wait, answer):
        """For each host by number whether it waits, and the word that it is given."""
        self.waits = wait
        waits = {host: place != self.chosen or wait for place, (host, _) in enumerate(self.seats)}
        words = {host: answer[1] if answer and answer[0] == host else None for host, _ in self.seats}
        return waits, words

    def edge(self):
        self.holder, self.left = self.after
        if self.shown.kind is not None:
            self.open = self.chosen if self.waits or self.shown.more else None


class Stage:
    """A pipeline stage: two places for commands, of which the first is shown below, and a register for a word and its host."""

    def __init__(self):
        self.held, self.answer, self.bus = [], None, NO_WORD

    def shows(self):
        return self.held[0] if self.held else NOTHING

    def waits(self):
        return len(self.held) == 2

    def edge(self, command, wait, answer, bus):
        """What is shown above, whether it waits below, the answer below, and what stands for its word."""
        taken = [command] if command.kind is not None and not self.waits() else []
        self.held = (self.held if wait or not self.held else self.held[1:]) + taken
        self.answer, self.bus = answer, bus


class AgentPart:
    """Shows an agent the command at its place in the agent's span. A read isn't shown while as many are unanswered as the agent bears.

    Hosts of words that come are kept in a queue where the agent has readdatavalid, and else in a row, a place for each cycle of latency.
    """

    def __init__(self, agent):
        self.agent, self.reads, self.row, self.word = agent, Reads(), [None] * max(agent.latency, 1), NO_WORD

    def below(self, command):
        self.command = command
        self.held = command.kind == "r" and not self.agent.fixed and len(self.reads.left) >= self.agent.bound()
        if command.kind is None or self.held:
            return NOTHING
        offset = command.address % self.agent.span()
        unit = 1 if self.agent.counts_bytes else self.agent.bytes
        assert offset % unit == 0
        return command.but(address=offset // unit)

    def above(self, wait, port):
        """Whether the part above waits, and the host and the word that come, from what stands at the agent's port."""
        self.taken = self.command.kind == "r" and not self.held and not wait
        self.port = port
        self.shown = Word((1 << self.agent.bits) - 1, 3) if port is None else port
        self.bus = self.word if self.agent.fixed and self.agent.latency == 0 else self.shown
        if self.agent.fixed:
            tag, word = self.row[-1], self.word if self.agent.latency == 0 else port
            return self.held or wait, None if tag is None else (tag, word)
        return self.held or wait, None if port is None else (self.reads.tags[0], port)

    def edge(self):
        if self.agent.fixed:
            self.row, self.word = [self.command.tag if self.taken else None] + self.row[:-1], self.shown
            return
        self.reads.edge(self.command if self.taken else None, self.port is not None)


class Host:
    """Shows its accesses in order, each as soon as the one before is accepted and its gap is over."""

    def __init__(self, host, accesses):
        self.host, self.accesses, self.waited, self.reads, self.kept = host, list(accesses), 0, Reads(), True

    def shows(self):
        ready = self.accesses and self.waited >= self.accesses[0].gap
        return self.accesses[0] if ready else None

    def sees(self, shown, wait, word):
        accepted = shown is not None and not wait
        if self.host.valid:
            self.kept &= word is None or bool(self.reads.left)
            self.reads.edge(shown if accepted and shown.kind == "r" else None, word is not None)
            self.kept &= len(self.reads.left) <= MOST_READS
        if accepted:
            self.accesses.pop(0)
        self.waited = self.waited + 1 if shown is None else 0 if accepted else self.waited


class Memory:
    """An agent: word k is `first` and k at first, and a read's word comes so many cycles after it was accepted, or after the word before it.
    Behind the last word of its span comes the first.

    With a fixed latency of 0 it is a clock: its word in each cycle is `first` and the cycle's number, and its code that of this number.
    """

    def __init__(self, number, agent):
        self.number, self.agent, self.words, self.owed, self.held, self.stood, self.kept = number, agent, {}, [], None, 0, True
        self.reads, self.left, self.place = Reads(), 0, 0

    def waits(self, cycle, command):
        pattern = self.agent.wait
        if pattern:
            return pattern[cycle % len(pattern)] == "1"
        return command.kind is not None and self.stood < (self.agent.readwait if command.kind == "r" else self.agent.writewait)

    def gives(self, cycle):
        """What stands at its ports: a word, or None, where each bit is high."""
        if self.agent.fixed and self.agent.latency == 0:
            return Word((self.agent.first + cycle) % (1 << self.agent.bits), self.agent.code_of(cycle))
        late = self.agent.late and self.agent.late[cycle % len(self.agent.late)] == "1"
        return self.owed[0][1] if self.owed and self.owed[0][0] <= cycle and not late else None

    def word_at(self, place):
        return self.words.get(place, (self.agent.first + place) % (1 << self.agent.bits))

    def write(self, place, word, lanes):
        mask = sum(0xFF << 8 * lane for lane in range(self.agent.bytes) if lanes >> lane & 1)
        self.words[place] = self.word_at(place) & ~mask | word & mask

    def next_place(self, place):
        return (place + 1) % (self.agent.span() // self.agent.bytes)

    def reads_words(self, cycle, command, place):
        for _ in range(command.left):
            if not (self.agent.fixed and self.agent.latency == 0):
                self.owed.append((cycle + self.agent.latency, Word(self.word_at(place), self.agent.code_of(place))))
            place = self.next_place(place)

    def judges(self, command):
        """Whether a beat begins a burst just where none is under way, and has as many beats as may be."""
        free = self.left == 0
        fits = 1 <= command.left <= self.agent.longest() if command.begins else command.left == self.left
        return command.begins == free and fits

    def sees(self, cycle, command, wait, word):
        """What is said of the beat that it accepts."""
        levels = vars(command)
        self.kept &= self.held is None or levels == self.held
        self.held = levels if command.kind is not None and wait else None
        self.stood = self.stood + 1 if self.held else 0
        accepts = command.kind is not None and not wait
        if word is not None and self.owed:
            self.owed.pop(0)
        self.reads.edge(command if accepts and command.kind == "r" else None, word is not None)
        self.kept &= self.agent.fixed or len(self.reads.left) <= self.agent.bound()
        if command.kind is not None:
            self.kept &= self.judges(command)
        return self.accepts(cycle, command) if accepts else None

    def accepts(self, cycle, command):
        lanes = command.lanes if self.agent.enables else self.agent.all_lanes()
        self.left = command.left - 1 if command.kind == "w" else 0
        place = command.address // self.agent.bytes if self.agent.counts_bytes else command.address
        if command.kind == "r":
            self.reads_words(cycle, command, place)
            does = f"reads {command.address:x}"
        else:
            self.write(place, command.word, lanes)
            does = f"writes {command.word:x} to {command.address:x}"
        burst = f" in a burst of {command.left}" if self.agent.burst and command.begins else ""
        lanes = f" in lanes {lanes:x}" if self.agent.enables else ""
        return f"agent {self.number} {does}{burst}{lanes} for host {command.tag}"


def is_refused(host, agents):
    """Whether a base is no multiple of its footprint, footprints overlap, one ends past the host's range, an agent without byte enables is
    wider than the host, or no kind is in common; or bursts lack what they need."""
    spans = [(agent.at, max(agent.span(), host.bytes)) for agent in agents]
    apart = all(a + size <= b or b + other <= a
                for k, (a, size) in enumerate(spans) for b, other in spans[:k])
    placed = all(at % size == 0 and at + size <= host.range() for at, size in spans)
    common = all(host.reads and agent.reads or host.writes and agent.writes for agent in agents)
    wide = all(agent.bits <= host.bits or agent.enables for agent in agents)
    bursts = (host.valid or not host.reads or not host.burst) and all(
        not agent.burst or agent.wait and (not agent.reads or not agent.fixed) for agent in agents)
    return not (apart and placed and common and wide and bursts)


class System:
    """What stands between hosts and agents."""

    def __init__(self, row):
        self.tops = [HostPart(host) for host in row.hosts]
        self.routes = [Route(number, host, row.agents) for number, host in enumerate(row.hosts)]
        self.links = [[Links(host, agent, row.stages) for agent in row.agents] for host in row.hosts]
        self.arbiters = [Arbiter(agent.seats) for agent in row.agents]
        self.pipes = [[Stage() for _ in range(row.stages)] for _ in row.agents]
        self.parts = [AgentPart(agent) for agent in row.agents]

    def below(self, shown):
        """What each agent is shown, from what each host shows."""
        self.commands, routed = [], [route.below(top.below(each)) for top, route, each in zip(self.tops, self.routes, shown)]
        asked = [[link.below(command) for link, command in zip(links, commands)] for links, commands in zip(self.links, routed)]
        for place, (arbiter, pipe) in enumerate(zip(self.arbiters, self.pipes)):
            chosen = arbiter.below([commands[place] for commands in asked])
            self.commands.append([chosen] + [stage.shows() for stage in pipe])
        return [part.below(commands[-1]) for part, commands in zip(self.parts, self.commands)]

    def above(self, waits, words):
        """For each host whether it waits, and the word that it is given."""
        told = []
        self.told = [part.above(wait, word) for part, wait, word in zip(self.parts, waits, words)]
        for arbiter, pipe, (wait, answer) in zip(self.arbiters, self.pipes, self.told):
            told.append(arbiter.above(pipe[0].waits() if pipe else wait, pipe[0].answer if pipe else answer))
        buses = [pipe[0].bus if pipe else part.bus for pipe, part in zip(self.pipes, self.parts)]
        fitted = [[link.above(waits.get(number), words.get(number), bus) for link, (waits, words), bus in zip(links, told, buses)]
                  for number, links in enumerate(self.links)]
        return [top.above(*route.above([wait for wait, _ in each], [word for _, word in each]))
                for top, route, each in zip(self.tops, self.routes, fitted)]

    def edge(self):
        for pipe, commands, part, (wait, answer) in zip(self.pipes, self.commands, self.parts, self.told):
            waits = [stage.waits() for stage in pipe[1:]] + [wait]
            answers = [stage.answer for stage in pipe[1:]] + [answer]
            buses = [stage.bus for stage in pipe[1:]] + [part.bus]
            for stage, command, wait, answer, bus in zip(pipe, commands, waits, answers, buses):
                stage.edge(command, wait, answer, bus)
        for part in self.tops + self.routes + sum(self.links, []) + self.arbiters + self.parts:
            part.edge()


class Row:
    """Hosts with what they do, agents, stages and cycles."""

    def __init__(self, line):
        first, *words = line.split()
        self.hosts, self.agents, self.stages, self.cycles, accesses = [Properties(first)], [], 0, None, [[]]
        for word in words:
            if "," in word and self.cycles is None:
                self.agents.append(Properties(word))
            elif "," in word:
                self.hosts.append(Properties(word))
                accesses.append([])
            elif word.startswith("stages="):
                self.stages = int(word[7:])
            elif self.cycles is None:
                self.cycles = int(word)
            else:
                accesses[-1].append(word)
        self.accesses = [list(accesses_of(host, words)) for host, words in zip(self.hosts, accesses)]
        for agent in self.agents:
            agent.seats = agent.seats or [(0, 1)]

    def joined(self, number):
        return [agent for agent in self.agents if agent.joins(number)]


def step(row):
    """The lines of a row."""
    hosts = [Host(host, accesses) for host, accesses in zip(row.hosts, row.accesses)]
    memories = [Memory(number, agent) for number, agent in enumerate(row.agents)]
    system = System(row)
    for cycle in range(row.cycles):
        shown = [host.shows() for host in hosts]
        commands = system.below(shown)
        waits = [memory.waits(cycle, command) for memory, command in zip(memories, commands)]
        words = [memory.gives(cycle) for memory in memories]
        told = system.above(waits, words)
        for memory, command, wait, word in zip(memories, commands, waits, words):
            beat = memory.sees(cycle, command, wait, word)
            if beat:
                yield f"{cycle} {beat}"
        for number, (host, each, (wait, word)) in enumerate(zip(hosts, shown, told)):
            host.sees(each, wait, word)
            if word is not None:
                code = f" with code {word.code}" if host.host.response else ""
                yield f"{cycle} host {number} gets {word.bits:x}{code}"
        system.edge()
    behind, unanswered = sum(len(host.accesses) for host in hosts), sum(sum(host.reads.left) for host in hosts)
    left = [f"{behind} not accepted"] if behind else []
    left += [f"{unanswered} unanswered"] if unanswered else []
    kept = all(each.kept for each in hosts + memories)
    yield f"{' and '.join(left) or 'nothing'} left, {'the rules were kept' if kept else 'a rule was broken'}"


def answer(line):
    row = Row(line)
    if any(is_refused(host, row.joined(number)) for number, host in enumerate(row.hosts)):
        return ["refused"]
    return step(row)


def main():
    for line in sys.stdin:
        print(line.rstrip("\n"))
        if not line.startswith("#"):
            for told in answer(line):
                print(f"  {told}")


if __name__ == "__main__":
    main()
