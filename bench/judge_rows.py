#!/usr/bin/env python3
"""Judges what is told of rows of hosts and agents by the laws of memory-mapped runs, whatever stands between them and how long it takes.

Reads what crates/bus_rows prints, or bench/bus_model.py, and says of each row which law it breaks:

    python3 bench/bus_model.py <rows | python3 bench/judge_rows.py

Each agent takes the bytes that each host reads and writes there in the host's order, and those of one command together; a host is given, in
the order of its reads, the bytes that the writes before them have left, and with each word the greatest of its agent's codes of what is read for it,
3 of nobody. An agent whose words are no narrower is read once for each of its
words that a read burst touches. Bursts at an agent are whole and no longer than it takes them, no more reads are unanswered than it bears,
and a host's read waits while another place owes it words. `judge_rows.py draw COUNT SEED` prints
rows that were drawn at random, and with a further word `codes` rows whose hosts and agents may have `response`.
"""
import re
import sys
from random import Random

from bus_model import Row, is_refused

READ = re.compile(r"(\d+) agent (\d+) reads (\w+)(?: in a burst of (\d+))?(?: in lanes (\w+))? for host (\d+)")
WRITE = re.compile(r"(\d+) agent (\d+) writes (\w+) to (\w+)(?: in a burst of (\d+))?(?: in lanes (\w+))? for host (\d+)")
GIVEN = re.compile(r"(\d+) host (\d+) gets (\w+)(?: with code (\d))?")


class Broken(Exception):
    """A law that a row breaks."""


def demand(holds, law):
    if not holds:
        raise Broken(law)


def byte_of(word, lane):
    return word >> 8 * lane & 0xFF


class Issued:
    """What a host asks of its agents: for each the operations in order, (kind, offset, byte, command, whether it begins a touch), and its read
    words in order. A touch are the neighbouring words of a read that lie in one word of the agent, one behind the other."""

    def __init__(self, row, number):
        self.row, self.number, self.host = row, number, row.hosts[number]
        self.operations = {a: [] for a in list(range(len(row.agents))) + [None]}
        self.words, self.beats = [], {a: 0 for a in self.operations}
        command, place = -1, None
        for access in row.accesses[number]:
            first = self.byte_address(access)
            if access.begins:
                command, place = command + 1, self.place(first, access.kind)
            self.before = None
            for k in range(access.left if access.kind == "r" else 1):
                self.add(place, command, access, first + k * self.host.bytes)

    def byte_address(self, access):
        address = access.address * (self.host.bytes if self.host.counts_words else 1)
        return address - address % self.host.bytes

    def place(self, address, kind):
        for number, agent in enumerate(self.row.agents):
            if agent.joins(self.number) and agent.at <= address < agent.at + max(agent.span(), self.host.bytes):
                return number if agent.serves(kind) else None
        return None

    def add(self, place, command, access, address):
        """A beat: its operations, and where it reads which of its lanes they fill."""
        lanes = [lane for lane in range(self.host.bytes) if access.lanes >> lane & 1]
        filled = []
        if place is not None:
            agent = self.row.agents[place]
            pieces = sorted({lane // agent.bytes for lane in lanes})
            self.beats[place] += max(self.host.bytes // agent.bytes, 1)
            filled = lanes if agent.enables else [lane for piece in pieces for lane in range(piece * agent.bytes, (piece + 1) * agent.bytes)]
            touches = self.begins_touch(agent, address % agent.span(), filled)
            for lane in filled:
                byte = byte_of(access.word, lane) if access.kind == "w" else None
                begins = touches and lane == filled[0]
                self.operations[place].append((access.kind, (address + lane) % agent.span(), byte, command, begins))
        if access.kind == "r":
            self.words.append((place, command, filled if place is not None else lanes))

    def begins_touch(self, agent, offset, filled):
        """Whether a word at an offset lies elsewhere than the one before it."""
        last, self.before = self.before, offset if filled else None
        return last is None or last // agent.bytes != offset // agent.bytes or offset <= last


class AgentRun:
    """What an agent takes, and the bytes that it holds."""

    def __init__(self, agent):
        self.agent, self.bytes, self.left, self.next, self.tag, self.last = agent, {}, 0, 0, None, None
        self.gives, self.answers = [], {}

    def byte_at(self, offset):
        word = (self.agent.first + offset // self.agent.bytes) % (1 << self.agent.bits)
        return self.bytes.get(offset, byte_of(word, offset % self.agent.bytes))

    def code_at(self, offset, cycle):
        """The code of what is read at an offset, and given in a cycle."""
        return self.agent.code_of(cycle if self.is_clock() else offset // self.agent.bytes)

    def is_clock(self):
        return self.agent.fixed and self.agent.latency == 0

    def begin(self, kind, offset, count, tag):
        """A beat stands where its burst is."""
        if self.left:
            demand(kind == "w", "a read inside a write burst")
            demand(count is None, "a burst begins inside another")
            demand(tag == self.tag and offset == self.next, "a beat that isn't the next of its burst")
            self.left -= 1
        else:
            demand(bool(self.agent.burst) == (count is not None), "no burst begins")
            count = count or 1
            demand(1 <= count <= self.agent.longest(), "a burst of a wrong length")
            self.left = count - 1 if kind == "w" else 0
        self.next, self.tag = (offset + self.agent.bytes) % self.agent.span(), tag

    def gives_at(self, cycle):
        """The cycle in which the next word is given: as early as the agent may."""
        at = max(cycle + self.agent.latency, self.gives[-1][0] + 1 if self.gives and not self.agent.fixed else 0)
        late = self.agent.late
        while late and late[at % len(late)] == "1":
            at += 1
        return at


class Judge:
    """The events of a row, one after the other."""

    def __init__(self, row):
        self.row, self.issued = row, [Issued(row, number) for number in range(len(row.hosts))]
        self.agents = [AgentRun(agent) for agent in row.agents]
        self.taken = {(a, h): 0 for a in range(len(row.agents)) for h in range(len(row.hosts))}
        self.beats, self.given = dict(self.taken), [0] * len(row.hosts)
        self.used, self.last = dict(self.taken), 0

    def operation(self, cycle, number, host, kind, offset, byte):
        """One of an agent's operations is the next of its host, and no other host's stands inside a command."""
        run, todo = self.agents[number], self.issued[host].operations[number]
        done = self.taken[number, host]
        demand(done < len(todo) and todo[done][:3] == (kind, offset, byte), f"agent {number} takes what host {host} didn't ask next")
        command = todo[done][3]
        if run.last not in (None, (host, command)):
            other, before = run.last
            place = self.taken[number, other]
            further = self.issued[other].operations[number]
            demand(place == len(further) or further[place][3] != before, f"a command of host {other} is split at agent {number}")
        run.last = host, command
        self.taken[number, host] += 1
        if kind == "w":
            run.bytes[offset] = byte
            return
        self.waits_for_others(cycle, number, host, command)
        at = run.gives[-1][0]
        run.answers.setdefault(host, []).append((None if run.is_clock() else run.byte_at(offset), at, run.code_at(offset, at)))

    def waits_for_others(self, cycle, number, host, command):
        words = self.issued[host].words
        for place, other, _ in words[self.given[host]:]:
            demand(other >= command or place == number, f"a read of host {host} while another place owes it words")

    def takes(self, cycle, number, kind, address, word, count, lanes, host):
        run, self.last = self.agents[number], cycle
        agent = run.agent
        demand(agent.joins(host), "a beat of a host that isn't joined")
        offset = address * (1 if agent.counts_bytes else agent.bytes)
        demand(offset % agent.bytes == 0 and offset < agent.span(), "an address inside a word or past the span")
        run.begin(kind, offset, count, host)
        lanes = lanes if agent.enables else agent.all_lanes()
        words = (count or 1) if kind == "r" else 1
        self.beats[number, host] += words
        for k in range(words):
            if kind == "r":
                run.gives.append((run.gives_at(cycle), cycle, k + 1 == words))
            self.is_packed(number, host, kind, lanes)
            for lane in range(agent.bytes):
                if lanes >> lane & 1:
                    at = (offset + k * agent.bytes + lane) % agent.span()
                    self.operation(cycle, number, host, kind, at, byte_of(word, lane) if kind == "w" else None)

    def is_packed(self, number, host, kind, lanes):
        """A word that is read of an agent no narrower than the host is read where a touch begins."""
        todo, done = self.issued[host].operations[number], self.taken[number, host]
        asked = kind == "r" and lanes and self.row.hosts[host].bytes <= self.agents[number].agent.bytes and done < len(todo)
        demand(not asked or todo[done][4], f"agent {number} is read twice for one of its words that host {host} reads")

    def gets(self, cycle, host, word, code):
        number, words = self.given[host], self.issued[host].words
        demand(number < len(words), f"host {host} is given a word that it didn't ask")
        place, _, lanes = words[number]
        self.given[host] += 1
        codes = [3] if place is None else []
        for lane in lanes:
            if place is None:
                demand(byte_of(word, lane) == 0, f"host {host} is given other than 0 by nobody")
                continue
            answers, used = self.agents[place].answers.get(host, []), self.used[place, host]
            demand(used < len(answers), f"host {host} is given a word before its agent was read")
            byte, at, own = answers[used]
            codes.append(own)
            late = 1 if self.agents[place].is_clock() else 0
            demand(cycle >= at + late + self.row.stages, f"host {host} is given a word before its agent gave it")
            demand(byte in (None, byte_of(word, lane)), f"host {host} is given a wrong byte")
            self.used[place, host] += 1
        self.is_coded(host, code, codes)

    def is_coded(self, host, code, codes):
        """A word's code is told where the host has `response`; that of a word of an agent without an operation isn't fixed."""
        demand(self.row.hosts[host].response == (code is not None), f"host {host} is told a code, or none, where it shouldn't be")
        demand(code is None or not codes or code == max(codes), f"host {host} is given a wrong code")

    def bounds(self):
        """No more reads are unanswered after a cycle than an agent bears."""
        for number, run in enumerate(self.agents):
            if not run.agent.fixed:
                ends = [(at, asked) for at, asked, last in run.gives if last]
                for _, asked in ends:
                    open_ = sum(1 for at, begun in ends if begun <= asked < at)
                    demand(open_ <= run.agent.bound(), f"agent {number} bears more reads than it may")

    def finish(self, left):
        self.bounds()
        for (number, host), beats in self.beats.items():
            demand(beats <= self.issued[host].beats[number], f"agent {number} takes beats that host {host} didn't ask")
        if left != "nothing left":
            return
        # accepted commands may still be in the stages, or be kept
        behind = 0 if self.row.cycles > self.last + 100 else 6 + 2 * self.row.stages
        for (number, host), done in self.taken.items():
            waiting = {each[3] for each in self.issued[host].operations[number][done:]}
            demand(len(waiting) <= behind, f"agent {number} hasn't taken all of host {host}")
        for host, given in enumerate(self.given):
            demand(given == len(self.issued[host].words), f"host {host} wasn't given all words")


def judge(line, told):
    row = Row(line)
    if any(is_refused(host, row.joined(number)) for number, host in enumerate(row.hosts)):
        demand(told == ["refused"], "it isn't refused")
        return
    demand(told and told[-1].endswith(", the rules were kept"), f"told: {told[-1] if told else 'nothing'}")
    judged = Judge(row)
    for event in told[:-1]:
        if match := READ.fullmatch(event):
            cycle, number, address, count, lanes, host = match.groups()
            judged.takes(int(cycle), int(number), "r", int(address, 16), 0, int(count) if count else None, int(lanes or "0", 16), int(host))
        elif match := WRITE.fullmatch(event):
            cycle, number, word, address, count, lanes, host = match.groups()
            judged.takes(int(cycle), int(number), "w", int(address, 16), int(word, 16), int(count) if count else None, int(lanes or "0", 16), int(host))
        else:
            match = GIVEN.fullmatch(event)
            demand(match, f"told: {event}")
            judged.gets(int(match[1]), int(match[2]), int(match[3], 16), int(match[4]) if match[4] else None)
    judged.finish(told[-1].rsplit(",", 1)[0])


def pattern(random):
    return "".join(random.choice("0001") for _ in range(random.randrange(3, 9))) + "0"


def draw_agent(random, number, hosts, widths):
    bits, enables = random.choice(widths), random.random() < 0.6
    joined = [host for host in range(len(hosts)) if random.random() < 0.8] or [0]
    if any(hosts[host][0] < bits for host in joined):
        enables = True
    kinds, waits = random.choice(["rw"] * 6 + ["r", "w"]), random.random() < 0.7
    fixed = random.random() < 0.3
    burst = random.choice([0, 1, 2, 3, 5]) if waits and not (fixed and "r" in kinds) else 0
    bytes_ = bits // 8
    span = random.choice([4, 5, 6, 8])
    address = max(span - bytes_.bit_length() + 1, 0)
    parts = [f"{bits},{kinds}"] + ([f"address={address}"] if address else []) + [f"at={number * 0x400:x}"]
    parts += ["enables"] if enables else []
    parts += [f"burst={burst}"] if burst else []
    parts += [f"wait={random.choice(['0', '0', pattern(random)])}"] if waits else [f"readwait={random.randrange(3)},writewait={random.randrange(3)}"]
    if fixed:
        parts += ["fixed", f"latency={random.randrange(1, 5)}"]
    else:
        parts += [f"pending={random.choice([1, 2, 3, 4, 8, 20])}", f"latency={random.randrange(1, 9)}"]
        parts += [f"late={pattern(random)}"] if random.random() < 0.3 else []
    parts += [f"first={random.randrange(256):x}", "from=" + "+".join(f"{host}*{random.randrange(1, 4)}" for host in random.sample(joined, len(joined)))]
    return ",".join(parts), number * 0x400, 1 << max(span, bytes_.bit_length() - 1)


def draw_write(random, bits, enables, longest):
    beats, listed = random.randint(1, min(longest, 16)), []
    for k in range(beats):
        listed += [f"+{random.randrange(1, 4)}"] if k and random.random() < 0.2 else []
        lanes = f"/{random.getrandbits(bits // 8):x}" if enables and random.random() < 0.6 else ""
        listed.append(f"{random.getrandbits(bits):x}{lanes}")
    return ";".join(listed)


def draw_access(random, host, agents):
    bits, kinds, burst, enables = host
    longest = 1 << max(burst, 1) - 1
    base, span = random.choice([agent[1:] for agent in agents] + [(0xC00, 0x40)])
    address = base + (span - random.choice([1, 2, 3]) * bits // 8 if random.random() < 0.4 else random.randrange(span))
    address = max(address, base)
    address -= 0 if random.random() < 0.1 else address % (bits // 8)
    if "w" in kinds and ("r" not in kinds or random.random() < 0.5):
        return f"w{address:x}=" + draw_write(random, bits, enables, longest)
    lanes = f"/{random.getrandbits(bits // 8):x}" if enables and random.random() < 0.4 else ""
    count = random.randint(1, min(longest, 16))
    return f"r{address:x}{lanes}" + (f":{count}" if count > 1 else "")


def draw_row(random):
    """Hosts of 1 to 3 kinds of words and bursts, and agents."""
    widths = random.choice([[32], [32], [8, 32], [16, 32], [32, 64], [8, 16, 32, 64, 128]])
    hosts = []
    for _ in range(random.choice([1, 1, 2, 3])):
        kinds = random.choice(["rw"] * 6 + ["r", "w"])
        valid = kinds != "w" and random.random() < 0.8
        burst = random.choice([0, 1, 2, 3, 4, 5]) if valid or kinds == "w" else 0
        hosts.append((random.choice(widths), kinds, burst, random.random() < 0.5, valid, random.random() < 0.3))
    count, named = random.randint(1, 3), None
    # hosts stand in the order in which the agents name them first
    while named != list(range(len(hosts))):
        drawn = [draw_agent(random, number, hosts, widths) for number in range(count)]
        named = list(dict.fromkeys(int(seat) for agent, _, _ in drawn for seat in re.findall(r"(\d+)\*", agent.split("from=")[1])))
    agents = [agent for agent, _, _ in drawn]
    stages = random.choice([0, 0, 0, 1, 2, 4])
    words = []
    for bits, kinds, burst, enables, valid, loose in hosts:
        parts = [f"{bits},{kinds},address=12"] + (["valid"] if valid else []) + (["enables"] if enables else [])
        parts += [f"burst={burst}"] if burst else []
        parts += ["loose"] if loose else []
        accesses = []
        for _ in range(random.randint(1, 10)):
            accesses += [f"+{random.randrange(1, 6)}"] if random.random() < 0.2 else []
            accesses.append(draw_access(random, (bits, kinds, burst, enables), drawn))
        words.append([",".join(parts)] + accesses)
    row = [words[0][0]] + agents + ([f"stages={stages}"] if stages else []) + ["700"] + words[0][1:]
    return " ".join(row + [word for each in words[1:] for word in each])


def draw_codes(random, row):
    """A drawn row whose hosts and agents may have `response`."""
    words = row.split()
    for k, word in enumerate(words):
        if "from=" in word and random.random() < 0.8:
            words[k] += ",codes=" + "".join(random.choice("0123") for _ in range(random.randrange(1, 8)))
        elif "," in word and "from=" not in word and random.random() < 0.8:
            words[k] += ",response"
    return " ".join(words)


def rows_of(lines):
    line, told = None, []
    for each in lines:
        if each.startswith("  "):
            told.append(each[2:].rstrip("\n"))
            continue
        if line and not line.startswith("#"):
            yield line, told
        line, told = each.rstrip("\n"), []
    if line and not line.startswith("#"):
        yield line, told


def main():
    if len(sys.argv) > 1:
        random = Random(int(sys.argv[3]))
        for _ in range(int(sys.argv[2])):
            row = draw_row(random)
            print(draw_codes(random, row) if "codes" in sys.argv[4:] else row)
        return
    rows = broken = unfinished = refused = 0
    for line, told in rows_of(sys.stdin):
        rows += 1
        refused += told == ["refused"]
        unfinished += told != ["refused"] and not told[-1].startswith("nothing left")
        try:
            judge(line, told)
        except Broken as law:
            broken += 1
            print(f"{line}\n  {law}")
    print(f"{rows} rows, {broken} broken, {refused} refused, {unfinished} not finished")
    sys.exit(broken > 0)


if __name__ == "__main__":
    main()
