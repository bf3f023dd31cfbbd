#!/usr/bin/env python3
"""How long commands take beside hosts that ask without a break, and how long one may stand: latency.py [SYSTEMS [CYCLES]], or latency.py FOLDER.

Runs drawn systems in bus_model.py, 200 of 200 cycles where nothing is said. Of each command there is its life, from the cycle in which its
first beat is shown to the one in which its last beat is accepted, its last operation taken or its last word given; and how long it stood: cycles
in a row in which it was the oldest unfinished one of its host, its agent neither raised waitrequest nor owed a word, each write burst for the
agent went on, and still the command didn't move. A line for each kind of system has the longest life, and the longest stand with the cycles of
one round of its agent, how many hosts stood longer than theirs, and the window within which a command moves on. A stand that is as long
as its window ends the run with status 1. So does a wait that is as long as its bound: cycles in a row in which beats of the oldest command lack and none
is accepted, whatever words the agent owes, where the agent never raises waitrequest and all its hosts are plain (longest wait, and its bound). Where an agent's hosts aren't all plain the windows are longer than such runs: the round says more there.

With a FOLDER of scripts, of which one is a system's, the window of each of its connections of hosts and agents is printed.
"""
import random
import sys
from collections import deque
from pathlib import Path
from types import SimpleNamespace
from typing import NamedTuple

import bus_model
from script_systems import commands_of, component_of

SYSTEMS, CYCLES = 200, 200


class Side(NamedTuple):
    """What a window rests on of a host or an agent: the bytes of a word, byte enables, a host's burstcount, an agent's longest wait time."""

    bytes: int
    enables: bool
    burst: int = 0
    wait: int = 0

    def longest(self):
        return 1 << max(self.burst, 1) - 1


class Sizes(NamedTuple):
    """And of a system: the sides of its hosts and its agents, of each agent the shares of its hosts, and the stages."""

    hosts: dict
    agents: dict
    shares: dict
    stages: int

    def is_alike(self, host, agent):
        """Whether a host's plain commands reach the agent one for one."""
        return host.bytes == agent.bytes and not host.burst and (agent.enables or not host.enables)

    def are_alike(self, agent):
        return all(self.is_alike(self.hosts[each], self.agents[agent]) for each in self.shares[agent])

    def round_by(self, agent, host, steps):
        """A round of the others: for each share the steps of a command."""
        return sum(shares * steps(each) for each, shares in self.shares[agent].items() if each != host)

    def standing_by(self, agent, around):
        """For so many cycles a beat stands, each beat of the others with its wait states, a cycle in which its word comes, and one for each stage."""
        wait, stages = self.agents[agent].wait, self.stages
        return around * (wait + stages + 2) + wait + stages + 1

    def longest(self, host):
        return self.hosts[host].longest()


def host_window(sizes, agent, host):
    """`host_window` of crates/memory_waits/specs/Windows.antt, with the names that the pieces have there."""
    below, stages = sizes.agents[agent], sizes.stages

    def fitted_steps(each):
        # for each beat, and for one more, its pieces at the agent's words, and the cycles in which the words of a wide one are given out
        own, piece = sizes.hosts[each], min(sizes.hosts[each].bytes, below.bytes)
        return (own.longest() + 1) * (own.bytes // piece + below.bytes // piece)

    # in so many cycles an agent that doesn't stall takes all that stands in the stages: two beats for each
    pipe_time = sum(2 * (below.wait + stage + 2) for stage in range(stages))
    # twice that, and the way of a word up
    behind = 2 * pipe_time + stages + 6
    if sizes.are_alike(agent):
        # `waiting_window`: all are wired to the arbiter
        return sizes.standing_by(agent, sizes.round_by(agent, host, sizes.longest)) + 1 + behind
    # `row_window`: the others' steps, with a cycle for each beat without a lane, and two more
    around = sizes.round_by(agent, host, lambda each: 2 * fitted_steps(each) + 2)
    # what is still to be taken of the host's own, twice where a beat of it may be kept, and as much again until that one is sent
    own_steps = 4 * fitted_steps(host) + 3
    # by then all words have come that were asked behind an arbiter
    word_time = pipe_time + stages + 3
    # each beat of the others may bring its words, while which a link may hold another back
    standing_quietly = sizes.standing_by(agent, around) + word_time * (around + 1)
    # so for each step, before which all words may have to come
    return (2 * own_steps + 1) * (standing_quietly + word_time + 1) + behind


def prompt_window(sizes, agent, host, late):
    """`prompt_window` of crates/memory_awake/specs/Onward.antt, where all hosts are plain and the agent owes nothing after `late` cycles in which it takes nothing."""
    around = sizes.round_by(agent, host, sizes.longest)
    return sizes.standing_by(agent, around) + late * (around + 2 * sizes.stages + 1)


def one_round(sizes, agent, host):
    """What isn't proved: the beats of the others' shares, one of its own, and those that stages hold, at the agent's pace."""
    below = sizes.agents[agent]
    steps = {each: side.longest() * max(1, side.bytes // below.bytes) for each, side in sizes.hosts.items()}
    around = sizes.round_by(agent, host, steps.get)
    return (around + 2 * sizes.stages + 1) * (below.wait + 1) + 2 * sizes.stages + 1


def sizes_of_row(row):
    hosts = {number: Side(host.bytes, host.enables, burst=host.burst) for number, host in enumerate(row.hosts)}
    waits = [0 if agent.wait else max(agent.readwait, agent.writewait) for agent in row.agents]
    agents = {number: Side(agent.bytes, agent.enables, wait=waits[number]) for number, agent in enumerate(row.agents)}
    return Sizes(hosts, agents, {number: dict(agent.seats) for number, agent in enumerate(row.agents)}, row.stages)


# ---- what is seen of commands

class Command:
    """An unfinished command: its beats that aren't accepted yet, its operations and its words, and how many of all of its host those make up to it."""

    def __init__(self, access, place, since):
        self.place, self.since = place, since
        self.beats = access.left if access.kind == "w" else 1
        self.operations = self.operations_to = self.words = self.words_to = 0


class Watched:
    """A host's commands, oldest first, and what of them has been shown, taken and given."""

    def __init__(self, number, host, row, route):
        self.number, self.host, self.row, self.route = number, host, row, route
        self.commands, self.last = deque(), None
        self.issued, self.taken = [0] * len(row.agents), [0] * len(row.agents)
        self.asked = self.given = self.stood = self.waited = 0

    def place_of(self, access):
        address = access.address * (self.host.bytes if self.host.counts_words else 1)
        return self.route.place(SimpleNamespace(kind=access.kind, address=address))

    def operations(self, access, agent):
        """How many bytes a beat comes to at an agent: those of its enabled lanes, or of each piece with one."""
        piece = min(self.host.bytes, agent.bytes)
        if agent.enables:
            return bin(access.lanes).count("1")
        return sum(piece for at in range(0, self.host.bytes, piece) if access.lanes >> at & (1 << piece) - 1)

    def shows(self, cycle, access):
        if access is None or access is self.last:
            return
        self.last = access
        if access.begins:
            self.commands.append(Command(access, self.place_of(access), cycle))
        newest = self.commands[-1]
        beats = access.left if access.kind == "r" else 1
        if newest.place is not None:
            own = beats * self.operations(access, self.row.agents[newest.place])
            self.issued[newest.place] += own
            newest.operations += own
            newest.operations_to = self.issued[newest.place]
        if access.kind == "r":
            self.asked += beats
            newest.words, newest.words_to = beats, self.asked

    def lacks_operations(self, command):
        return command.operations > 0 and command.operations_to > self.taken[command.place]

    def lacks_words(self, command):
        return command.words > 0 and command.words_to > self.given

    def burst_waits(self, agent, shown):
        """Whether a write burst for the agent is under way and no beat is shown."""
        return shown is None and bool(self.commands) and self.commands[-1].beats > 0 and self.commands[-1].place == agent

    def waits(self, accepted, goes_on):
        """For how many cycles beats of the oldest command have lacked, whose burst goes on, and none was accepted."""
        lacks = goes_on and bool(self.commands) and self.commands[0].beats > 0 and (self.last.kind == "w" or self.host.valid)
        self.waited = self.waited + 1 if lacks and not accepted else 0
        return self.waited

    def sees(self, cycle, wanted, accepted, taken, given):
        """What went by: whether the agent of the oldest command lets it move, a beat accepted, the bytes that each agent took, a word given. Told
        are how long that command has stood, and the lives of those that are finished."""
        if self.commands:
            oldest = self.commands[0]
            moves = accepted and oldest.beats > 0 or given and self.lacks_words(oldest)
            moves |= oldest.place in taken and self.lacks_operations(oldest)
            self.stood = 0 if moves or not wanted else self.stood + 1
        stood = self.stood
        if accepted:
            next(command for command in self.commands if command.beats).beats -= 1
        for agent, count in taken.items():
            self.taken[agent] += count
        self.given += given
        lives = []
        while self.commands and not (self.commands[0].beats or self.lacks_operations(self.commands[0]) or self.lacks_words(self.commands[0])):
            lives.append(cycle + 1 - self.commands.popleft().since)
            self.stood = 0
        return stood, lives


class Owed:
    """The words that an agent has been asked for and hasn't given."""

    def __init__(self, agent):
        self.agent, self.due = agent, deque()

    def edge(self, cycle, asked, comes):
        self.due.extend([cycle + self.agent.latency] * asked)
        if self.agent.fixed:
            while self.due and self.due[0] <= cycle:
                self.due.popleft()
        elif comes:
            self.due.popleft()
        return bool(self.due)


def run(row):
    """By agent and host the longest stand and the longest wait, and the lives of the commands that are finished."""
    hosts = [bus_model.Host(host, accesses) for host, accesses in zip(row.hosts, row.accesses)]
    memories = [bus_model.Memory(number, agent) for number, agent in enumerate(row.agents)]
    system = bus_model.System(row)
    watched = [Watched(number, host, row, system.routes[number]) for number, host in enumerate(row.hosts)]
    owed = [Owed(agent) for agent in row.agents]
    stands, longest_waits, lives = {}, {}, []
    for cycle in range(row.cycles):
        shown = [host.shows() for host in hosts]
        commands = system.below(shown)
        waits = [memory.waits(cycle, command) for memory, command in zip(memories, commands)]
        words = [memory.gives(cycle) for memory in memories]
        told = system.above(waits, words)
        taken, free, goes_on = [{} for _ in hosts], [], []
        for each, access in zip(watched, shown):
            each.shows(cycle, access)
        for number, (command, agent) in enumerate(zip(commands, row.agents)):
            accepts = command.kind is not None and not waits[number]
            if accepts:
                lanes = command.lanes if agent.enables else agent.all_lanes()
                taken[command.tag][number] = bin(lanes).count("1") * (command.left if command.kind == "r" else 1)
            owes = owed[number].edge(cycle, command.left if accepts and command.kind == "r" else 0, words[number] is not None)
            stalls = bool(agent.wait) and waits[number]
            goes_on.append(not any(each.burst_waits(number, access) for each, access in zip(watched, shown)))
            free.append(not owes and not stalls and goes_on[-1])
        for number, (each, access, (wait, word)) in enumerate(zip(watched, shown, told)):
            oldest = each.commands[0] if each.commands else None
            wanted = oldest is not None and oldest.place is not None and free[oldest.place]
            if oldest is not None and oldest.place is not None:
                waited = each.waits(access is not None and not wait, goes_on[oldest.place])
                longest_waits[oldest.place, number] = max(longest_waits.get((oldest.place, number), 0), waited)
            stood, ended = each.sees(cycle, wanted, access is not None and not wait, taken[number], word is not None)
            if wanted:
                stands[oldest.place, number] = max(stands.get((oldest.place, number), 0), stood)
            lives += ended
        for memory, command, wait, word in zip(memories, commands, waits, words):
            memory.sees(cycle, command, wait, word)
        for host, access, (wait, word) in zip(hosts, shown, told):
            host.sees(access, wait, word)
        system.edge()
    assert all(each.kept for each in hosts + memories), "a rule was broken"
    return stands, longest_waits, lives


# ---- what is drawn

SPAN_BITS, ADDRESS_BITS = 8, 12


def host_word(bits, burst, enables=True, valid=True):
    parts = [str(bits), "rw", f"address={ADDRESS_BITS}"] + ["valid"] * valid + ["enables"] * (enables and bits > 8)
    return ",".join(parts + ([f"burst={burst}"] if burst else []))


def agent_word(draw, number, bits, burst, shares, enables, fixed, busy):
    parts = [str(bits), "rw", f"address={SPAN_BITS - (bits // 8).bit_length() + 1}", f"at={number << SPAN_BITS:x}"] + ["enables"] * (enables and bits > 8)
    if busy and not fixed:
        parts += ["wait=0", "pending=4", "latency=1"]
    elif fixed:
        parts += [f"readwait={draw.choice([0, 0, 1, 3])}", f"writewait={draw.choice([0, 0, 1, 3])}", "fixed", f"latency={draw.choice([0, 1, 2, 5])}"]
    else:
        wait = draw.choice(["0", "0", "0", "0001", "".join(draw.choice("001") for _ in range(16))])
        parts += [f"wait={wait}", f"pending={draw.choice([1, 2, 4])}", f"latency={draw.choice([1, 1, 2, 5])}"]
    parts += [f"burst={burst}"] if burst else []
    return ",".join(parts + ["from=" + "+".join(f"{host}*{share}" for host, share in enumerate(shares))])


def accesses(draw, bits, burst, agents, count, busy):
    """What a host asks for. Some hosts rest between commands, most don't; in a busy system nearly all write."""
    rests, longest, lanes_of_all = draw.choice([0, 0, 0.05, 0.7]), 1 << max(burst, 1) - 1, (1 << bits // 8) - 1
    kinds = draw.choice(["w", "w", "w", "rw"] if busy else ["w", "r", "rw", "rwww"])
    for _ in range(count):
        if draw.random() < rests:
            yield f"+{draw.randrange(1, 30)}"
        beats = longest if draw.random() < 0.7 else draw.randrange(1, longest + 1)
        room = (1 << SPAN_BITS) // (bits // 8) - beats
        address = (draw.randrange(agents) << SPAN_BITS) + draw.randrange(max(room, 1)) * (bits // 8)
        lanes = draw.choice([lanes_of_all, lanes_of_all, 0, draw.randrange(lanes_of_all + 1)]) if bits > 8 else lanes_of_all
        if draw.choice(kinds) == "r":
            yield f"r{address:x}/{lanes:x}:{beats}"
        elif beats == 1 or draw.random() < 0.8:
            yield f"w{address:x}={draw.randrange(256):x}/{lanes:x}:{beats}"
        else:
            # each beat has its own lanes, and some come late
            parts = [f"{'+2;' if draw.random() < 0.1 else ''}{draw.randrange(256):x}/{draw.choice([0, lanes_of_all]):x}" for _ in range(beats)]
            yield f"w{address:x}=" + ";".join(parts)


# bits of the hosts, bits of the agents, bits of burstcount at hosts and agents
KINDS = {
    "plain": ([32], [32], [0], [0]),
    "plain, stages": ([32], [32], [0], [0]),
    "wires": ([32], [32], [0, 2, 3], [3]),
    "wait times": ([32], [32], [0], [0]),
    "stages": ([32], [32], [0, 2, 3], [3]),
    "bursts cut": ([32], [32], [3, 4], [0, 1, 2]),
    "wide to narrow": ([32, 64, 128], [8, 16, 32], [0, 0, 3], [0]),
    "narrow to wide": ([8, 16, 32], [32, 64, 128], [0], [0]),
    "words gathered": ([8, 16, 32], [64, 128], [3, 4], [0]),
    "lanes dropped": ([32, 64], [16, 32], [0, 3], [0]),
    "mixed": ([8, 16, 32, 64], [8, 16, 32, 64], [0, 3], [0, 2]),
}


def drawn(kind, number, cycles):
    """A system of a kind, as a row of crates/bus_rows/stdin."""
    draw = random.Random(f"{kind} {number}")
    bits, agent_bits, bursts, agent_bursts = KINDS[kind]
    hosts = [(draw.choice(bits), draw.choice(bursts)) for _ in range(draw.choice([2, 2, 3, 4]))]
    agents, shares = draw.choice([1, 1, 2]), [draw.choice([1, 1, 2, 3]) for _ in hosts]
    drops, fixed, busy = kind == "lanes dropped", kind == "wait times", draw.random() < 0.5
    words = [agent_word(draw, each, draw.choice(agent_bits), draw.choice(agent_bursts), shares, not drops, fixed, busy) for each in range(agents)]
    stages = draw.choice([1, 2, 4]) if "stages" in kind else draw.choice([0, 0, 1]) if kind == "mixed" else 0
    text = [host_word(*hosts[0])] + words + [f"stages={stages}", str(cycles)]
    for number, (width, burst) in enumerate(hosts):
        text += ([host_word(width, burst, valid=burst > 0 or draw.random() < 0.8)] if number else []) + list(accesses(draw, width, burst, agents, cycles, busy))
    row = bus_model.Row(" ".join(text))
    assert not any(bus_model.is_refused(host, row.joined(each)) for each, host in enumerate(row.hosts)), text
    return row


def measured(kind, systems, cycles):
    """The longest stand with its window, the longest wait with its bound, and the longest life, of so many systems of a kind."""
    longest, longest_wait, over, ended = (0, 0, 0), (0, 0), 0, []
    for number in range(systems):
        row = drawn(kind, number, cycles)
        stands, waits, lives = run(row)
        ended += lives
        sizes = sizes_of_row(row)
        for (agent, host), waited in waits.items():
            side = row.agents[agent]
            if set(str(side.wait or 0)) != {"0"} or not sizes.are_alike(agent):
                continue
            bound = prompt_window(sizes, agent, host, max(side.latency, 1))
            if waited >= bound:
                print(f"{kind}, system {number}: a beat of host {host} waited at agent {agent} for {waited} cycles, and its bound is {bound}")
                sys.exit(1)
            longest_wait = max(longest_wait, (waited, -bound))
        for (agent, host), stood in stands.items():
            window, rounds = host_window(sizes, agent, host), one_round(sizes, agent, host)
            if stood >= window:
                print(f"{kind}, system {number}: a command of host {host} stood at agent {agent} for {stood} cycles, and its window has {window}")
                sys.exit(1)
            longest, over = max(longest, (stood, -rounds, -window)), over + (stood > rounds)
    stood, rounds, window = map(abs, longest)
    print(f"{kind:<16} {systems:7} {systems * cycles:8} {len(ended):9} {max(ended):7} {stood:6} {rounds:6} {over:5} {window:8}"
          + (f" {longest_wait[0]:6} {-longest_wait[1]:6}" if longest_wait[1] else f" {'-':>6} {'-':>6}"), flush=True)


# ---- the windows of a system that is given

def sizes_of_scripts(scripts):
    """Those of the one system among scripts."""
    (system,) = [script for script in scripts if any(words[0] == "create_system" for words in commands_of(script))]
    components = dict(component_of(script) for script in scripts if script is not system)
    instances, ends, shares, stages = {}, {"host": {}, "agent": {}}, {}, 0

    def end_of(name):
        instance, interface = name.split(".")
        end = components.get(instances[instance], {}).get(interface)
        if end and end.kind in ends:
            wait = 0 if end.has("waitrequest") else max(end.number("readWaitTime", 1), end.number("writeWaitTime", 0))
            ends[end.kind][name] = Side(end.word() // 8, end.has("byteenable"), end.width("burstcount"), wait)
        return end

    for words in commands_of(system):
        if words[0] == "add_instance":
            instances[words[1]] = words[2]
        elif words[0] == "add_connection":
            one, other = words[1].split("/") if "/" in words[1] else words[1:3]
            end = end_of(one)
            if end and end.kind == "host" and end_of(other):
                shares.setdefault(other, {})[one] = 1
        elif words[0] == "set_connection_parameter_value" and words[2] == "arbitrationPriority":
            one, other = words[1].split("/")
            shares[other][one] = int(words[3])
        elif words[0] == "set_interconnect_requirement" and words[-2] == "qsys_mm.maxAdditionalLatency":
            stages = int(words[-1])
    return Sizes(ends["host"], ends["agent"], shares, stages)


def windows(folder):
    sizes = sizes_of_scripts([path.read_text() for path in sorted(folder.glob("*.tcl"))])
    for agent, hosts in sizes.shares.items():
        for host in hosts:
            print(f"{host} at {agent}: moves on within {host_window(sizes, agent, host)} cycles")
            if sizes.are_alike(agent):
                first, more = prompt_window(sizes, agent, host, 0), prompt_window(sizes, agent, host, 1) - prompt_window(sizes, agent, host, 0)
                print(f"  a beat is accepted within {first} + {more} L cycles, where the agent never waits and answers within L")


def main(first=str(SYSTEMS), cycles=str(CYCLES)):
    if not first.isdigit():
        windows(Path(first))
        return
    print(f"{'kind':<16} {'systems':>7} {'cycles':>8} {'commands':>9} {'life':>7} {'stand':>6} {'round':>6} {'over':>5} {'window':>8} {'wait':>6} {'bound':>6}")
    for place, kind in enumerate(KINDS):
        systems = (int(first) + len(KINDS) - 1 - place) // len(KINDS)
        measured(kind, systems, int(cycles))


if __name__ == "__main__":
    main(*sys.argv[1:])
