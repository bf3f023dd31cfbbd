#!/usr/bin/env python3
"""Reads value change dumps of any tool, and compares the values at ports time by time.

dump_values.py same ONE OTHER: whether two dumps name the same ports, and have the same values at all of them at each time.
dump_values.py sampled OURS THEIRS: whether THEIRS, which Icarus wrote beside a bench of `replay_waves.py`, has before each cycle's edge the
values that OURS has in that cycle, at each port that OURS names.
"""
import sys


def read(name):
    """The last time, the widths of the signals, and for each time at which something changes the values that change, by name."""
    names, widths, changes, now = {}, {}, {0: {}}, 0
    words = iter(open(name).read().split())
    for word in words:
        if word == "$var":
            _, width, code, signal = (next(words) for _ in range(4))
            signal = signal.removeprefix("\\")  # so Icarus writes a name with `$`
            names.setdefault(code, []).append(signal)
            widths[signal] = int(width)
        if word in ("$date", "$version", "$timescale", "$scope", "$var", "$upscope", "$enddefinitions", "$comment"):
            while word != "$end":
                word = next(words)
        elif word[0] == "#":
            now = int(word[1:])
            changes.setdefault(now, {})
        elif word[0] in "bB":
            code = next(words)
            changes[now].update(dict.fromkeys(names[code], word[1:].lstrip("0") or "0"))
        elif word[0] != "$":
            changes[now].update(dict.fromkeys(names[word[1:]], word[0]))
    return now, widths, changes


def at_each(changes, times):
    """The values at each of the times, which rise."""
    row, rows, left = {}, [], sorted(changes)
    for time in times:
        while left and left[0] <= time:
            row.update(changes[left.pop(0)])
        rows.append(dict(row))
    return rows


def fail(said):
    sys.exit(f"dump_values: {said}")


def same(one, other):
    end, widths, changes = read(one)
    other_end, other_widths, others = read(other)
    if not widths or widths != other_widths:
        fail(f"{other} has other signals than {one}")
    if end != other_end:
        fail(f"{one} ends at {end}, {other} at {other_end}")
    for time, (ours, theirs) in enumerate(zip(at_each(changes, range(end)), at_each(others, range(end)))):
        if ours != theirs:
            fail(f"{one} and {other} differ at time {time}")
    return len(widths), end


def sampled(ours, theirs):
    end, widths, changes = read(ours)
    _, other_widths, others = read(theirs)
    if not widths:
        fail(f"{ours} has no ports")
    for name, width in widths.items():
        if other_widths.get(name) != width:
            fail(f"{theirs} has no port {name} of {width} bits")
    # the bench shows a row at each second time from 2 on, and its edge one later
    rows = at_each(others, range(2, 2 + 2 * end, 2))
    for cycle, (row, given) in enumerate(zip(at_each(changes, range(end)), rows)):
        for name, value in row.items():
            if given[name] != value:
                fail(f"in cycle {cycle} {name} is {value} in {ours}, and {given[name]} in {theirs}")
    return len(widths), end


if __name__ == "__main__":
    print("{} ports, {} cycles".format(*{"same": same, "sampled": sampled}[sys.argv[1]](*sys.argv[2:])))
