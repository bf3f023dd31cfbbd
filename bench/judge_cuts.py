#!/usr/bin/env python3
"""What crates/script_rows must print of its rows of a file cut at each byte, and of a read that fails: judge_cuts.py <ROWS.

Each beginning of a text is judged by judge_texts, and each of the system of a wire here, which has three commands and two
components. Written from docs/RULES.md. A file is read 4,096 bytes at a time, until a read finds its end.

    python3 bench/judge_cuts.py <crates/script_rows/stdin | diff - <(grep '^any [cr]' crates/script_rows/stdout)
"""
import re
import sys

from judge_simulated_rows import files_of
from judge_texts import judged

CHUNK = 4096
ENDS = {"gen": "out", "chk": "st"}
MOST_WORDS = {"create_system": 1, "add_instance": 2, "add_connection": 2}
FEWEST_WORDS = {"create_system": 0, "add_instance": 2, "add_connection": 1}


def fault_of_command(words):
    """The byte at which a command is refused, or None. Each word has its place."""
    (start, command), *rest = words
    if command not in MOST_WORDS or not FEWEST_WORDS[command] <= len(rest) <= MOST_WORDS[command]:
        return start
    if command == "add_instance":
        at, kind = rest[1]
        return None if kind in ENDS else at
    if command == "add_connection":
        for at, word in rest:
            instance, _, interface = word.partition(".")
            # a single word names both ends
            if len(rest) == 1 or ENDS.get(instance) != interface:
                return at
    return None


def words_of(line):
    return [(line.start() + word.start(), word[0].decode()) for word in re.finditer(rb"[^ ]+", line[0])]


def fault_of_script(text):
    """The byte of the first fault, or None. Without a command there is no `create_system`, which is told at byte 0."""
    faults = [fault_of_command(words_of(line)) for line in re.finditer(rb"[^\n]+", text)] or [0]
    return next((at for at in faults if at is not None), None)


def fault_of_text(text):
    found = re.match(r"byte (\d+) rule", judged(text))
    return int(found[1]) if found else None


def told_of_cuts(parts, rest):
    command, rest = rest.split("\n", 1)
    whole = files_of(parts, rest)[0][0]
    fault = {":generate": fault_of_script, ":replay": fault_of_text}[command]
    faults = [fault(whole[:cut]) for cut in range(len(whole))]
    return f"{len(whole)} beginnings, done {faults.count(None)}, sum of bytes {sum(at or 0 for at in faults)}"


def told_of_reads(parts, rest):
    reads = [-(-len(file) // CHUNK) + 1 for file in files_of(parts, rest)[0]]
    return "read faults of files" + "".join(f" {number}" * count for number, count in enumerate(reads, 1))


def main():
    heads, *rows = sys.stdin.read().split("\n:row ")
    parts = dict(part.split("\n", 1) for part in heads.split(":part ")[1:])
    for row in rows:
        title, rest = row.split("\n", 1)
        if title.startswith("any cut "):
            print(f"{title}: {told_of_cuts(parts, rest)}")
        elif title.startswith("any read "):
            print(f"{title}: {told_of_reads(parts, rest)}")


if __name__ == "__main__":
    main()
