#!/usr/bin/env python3
"""What crates/text_rows must print of its rows of files, from the files of its folder data/: judge_files.py <ROWS.

A row is the number of a word, a place and a count, or `all` and a limit. Word 0 is the program itself.

    files() { sed '1,/^:rows files/d;/^:rows/,$d' crates/text_rows/$1; }
    files stdin | python3 bench/judge_files.py | cmp - <(files stdout)
"""
import sys
from pathlib import Path

CRATE = Path(__file__).resolve().parent.parent / "crates" / "text_rows"
ROOM = 256


def given(data):
    return f"{len(data)} bytes {data.decode()}"


def part(data, at, count):
    found = data[at:at + min(max(count, 1), ROOM)]
    return given(found) if found else "end"


def answer(words, number, place, count):
    file = CRATE / "data" / words[number] if number < len(words) else None
    if file is None or not file.is_file():
        return "failed"
    data = file.read_bytes()
    if place != "all":
        return part(data, int(place), count)
    return given(data) if len(data) <= count else "too long"


def main():
    words = ["", *(CRATE / "args").read_text().splitlines()]
    for row in sys.stdin.read().splitlines():
        number, place, count = row.split(" ")
        print(f"{row}: {answer(words, int(number), place, int(count))}")


if __name__ == "__main__":
    main()
