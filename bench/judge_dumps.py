#!/usr/bin/env python3
"""Judges value change dumps, apart from the program: judge_dumps.py FILE..

For each file it prints its rows, as `undump` is to, or its first fault: the byte, counted from 0, and the rule. Written from the rules in docs/FORMATS.md.
With --each FILE it judges the file with each of its bytes replaced by each of the 256, and each of its beginnings, a line each.
With --dump NAME PORT:WIDTH.. it writes the dump of rows of hexadecimal values on the standard input, one row a line.
"""
import string
import sys

NAME = set((string.ascii_letters + string.digits + "_$").encode())
DIGIT = set(string.digits.encode())
CODE = set(range(33, 127))
MOST_CYCLES = 65536


class Fault(Exception):
    def __init__(self, at, rule):
        super().__init__(f"byte {at} rule {rule}")


def code(number):
    text = ""
    while True:
        text += chr(33 + number % 94)
        if number < 94:
            return text
        number = number // 94 - 1


# ---- writing

def spelled(value, width, number):
    return f"{value}{code(number)}\n" if width == 1 else f"b{value:b} {code(number)}\n"


def dump(name, ports, rows):
    """The text of a dump of ports (name, width) and rows of numbers."""
    parts = [f"$timescale 1 ns $end\n$scope module {name} $end\n"]
    parts += [f"$var wire {width} {code(k)} {port} $end\n" for k, (port, width) in enumerate(ports)]
    parts.append("$upscope $end\n$enddefinitions $end\n#0\n$dumpvars\n")
    parts += [spelled(value, ports[k][1], k) for k, value in enumerate(rows[0])]
    parts.append("$end\n")
    for time in range(1, len(rows)):
        changes = [spelled(now, ports[k][1], k) for k, (was, now) in enumerate(zip(rows[time - 1], rows[time])) if was != now]
        if changes:
            parts += [f"#{time}\n"] + changes
    return "".join(parts + [f"#{len(rows)}\n"])


# ---- reading

class Reader:
    def __init__(self, text):
        self.text, self.at = text, 0
        self.ports, self.numbers, self.rows = [], {}, []

    def next(self):
        return self.text[self.at] if self.at < len(self.text) else None

    def fixed(self, part):
        for byte in part.encode():
            if self.next() != byte:
                raise Fault(self.at, "G1")
            self.at += 1

    def run(self, kind):
        start = self.at
        while self.next() in kind:
            self.at += 1
        return start, self.text[start:self.at].decode("ascii")

    @staticmethod
    def plain(digits):
        return digits != "" and (digits == "0" or digits[0] != "0")

    def module_name(self):
        start, name = self.run(NAME)
        if not (name[:1].isalpha() and "$" not in name and name.endswith("_interconnect")):
            raise Fault(start, "G2")
        return name

    def port(self):
        self.fixed("var wire ")
        start, digits = self.run(DIGIT)
        if not (self.plain(digits) and 1 <= int(digits) <= 128):
            raise Fault(start, "G3")
        self.fixed(" ")
        start, text = self.run(CODE)
        if text != code(len(self.ports)):
            raise Fault(start, "G4")
        self.fixed(" ")
        start, name = self.run(NAME)
        if not (name[:1].isalpha() and "$" in name and all(name != other for other, _ in self.ports)):
            raise Fault(start, "G2")
        self.fixed(" $end\n")
        self.numbers[text] = len(self.ports)
        self.ports.append((name, int(digits)))

    def value(self, lets_in, last):
        """The line of a value: its port and the number."""
        start = self.at
        if self.next() is None:
            raise Fault(start, "G1")
        first = self.next()
        self.at += 1
        digits = None
        if first == ord("b"):
            _, digits = self.run(DIGIT)
            self.fixed(" ")
        place, text = self.run(CODE)
        number = self.numbers.get(text)
        if number is None or not lets_in(number):
            raise Fault(place, "G4")
        self.fixed("\n")
        width = self.ports[number][1]
        if digits is None:
            good, value = width == 1 and first in b"01", first - 48
        else:
            good = width > 1 and self.plain(digits) and set(digits) <= set("01") and len(digits) <= width
            value = int(digits, 2) if good else 0
        if not good or value == last(number):
            raise Fault(start, "G6")
        return number, value

    def time(self, last):
        self.fixed("#")
        start, digits = self.run(DIGIT)
        if not (self.plain(digits) and last < int(digits) <= MOST_CYCLES):
            raise Fault(start, "G5")
        self.fixed("\n")
        return int(digits)

    def read(self):
        self.fixed("$timescale 1 ns $end\n$scope module ")
        name = self.module_name()
        self.fixed(" $end\n")
        while True:
            self.fixed("$")
            if self.next() != ord("v"):
                break
            self.port()
        self.fixed("upscope $end\n$enddefinitions $end\n#0\n$dumpvars\n")
        row = [self.value(lambda port, k=k: port == k, lambda _: None)[1] for k in range(len(self.ports))]
        self.fixed("$end\n")
        self.rows, last = [list(row)], 0
        while True:
            time = self.time(last)
            self.rows += [list(row) for _ in range(time - last - 1)]
            if self.next() is None:
                return name
            least = 0
            while True:
                port, value = self.value(lambda number: number >= least, lambda number: row[number])
                row[port], least = value, port + 1
                if self.next() == ord("#"):
                    break
            self.rows.append(list(row))
            last = time


def answer(text):
    reader = Reader(text)
    try:
        reader.read()
    except Fault as fault:
        return f"dump refused: {fault}"
    lines = [f"{cycle}" + "".join(f" {port}={value:0{(width + 3) // 4}x}" for (port, width), value in zip(reader.ports, row)) for cycle, row in enumerate(reader.rows)]
    return "\n".join(lines + [f"end {len(reader.rows)}"])


def main(words):
    if words[:1] == ["--dump"]:
        ports = [(port, int(width)) for port, _, width in (word.rpartition(":") for word in words[2:])]
        sys.stdout.write(dump(words[1], ports, [[int(value, 16) for value in line.split()] for line in sys.stdin]))
        return
    if words[:1] == ["--each"]:
        text = open(words[1], "rb").read()
        for length in range(len(text)):
            print(answer(text[:length]).replace("\n", "; "))
        for at in range(len(text)):
            for byte in range(256):
                print(answer(text[:at] + bytes([byte]) + text[at + 1:]).replace("\n", "; "))
        return
    for name in words:
        print(answer(open(name, "rb").read()))


if __name__ == "__main__":
    main(sys.argv[1:])
