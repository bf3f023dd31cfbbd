#!/usr/bin/env python3
"""Judges texts of interconnects, apart from the program: judge_texts.py FILE..

For each text it prints its nets and memories, or its first fault: the byte, counted from 0, and the rule. Written from the rules of the form
in docs/FORMATS.md. With --each FILE it judges the text with each of its bytes replaced by each of the 256, and each of its beginnings, a line each.
"""
import string
import sys

HOLE = set((string.ascii_letters + string.digits + "_$").encode())
NAME = HOLE - set(b"$")
LETTER = set(string.ascii_letters.encode())
DIGIT = set(string.digits.encode())
MOST_NETS, MOST_MEMORIES = 1 << 20, 1 << 16
SIGNS = {ord("&"): "& ", ord("|"): "| ", ord("^"): "^ ", ord("+"): "+ ", ord("-"): "- "}


class Fault(Exception):
    def __init__(self, at, rule):
        super().__init__(f"byte {at} rule {rule}")


class Reader:
    def __init__(self, text):
        self.text, self.at = text, 0
        self.ports, self.memories, self.widths, self.registers = [], [], [], []

    # ---- parts of a form

    def next(self):
        return self.text[self.at] if self.at < len(self.text) else None

    def begins(self, part):
        return self.text.startswith(part.encode(), self.at)

    def fixed(self, part):
        for byte in part.encode():
            if self.next() != byte:
                raise Fault(self.at, "V1")
            self.at += 1

    def hole(self, *tests):
        """The longest run of bytes of a hole; each test tells the rule that the run breaks, or None."""
        start = self.at
        while self.next() in HOLE:
            self.at += 1
        run = self.text[start:self.at]
        for test in tests:
            rule = test(run)
            if rule:
                raise Fault(start, rule)
        return run

    # ---- numbers, nets, widths

    @staticmethod
    def spelled(run):
        return None if run and all(b in DIGIT for b in run) and (run == b"0" or run[0] != 48) else "V4"

    def number(self, *tests):
        return int(self.hole(self.spelled, *(lambda run, t=t: t(int(run)) for t in tests)))

    def this_number(self, wanted):
        self.number(lambda n: None if n == wanted else "V4")

    def range(self):
        self.fixed("[")
        high = self.number(lambda n: None if n < 128 else "V3")
        self.fixed(":0]")
        return high + 1

    def net(self, below, fits=lambda width: True):
        def is_net(run):
            return "V4" if run[:1] != b"n" else self.spelled(run[1:])

        def is_there(run):
            return None if int(run[1:]) < below else "V5"

        def has_width(run):
            return None if fits(self.widths[int(run[1:])]) else "V3"

        return int(self.hole(is_net, is_there, has_width)[1:])

    # ---- lines

    def header(self):
        self.fixed("module ")
        self.hole(lambda run: None if run[:1] and run[0] in LETTER and all(b in NAME for b in run) and run.endswith(b"_interconnect") else "V2")
        self.fixed(" (\n  input wire clk,\n  input wire reset")
        while self.begins(","):
            self.fixed(",\n  ")
            output = self.begins("o")
            self.fixed("output wire " if output else "input wire ")
            width = self.range()
            self.fixed(" ")
            names = [port[0] for port in self.ports]
            name = self.hole(lambda run: None if run[:1] and run[0] in LETTER and b"$" in run and run not in names else "V2")
            self.ports.append((name, width, output))
        self.fixed("\n);\n")

    def is_memory_line(self):
        if not self.begins("  r"):
            return False
        at = self.at + len("  reg [")
        while at < len(self.text) and self.text[at] in HOLE:
            at += 1
        return self.text[at + 4:at + 5] == b"m"

    def memory_lines(self):
        while self.is_memory_line():
            number = len(self.memories)
            self.fixed("  reg ")
            width = self.range()
            self.fixed(" m")
            if number == MOST_MEMORIES:
                raise Fault(self.at, "V4")
            self.this_number(number)
            self.fixed(" [0:")
            depths = {2 ** k - 1: k for k in range(1, 11)}
            last = self.number(lambda n: None if n in depths else "V7")
            self.fixed("];\n")
            self.memories.append((width, depths[last]))

    def room(self):
        if (self.begins("  w") or self.begins("  r")) and len(self.widths) >= MOST_NETS:
            raise Fault(self.at, "L4")

    def input_lines(self):
        for name, width, output in self.ports:
            if output:
                continue
            self.room()
            self.fixed("  ")
            if self.begins("r"):
                self.fixed("reg ")
                self.range()
                self.fixed(" n")
                raise Fault(self.at, "V2")
            self.fixed("wire ")
            bits = self.range()
            self.fixed(" n")
            self.this_number(len(self.widths))
            self.fixed(" = ")
            self.hole(lambda run: None if run == name else "V2", lambda run: None if bits == width else "V3")
            self.fixed(";\n")
            self.widths.append(width)

    def net_lines(self):
        while self.begins("  w") or self.begins("  r"):
            self.room()
            wire = self.begins("  w")
            self.fixed("  wire " if wire else "  reg ")
            width = self.range()
            self.fixed(" n")
            self.this_number(len(self.widths))
            if wire:
                self.fixed(" = ")
                self.right(len(self.widths), width)
            else:
                self.registers.append(len(self.widths))
            self.fixed(";\n")
            self.widths.append(width)

    # ---- right sides

    def right(self, n, w):
        first = self.next()
        if first in DIGIT:
            self.constant(w)
        elif first == ord("~"):
            self.fixed("~")
            self.net(n, lambda v: v == w)
        elif first == ord("|"):
            if w != 1:
                raise Fault(self.at, "V3")
            self.fixed("|")
            self.net(n)
        elif first == ord("{"):
            self.fixed("{")
            high = self.widths[self.net(n)]
            self.fixed(", ")
            self.net(n, lambda v: high + v == w)
            self.fixed("}")
        elif first == ord("m"):
            self.fixed("m")
            m = self.number(lambda k: None if k < len(self.memories) else "V5", lambda k: None if self.memories[k][0] == w else "V3")
            self.fixed("[")
            self.net(n, lambda v: v == self.memories[m][1])
            self.fixed("]")
        elif first == ord("n"):
            self.behind_net(n, w, self.widths[self.net(n)])
        else:
            raise Fault(self.at, "V1")

    def constant(self, w):
        self.number(lambda c: None if c == w else "V3")
        self.fixed("'h")
        digits = (w + 3) // 4
        lower = set(b"0123456789abcdef")
        self.hole(lambda run: None if len(run) == digits and all(b in lower for b in run) and int(run, 16) < 2 ** w else "V4")

    def behind_net(self, n, w, v):
        if self.begins("["):
            self.fixed("[")
            high = self.number(lambda h: None if h < v else "V6")
            self.fixed(":")
            self.number(lambda low: None if low + w == high + 1 else "V6")
            self.fixed("]")
            return
        if self.next() is None:
            raise Fault(self.at, "V1")
        self.fixed(" ")
        sign = self.next()
        if sign in SIGNS:
            if v != w:
                raise Fault(self.at, "V3")
            self.fixed(SIGNS[sign])
            self.net(n, lambda u: u == w)
        elif sign in (ord("="), ord("<")):
            if w != 1:
                raise Fault(self.at, "V3")
            self.fixed("== " if sign == ord("=") else "< ")
            self.net(n, lambda u: u == v)
        elif sign == ord("?"):
            if v != 1:
                raise Fault(self.at, "V3")
            self.fixed("? ")
            self.net(n, lambda u: u == w)
            self.fixed(" : ")
            self.net(n, lambda u: u == w)
        else:
            raise Fault(self.at, "V1")

    # ---- clocked lines and outputs

    def clocked(self, due):
        """One clocked line: `due` is ('n', number), ('m', number), or None."""
        self.fixed("  always @(posedge clk) if (")
        if self.begins("r"):
            self.fixed("reset) ")
            at = self.at
            n = self.net(len(self.widths))
            if due != ("n", n):
                raise Fault(at, "V8")
            self.fixed(" <= ")
            self.constant(self.widths[n])
            self.fixed("; else ")
            at = self.at
            if self.net(len(self.widths)) != n:
                raise Fault(at, "V8")
            self.fixed(" <= ")
            self.net(len(self.widths), lambda v: v == self.widths[n])
            self.fixed(";\n")
            return
        self.net(len(self.widths), lambda v: v == 1)
        self.fixed(") m")
        m = self.number(lambda k: None if k < len(self.memories) else "V5", lambda k: None if due == ("m", k) else "V8")
        width, bits = self.memories[m]
        self.fixed("[")
        self.net(len(self.widths), lambda v: v == bits)
        self.fixed("] <= ")
        self.net(len(self.widths), lambda v: v == width)
        self.fixed(";\n")

    def further_clocked(self, assigned):
        """A clocked line where none is due, behind which none of an output may stand."""
        if self.begins("l") and not assigned:
            self.at -= len("  a")
            self.clocked(None)

    def assigns(self):
        assigned = False
        for name, width, output in self.ports:
            if not output:
                continue
            self.fixed("  a")
            self.further_clocked(assigned)
            self.fixed("ssign ")
            self.hole(lambda run: None if run == name else "V2")
            self.fixed(" = ")
            self.net(len(self.widths), lambda v: v == width)
            self.fixed(";\n")
            assigned = True
        return assigned

    def last_line(self, assigned):
        if self.begins(" "):
            self.fixed("  a")
            self.further_clocked(assigned)
            self.fixed("ssign ")
            raise Fault(self.at, "V2")
        self.fixed("endmodule\n")
        if self.next() is not None:
            raise Fault(self.at, "V9")

    def whole(self):
        self.header()
        self.memory_lines()
        self.input_lines()
        self.net_lines()
        for due in [("n", n) for n in self.registers] + [("m", m) for m in range(len(self.memories))]:
            self.clocked(due)
        self.last_line(self.assigns())
        return f"nets {len(self.widths)} memories {len(self.memories)}"


def judged(text):
    try:
        return Reader(text).whole()
    except Fault as fault:
        return str(fault)


def each_change(text):
    for at in range(len(text)):
        yield f"first {at}", text[:at]
    for at in range(len(text)):
        for byte in range(256):
            yield f"byte {at} is {byte}", text[:at] + bytes([byte]) + text[at + 1:]


def main(words):
    if words[:1] == ["--each"]:
        with open(words[1], "rb") as file:
            for name, text in each_change(file.read()):
                print(f"{name}: {judged(text)}")
        return
    for path in words:
        with open(path, "rb") as file:
            print(f"{path}: {judged(file.read())}")


if __name__ == "__main__":
    main(sys.argv[1:])
