#!/usr/bin/env python3
"""Judges scenarios, apart from the program: judge_scenarios.py <ROWS prints what crates/scenario_rows must print for these rows.

Written from the form in docs/FORMATS.md. `judge_scenarios.py draw COUNT SEED <ROWS` prints the systems of the rows with so many drawn
scenarios, each with some of its bytes changed at random, as rows.
"""
import re
import sys
from random import Random

from script_systems import System

WORDS = {"cycles": 2, "read": 5, "idle": 3, "fill": 4, "code": 4, "stall": 3, "latency": 3, "beat": 7, "gap": 3}
KINDS = {"write": ["host"], "read": ["host"], "idle": ["host"], "fill": ["agent"], "code": ["agent"], "stall": ["agent", "sink"],
         "latency": ["agent"], "beat": ["source"], "gap": ["source"]}
HEXADECIMAL, COUNT = re.compile(r"[0-9a-f]{1,32}"), re.compile(r"0|[1-9][0-9]*")
BYTES, PATTERN, FLAGS = re.compile(r"([0-9a-f]{2}){1,32}"), re.compile(r"[01]{1,64}"), re.compile(r"-|s|e|se")
SPELLED = {"cycles": [COUNT], "read": [HEXADECIMAL, HEXADECIMAL, COUNT], "idle": [COUNT], "fill": [HEXADECIMAL, BYTES],
           "code": [HEXADECIMAL, HEXADECIMAL], "stall": [PATTERN], "latency": [COUNT],
           "beat": [HEXADECIMAL, HEXADECIMAL, HEXADECIMAL, FLAGS, HEXADECIMAL], "gap": [COUNT]}
LONGEST, MOST = 65536, 4096


class Fault(Exception):
    def __init__(self, rule):
        self.rule = rule


def demand(holds, rule):
    if not holds:
        raise Fault(rule)


# ---- scenarios

def lines_of(text):
    """The lines of a file, without their ends."""
    *ended, rest = text.split(b"\n")
    lines = [line[:-1] if line.endswith(b"\r") else line for line in ended]
    return lines + [rest] if rest else lines


class Reader:
    def __init__(self, system):
        self.system, self.cycles = system, None
        self.said = {name: [] for ends in system.ends.values() for name in ends}
        self.opened = {}

    def find(self, name, kinds):
        for kind in kinds:
            if name in self.system.ends[kind]:
                return self.system.ends[kind][name]
        raise Fault(4)

    def command(self, end, words):
        """Whether address and byte enables fit a host."""
        address, enables, lanes = int(words[2], 16), int(words[3], 16), end.word() // 8
        demand(address < end.reached(), 6)
        demand(enables < 1 << lanes and (end.width("byteenable") or enables == (1 << lanes) - 1), 6)

    def write(self, end, words):
        self.command(end, words)
        demand(all(int(word, 16) < 1 << end.width("writedata") for word in words[4:]), 6)
        return lambda: end.width("write") and len(words) - 4 <= end.longest(), 8

    def read(self, end, words):
        self.command(end, words)
        return lambda: end.width("read") and 1 <= int(words[4]) <= end.longest(), 8

    def rest(self, end, words):
        demand(1 <= int(words[2]) <= LONGEST, 6)

    idle = gap = rest

    def fill(self, end, words):
        demand(int(words[2], 16) + len(words[3]) // 2 <= end.reached(), 6)

    def code(self, end, words):
        demand(int(words[2], 16) < end.reached() and int(words[3], 16) <= 3, 6)

    def stall(self, end, words):
        pass

    def latency(self, end, words):
        demand(1 <= int(words[2]) <= 255, 6)

    def beat(self, end, words):
        name, flags = words[1], words[5]
        word, channel, error, empty = (int(words[k], 16) for k in (2, 3, 4, 6))
        demand(word < 1 << end.width("data") and channel < 1 << end.width("channel") and error < 1 << end.width("error"), 6)
        demand(channel <= end.number("maxChannel", 0), 6)
        demand(empty < 1 << end.width("empty") and empty < end.symbols(), 6)

        def keeps():
            if not end.width("startofpacket"):
                return flags == "-" and empty == 0
            opened = self.opened.get(name)
            begins = flags in ("s", "se")
            fits = begins if opened is None else not begins and channel == opened
            self.opened[name] = None if flags in ("e", "se") else channel
            return fits and (empty == 0 or flags in ("e", "se"))
        return keeps, 9

    def statement(self, words):
        keyword, *others = words
        demand(keyword in WORDS or keyword == "write", 2)
        demand(len(words) >= 5 if keyword == "write" else len(words) == WORDS[keyword], 3)
        if keyword == "cycles":
            demand(COUNT.fullmatch(words[1]), 5)
            demand(1 <= int(words[1]) <= LONGEST, 6)
            demand(self.cycles is None, 7)
            self.cycles = int(words[1])
            return
        end = self.find(words[1], KINDS[keyword])
        demand(keyword != "stall" or end.width("waitrequest" if end.kind == "agent" else "ready"), 4)
        demand(keyword != "latency" or end.width("readdatavalid"), 4)
        demand(keyword != "code" or end.width("response"), 4)
        forms = SPELLED.get(keyword, [HEXADECIMAL] * (len(words) - 2))
        demand(all(form.fullmatch(word) for form, word in zip(forms, words[2:])), 5)
        later = getattr(self, keyword)(end, words)
        demand(self.cycles is not None, 7)
        if later:
            demand(later[0](), later[1])
        said = self.said[words[1]]
        demand(len(said) < MOST and not (keyword in ("stall", "latency") and keyword in said), 10)
        said.append(keyword)

    def line(self, line):
        if not line or line.startswith(b"#"):
            return
        demand(all(32 <= byte < 127 for byte in line) and b"" not in line.split(b" "), 1)
        self.statement(line.decode().split(" "))

    def answer(self):
        counts = [f"cycles {self.cycles}"]
        for kind, ends in self.system.ends.items():
            if ends:
                counts.append(" ".join([kind + "s", *(str(len(self.said[name])) for name in ends)]))
        return ", ".join(counts)


def judge(system, text):
    reader, lines = Reader(system), lines_of(text)
    for number, line in enumerate(lines, 1):
        try:
            reader.line(line)
        except Fault as fault:
            return f"line {number} rule N{fault.rule}"
    return reader.answer() if reader.cycles is not None else f"line {len(lines) + 1} rule N7"


# ---- rows

def systems_of(heads):
    parts, systems = {}, {}
    for part in heads.split("\n:part ")[1:]:
        name, _, lines = part.partition("\n")
        parts[name] = lines
    for line in heads.splitlines():
        if line.startswith(":system "):
            _, name, script, *components = line.split(" ")
            systems[name] = System(parts[script], [parts[part] for part in components])
    return systems


def bytes_of(text):
    return re.sub(rb"%(..)", lambda found: bytes([int(found[1], 16)]), text.encode())


def scenario_of(lines):
    text = b""
    for line in lines:
        if line.startswith(":last "):
            text += bytes_of(line[6:])
        elif line.startswith(":times "):
            _, count, line = line.split(" ", 2)
            text += (bytes_of(line) + b"\n") * int(count)
        else:
            text += bytes_of(line) + b"\n"
    return text


def tell(systems, rows):
    for row in rows:
        head, _, lines = row.partition("\n")
        system, _, title = head.partition(" ")
        print(f"{title}: {judge(systems[system], scenario_of(lines.splitlines()))}")


# ---- drawn rows

def drawn_number(random, most):
    return random.choice([0, 1, most // 2, max(most - 1, 0), most, random.randint(0, most), random.randint(0, most)])


def drawn_hexadecimal(random, most):
    number = drawn_number(random, most) if random.random() < 0.99 else most + 1
    return f"{number:0{random.choice([1, 1, 2, 8, 32])}x}"


def drawn_count(random, most):
    return str(drawn_number(random, most - 1) + 1 if random.random() < 0.99 else random.choice([0, most + 1, 1 << 32, 1 << 64]))


class Drawer:
    """Draws scenarios, most lines of which break no rule."""

    def __init__(self, random, system):
        self.random, self.system, self.opened, self.set = random, system, {}, set()

    def errs(self, share=0.02):
        return self.random.random() < share

    def once(self, name, end, keyword, port):
        """Whether an end takes a statement of which it takes one alone."""
        is_first, _ = (name, keyword) not in self.set, self.set.add((name, keyword))
        return self.errs() or end.width(port) and (is_first or self.errs())

    def host(self, name, end):
        random, lanes = self.random, (1 << end.word() // 8) - 1
        keywords = ["write"] * bool(end.width("write")) + ["read"] * bool(end.width("read")) + ["idle"]
        keyword = random.choice(["write", "read"] if self.errs() else keywords)
        if keyword == "idle":
            return [keyword, name, drawn_count(random, LONGEST)]
        enables = drawn_hexadecimal(random, lanes) if end.width("byteenable") or self.errs() else f"{lanes:x}"
        words = [keyword, name, drawn_hexadecimal(random, end.reached() - 1), enables]
        if keyword == "read":
            return words + [drawn_count(random, end.longest())]
        most, longest = (1 << end.width("writedata")) - 1, min(end.longest(), 5) + self.errs()
        return words + [drawn_hexadecimal(random, most) for _ in range(random.randint(1, longest))]

    def agent(self, name, end):
        random, size = self.random, self.random.randint(1, 32)
        if random.random() < 0.3 and self.once(name, end, "latency", "readdatavalid"):
            return ["latency", name, drawn_count(random, 255)]
        if random.random() < 0.3 and self.once(name, end, "stall", "waitrequest"):
            return self.stall(name)
        if random.random() < 0.3 and (end.width("response") or self.errs()):
            return ["code", name, drawn_hexadecimal(random, end.reached() - 1), drawn_hexadecimal(random, 3)]
        return ["fill", name, drawn_hexadecimal(random, max(end.reached() - size, 0)), random.randbytes(size).hex()]

    def stall(self, name):
        return ["stall", name, "".join(self.random.choices("01", k=self.random.choice([1, 2, 7, 63, 64, 64 + self.errs(0.1)])))]

    def sink(self, name, end):
        return self.stall(name) if self.once(name, end, "stall", "ready") else ["#", name]

    def flags(self, name, end):
        if self.errs():
            return self.random.choice(["-", "s", "e", "se"])
        if not end.width("startofpacket"):
            return "-"
        return self.random.choice(["-", "e"] if self.opened.get(name) else ["s", "se"])

    def source(self, name, end):
        random, opened = self.random, self.opened.get(name)
        if random.random() < 0.2:
            return ["gap", name, drawn_count(random, LONGEST)]
        flags, channel = self.flags(name, end), opened
        if not opened or self.errs():
            channel = drawn_hexadecimal(random, end.number("maxChannel", 0))
        self.opened[name] = channel if flags in ("s", "-") and end.width("startofpacket") else None
        may_be_empty = end.width("empty") and ("e" in flags or self.errs())
        return ["beat", name, drawn_hexadecimal(random, (1 << end.width("data")) - 1), channel,
                drawn_hexadecimal(random, (1 << end.width("error")) - 1), flags,
                drawn_hexadecimal(random, end.symbols() - 1) if may_be_empty else "0"]

    def line(self):
        if self.random.random() < 0.1:
            return self.random.choice(["", "# a comment", "#", "cycles 1" if self.errs(0.2) else ""])
        kind = self.random.choice([kind for kind, ends in self.system.ends.items() if ends])
        name, end = self.random.choice(list(self.system.ends[kind].items()))
        return " ".join(getattr(self, kind)(name, end))

    def scenario(self):
        random = self.random
        lines = [self.line() for _ in range(random.randint(0, 12))]
        if not self.errs(0.03):
            lines.insert(0, f"cycles {drawn_count(random, LONGEST)}")
        text = "".join(line + random.choice(["\n", "\n", "\n", "\r\n"]) for line in lines).encode()
        return text[:-1] if random.random() < 0.2 else text


def edited(random, text):
    """The text with some bytes changed, put in or left out."""
    text = bytearray(text)
    for _ in range(random.choice([0, 0, 0, 1, 1, 2, 3])):
        at = random.randrange(len(text) + 1)
        byte = random.choice([random.randrange(256), random.choice(b" \n\r#01fse-.x")])
        text[at:at + random.randint(0, 1)] = random.choice([b"", bytes([byte]), bytes([byte])])
    return bytes(text)


def row_of(text):
    """The lines of a row that write a text."""
    written = "".join(chr(byte) if 32 <= byte < 127 and byte not in b"%:" else f"%{byte:02x}" for byte in text)
    return "".join(f":last {line}\n" for line in re.findall(r"(?:(?!%0a).)*%0a|.+$", written))


def draw(heads, count, seed):
    random, systems = Random(seed), systems_of(heads)
    print(heads)
    for number in range(count):
        name = random.choice(list(systems))
        text = edited(random, Drawer(random, systems[name]).scenario())
        print(f":row {name} drawn {number}\n{row_of(text)}", end="")


def main():
    heads, *rows = sys.stdin.read().split("\n:row ")
    if sys.argv[1:2] == ["draw"]:
        draw(heads, int(sys.argv[2]), int(sys.argv[3]))
    else:
        tell(systems_of(heads), rows)


if __name__ == "__main__":
    main()
