#!/usr/bin/env python3
"""Judges the replies of `bridge`, apart from the program: judge_bridge.py PROGRAM [COUNT] [FIRST]

It draws COUNT files of bytes (2,000 where none is said), each for a system of one host with words of 1 to 16 bytes and two memories, runs the
program on them, and compares what it answers with what the packets call for: the replies, by the bytes of the memories alone, or the first
fault. In a run that is too short, the answer is a beginning of the replies. Written from docs/FORMATS.md.
"""
import os
import random
import subprocess
import sys
import tempfile

from judge_packets import SPECIAL, Fault, judged, number, packets_of, sent, spelled


class Bytes:
    """The bytes of two memories as the host sees them; where nobody is, 0."""

    def __init__(self, places):
        self.places = places
        self.held = {}

    def there(self, address):
        return any(base <= address < base + span for base, span in self.places)

    def write(self, address, byte):
        if self.there(address):
            self.held[address] = byte

    def read(self, address):
        return self.held.get(address, 0) if self.there(address) else 0


def replies(packets, word, memory):
    for channel, data, _, _ in packets:
        code = data[0]
        if code == 0x7F:
            yield sent(channel, b"\xff\0\0\0")
            continue
        size, address = number(data, 2, 4), number(data, 4, 8)
        at = [address + (k if code & 4 else k % word) for k in range(size)]
        if code & 0x10:
            yield sent(channel, bytes(memory.read(place) for place in at))
        else:
            for place, byte in zip(at, data[8:]):
                memory.write(place, byte)
            yield sent(channel, bytes([code | 0x80, 0]) + data[2:4])


# ---- systems

def scripts(word, bits, spans):
    """A host with words of so many bytes and so many address bits, and two memories of so many words."""
    wide = 8 * word
    enables = f"add_interface_port m be byteenable Output {word}\n" if word > 1 else ""
    host = (f"set_module_property NAME host\nadd_interface m avalon host\nset_interface_property m addressUnits SYMBOLS\n"
            f"add_interface_port m a address Output {bits}\nadd_interface_port m r read Output 1\nadd_interface_port m w write Output 1\n"
            f"add_interface_port m wd writedata Output {wide}\n{enables}add_interface_port m wr waitrequest Input 1\n"
            f"add_interface_port m rd readdata Input {wide}\nadd_interface_port m rv readdatavalid Input 1\n")
    files = {"host.tcl": host}
    system = "create_system top\nadd_instance h host\n"
    base, places = 0, []
    for name, words, latency in zip(("one", "two"), spans, (0, 1)):
        span = word << words
        base = (base + span - 1) // span * span
        enables = f"add_interface_port s be byteenable Input {word}\n" if word > 1 else ""
        answers = ("add_interface_port s rv readdatavalid Output 1\nadd_interface_port s wr waitrequest Output 1\n"
                   "set_interface_property s maximumPendingReadTransactions 2\n") if latency == 0 else \
            "set_interface_property s readLatency 1\nset_interface_property s readWaitTime 0\n"
        files[f"{name}.tcl"] = (f"set_module_property NAME {name}\nadd_interface s avalon agent\nadd_interface_port s a address Input {words}\n"
                                f"add_interface_port s r read Input 1\nadd_interface_port s w write Input 1\nadd_interface_port s wd writedata Input {wide}\n"
                                f"{enables}add_interface_port s rd readdata Output {wide}\n{answers}")
        system += (f"add_instance {name} {name}\nadd_connection h.m {name}.s\n"
                   f"set_connection_parameter_value h.m/{name}.s baseAddress {base:#x}\n")
        places.append((base, span))
        base += span
    files["system.tcl"] = system
    return files, places


# ---- drawing

def packet(draw, word, reach):
    """A packet that breaks no rule, mostly."""
    kind = draw.choice("wwwrrrWRn")
    if kind == "n":
        return bytes([0x7F]) + bytes(draw.randrange(256) for _ in range(draw.randrange(3)))
    size = draw.choice((1, 2, 3, word, 2 * word, draw.randrange(1, 40), draw.randrange(1, 300)))
    address = draw.choice((draw.randrange(min(reach, 256)), draw.randrange(reach), 0x7A % reach, max(0, reach - size)))
    if kind in "WR":
        size, address = size // word * word or word, address // word * word
    if draw.random() < 0.04:
        size = draw.choice((0, size + 1))
    if draw.random() < 0.03:
        address = draw.randrange(1 << 32)
    code = {"w": 0x04, "r": 0x14, "W": 0x00, "R": 0x10}[kind]
    if draw.random() < 0.02:
        code = draw.randrange(256)
    data = bytes(draw.choice((draw.randrange(256), *SPECIAL)) for _ in range(size)) if kind in "wW" else b""
    if draw.random() < 0.02:
        data = data + b"\x01" if draw.random() < 0.5 else data[:-1]
    return bytes([code, draw.randrange(256)]) + size.to_bytes(2, "big") + address.to_bytes(4, "big") + data


def marked(draw, channel, data, state):
    """A packet in one of its spellings."""
    text = b""
    for k, byte in enumerate(data):
        marks = []
        if k == 0:
            marks.append(b"\x7a")
            if channel != state[0] or draw.random() < 0.5:
                marks.append(b"\x7c" + (spelled(channel) if draw.random() < 0.9 else bytes([0x7D, channel ^ 0x20])))
        if k == len(data) - 1:
            marks.append(b"\x7b")
        draw.shuffle(marks)
        text += b"".join(marks) + (spelled(byte) if draw.random() < 0.95 else bytes([0x7D, byte ^ 0x20]))
    state[0] = channel
    return text


def drawn(number):
    draw = random.Random(number)
    word = draw.choice((1, 2, 4, 8, 16))
    bits = draw.choice((6, 10, 16, 32))
    words = (draw.randrange(1, 4), draw.randrange(1, 4))
    files, places = scripts(word, max(bits, 9), words)
    reach = 1 << max(bits, 9)
    state, stream = [0], b""
    for _ in range(draw.randrange(9)):
        channel = draw.choice((0, 0, 1, 255, *SPECIAL))
        stream += marked(draw, channel, packet(draw, word, reach), state)
    if draw.random() < 0.3 and stream:
        place = draw.randrange(len(stream))
        stream = draw.choice((stream[:place], stream[:place] + bytes([draw.choice((draw.randrange(256), *SPECIAL))]) + stream[place + 1:]))
    cycles = draw.choice((1, draw.randrange(1, 100), 65536 if draw.random() < 0.05 else 6000, 6000, 6000))
    return files, places, word, reach, stream, cycles


def judge(program, number):
    files, places, word, reach, stream, cycles = drawn(number)
    with tempfile.TemporaryDirectory() as room:
        for name, text in files.items():
            with open(os.path.join(room, name), "w", encoding="ascii") as file:
                file.write(text)
        with open(os.path.join(room, "bytes"), "wb") as file:
            file.write(stream)
        answer = subprocess.run([program, "bridge", str(cycles), "system.tcl", "bytes", "host.tcl", "one.tcl", "two.tcl"], cwd=room, capture_output=True, check=False)
    try:
        packets = packets_of(stream)
        judged(packets, word, reach)
    except Fault as fault:
        return answer.returncode == 12 and answer.stdout == f"packet refused: {fault}\n".encode(), "refused"
    parts = list(replies(packets, word, Bytes(places)))
    if answer.returncode != 0:
        return False, "answered"
    whole = b"".join(parts)
    if cycles >= 6000:
        return answer.stdout == whole, "whole"
    beginnings = {b"".join(parts[:count]) for count in range(len(parts) + 1)}
    return answer.stdout in beginnings, "begun"


def main():
    program = os.path.abspath(sys.argv[1])
    count = int(sys.argv[2]) if len(sys.argv) > 2 else 2000
    first = int(sys.argv[3]) if len(sys.argv) > 3 else 0
    kinds, bad = {}, []
    for number in range(first, first + count):
        right, kind = judge(program, number)
        kinds[kind] = kinds.get(kind, 0) + 1
        if not right:
            bad.append(number)
    print(f"{count} drawn files:", ", ".join(f"{kinds[kind]} {kind}" for kind in sorted(kinds)))
    if bad:
        print("not as they call for:", *bad[:20])
        sys.exit(1)


if __name__ == "__main__":
    main()
