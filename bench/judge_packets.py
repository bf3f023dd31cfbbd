#!/usr/bin/env python3
"""Judges packets of transactions, apart from the program: judge_packets.py ROWS prints what the rows of a file must get.

Written from docs/FORMATS.md and the definitions. A row is the size of a host's words in bytes, how many bytes it reaches, how many write beats were
accepted, the words that were given, and the bytes of packets, a dash for none; `crates/text_rows` reads such rows. With --draw COUNT it prints
rows: first those below, which show each rule with its nearest neighbour, then drawn ones.
"""
import random
import sys

SPECIAL = (0x7A, 0x7B, 0x7C, 0x7D)
MOST = 4096
TOLD = 4000


class Fault(Exception):
    def __init__(self, byte, rule):
        super().__init__(f"byte {byte} rule Y{rule}")


# ---- marked bytes

def packets_of(stream):
    """Packets as (channel, bytes, place of the first, place of the last)."""
    packets, opened = [], None
    channel, first, last, marked = 0, False, False, None
    at = 0
    while at < len(stream):
        byte = stream[at]
        if byte == 0x7A:
            first, at = True, at + 1
        elif byte == 0x7B:
            last, at = True, at + 1
        elif byte == 0x7C:
            at += 1
            if at == len(stream):
                raise Fault(at, 3)
            if stream[at] in (0x7A, 0x7B, 0x7C):
                raise Fault(at, 1)
            if stream[at] == 0x7D:
                at += 1
                if at == len(stream):
                    raise Fault(at, 3)
                marked = stream[at] ^ 0x20
            else:
                marked = stream[at]
            at += 1
        else:
            now = channel if marked is None else marked
            if opened is None and not first or opened is not None and (first or now != channel):
                raise Fault(at, 2)
            place = at
            if byte == 0x7D:
                at += 1
                if at == len(stream):
                    raise Fault(at, 3)
                byte = stream[at] ^ 0x20
            at += 1
            if opened is None:
                opened = (place, bytearray())
            opened[1].append(byte)
            channel = now
            if last:
                packets.append((channel, bytes(opened[1]), opened[0], place))
                opened = None
            first, last, marked = False, False, None
    if opened is not None or first or last or marked is not None:
        raise Fault(len(stream), 3)
    return packets


def spelled(byte):
    return bytes([0x7D, byte ^ 0x20]) if byte in SPECIAL else bytes([byte])


def sent(channel, data):
    return b"\x7c" + spelled(channel) + b"\x7a" + b"".join(map(spelled, data[:-1])) + b"\x7b" + spelled(data[-1])


# ---- transactions

def number(data, start, end):
    return int.from_bytes((data + bytes(end))[start:end], "big")


def judged(packets, word, reach):
    """The first packet that breaks a rule is its fault."""
    commands = 0
    for _, data, first, last in packets:
        code = data[0]
        if code not in (0x00, 0x04, 0x10, 0x14, 0x7F):
            raise Fault(first, 4)
        if code == 0x7F:
            continue
        size, address = number(data, 2, 4), number(data, 4, 8)
        if size == 0 or len(data) != (8 if code & 0x10 else 8 + size):
            raise Fault(last, 5)
        fixed = not code & 4
        if fixed and (address % word or size % word) or address + (word if fixed else size) > reach:
            raise Fault(first, 6)
        commands += len(touched(data, word))
        if commands > MOST:
            raise Fault(first, 7)


def touched(data, word):
    """The words of a transaction, each as (address, the bytes by lane that it touches, counted from the first)."""
    size, address = number(data, 2, 4), number(data, 4, 8)
    words = {}
    for k in range(size):
        lane = (address + k) % word
        at = (address + k) // word if data[0] & 4 else k // word
        words.setdefault(at, {})[lane] = k
    return [(at * word if data[0] & 4 else address, words[at]) for at in sorted(words)]


def statements(data, word):
    if data[0] == 0x7F:
        return []
    lines = []
    for address, lanes in touched(data, word):
        enables = sum(1 << lane for lane in lanes)
        if data[0] & 0x10:
            lines.append(f"read h.m {address:010x} {enables:04x} 1")
        else:
            text = "".join(f"{data[8 + lanes[lane]] if lane in lanes else 0:02x}" for lane in reversed(range(word)))
            lines.append(f"write h.m {address:010x} {enables:04x} {text}")
    return lines


def replies(packets, word, beats, words):
    """The replies for which so many write beats and these words are enough."""
    words = list(words)
    for channel, data, _, _ in packets:
        code = data[0]
        if code == 0x7F:
            yield sent(channel, b"\xff\0\0\0")
            continue
        commands = touched(data, word)
        if code & 0x10:
            if len(words) < len(commands):
                return
            yield sent(channel, bytes(value >> 8 * lane & 0xFF for value, (_, lanes) in zip(words, commands) for lane in sorted(lanes)))
            del words[:len(commands)]
        else:
            if beats < len(commands):
                return
            beats -= len(commands)
            yield sent(channel, bytes([code | 0x80, 0]) + data[2:4])


# ---- rows

def answer(row):
    word, reach, beats, words, text = row.split(" ")
    word, stream = int(word), bytes.fromhex(text.replace("-", ""))
    try:
        packets = packets_of(stream)
        judged(packets, word, int(reach))
    except Fault as fault:
        return f"{row}: {fault}"
    lines = ["cycles 1"] + [line for _, data, _, _ in packets for line in statements(data, word)]
    length = sum(len(line) + 1 for line in lines)
    told = f"{length} bytes; " if length > TOLD else "".join(line + "; " for line in lines)
    given = [int(it, 16) for it in words.split(",") if it != "-"]
    return f"{row}: {told}" + b"".join(replies(packets, word, int(beats), given)).hex()


def header(code, size, address):
    return bytes([code, 0]) + size.to_bytes(2, "big") + address.to_bytes(4, "big")


def asked(*packets):
    return b"".join(sent(channel, data) for channel, data in packets).hex()


def shown_rows():
    """Each rule with its nearest neighbour, escapes in every place, and a stream that is cut at each byte."""
    write, read = header(4, 4, 0) + b"\x11\x22\x33\x44", header(0x14, 4, 0)
    both = asked((0, write), (0, read))
    yield f"4 65536 1 44332211 {both}"
    yield f"4 65536 0 44332211 {both}"
    yield f"4 65536 1 - {both}"
    yield f"4 65536 9 44332211,0,1 {both}"
    yield "4 65536 0 - 7a7f7b7d5a"
    yield "4 65536 0 - -"
    for text in ("7c7a", "7c7b", "7c7c", "7c7d5a7a7b7f", "7c797a7b7f", "7b05", "05", "7d25", "7a057a05", "7a057a7d25", "7a7f7c017b7f", "7a7f7c007b7f", "7c017a7f7c017b7f",
                 "7a", "7b", "7c", "7c7d", "7a7d", "7a7b7d", "7a7b05", "7a7b7f", "7a7b00", "7a7b7e", "7a7b7d5f"):
        yield f"4 64 0 - {text}"
    for data in (header(0x14, 0, 0), header(0x14, 1, 0), header(0x14, 1, 0) + b"\0", header(0x14, 1, 0)[:7], header(4, 2, 0) + b"\x11", header(4, 2, 0) + b"\x11\x22",
                 header(4, 2, 0) + b"\x11\x22\x33", header(0x10, 4, 2), header(0x10, 6, 4), header(0x10, 8, 60), header(0x10, 4, 64), header(0, 4, 60) + b"abcd",
                 header(0x14, 3, 61), header(0x14, 3, 62), header(0x14, 1, 1 << 31), header(0x7F, 0, 0), b"\x14", b"\x7f", b"\x04\0\0\1"):
        yield f"4 64 1 ddccbbaa,11223344 {asked((0, data))}"
    for byte in (*SPECIAL, 0x79, 0x7E):
        yield f"4 4294967296 1 - {asked((byte, header(4, 1, 0) + bytes([byte])))}"
        yield f"4 4294967296 0 {byte:02x}{byte:02x}{byte:02x}{byte:02x} {asked((byte, header(0x14, 2, byte)))}"
        yield f"1 4294967296 200 - {asked((0, header(4, byte, byte << 24 | byte << 16 | byte << 8 | byte) + bytes(byte)))}"
        yield f"4 4294967296 0 - {asked((byte, bytes([byte])))}"
    for place in range(len(both) // 2 + 1):
        yield f"4 65536 1 44332211 {both[:2 * place] or '-'}"
    yield f"4 65536 1 44332211 {asked((1, write), (2, read))}"
    yield f"1 65536 0 - {asked((0, header(0x14, 4096, 0)))}"
    yield f"1 65536 0 - {asked((0, header(0x14, 4097, 0)))}"
    yield f"16 65536 0 - {asked((0, header(0x14, 65535, 1)))}"
    yield f"16 65536 0 - {asked((0, header(0x14, 65521, 15)))}"
    for word in (1, 2, 4, 8, 16):
        data = bytes(range(1, 2 * word + 1))
        words = ",".join(f"{int.from_bytes(data[k:k + word], 'little'):x}" for k in (0, word, 0))
        yield f"{word} 256 3 {words} {asked((0, header(4, len(data), 3) + data), (0, header(0, len(data), 0) + data), (3, header(0x14, len(data), 3)), (0, header(0x10, word, word)))}"


def drawn_packet(draw, word, reach):
    """A packet that breaks no rule, mostly."""
    kind = draw.choice("wwwrrrWRn")
    if kind == "n":
        return bytes([0x7F]) + bytes(draw.randrange(256) for _ in range(draw.randrange(3)))
    size = draw.choice((1, 2, 3, word, 2 * word, draw.randrange(1, 24)))
    address = draw.choice((draw.randrange(min(reach, 256)), draw.randrange(reach), 0x7A % reach, max(0, reach - size)))
    if kind in "WR":
        size, address = size // word * word or word, address // word * word
    if draw.random() < 0.04:
        size = draw.choice((0, size + 1))
    if draw.random() < 0.03:
        address = draw.randrange(1 << 32)
    code = {"w": 0x04, "r": 0x14, "W": 0x00, "R": 0x10}[kind]
    if draw.random() < 0.02:
        code = draw.randrange(256)
    data = bytes(draw.choice((draw.randrange(256), *SPECIAL)) for _ in range(size)) if kind in "wW" else b""
    if draw.random() < 0.02:
        data = data + b"\x01" if draw.random() < 0.5 else data[:-1]
    return bytes([code, draw.randrange(256)]) + size.to_bytes(2, "big") + address.to_bytes(4, "big") + data


def marked(draw, channel, data, before):
    """A packet in one of its spellings, behind one on a channel."""
    text = b""
    for k, byte in enumerate(data):
        marks = []
        if k == 0:
            marks.append(b"\x7a")
            if channel != before or draw.random() < 0.5:
                marks.append(b"\x7c" + (spelled(channel) if draw.random() < 0.9 else bytes([0x7D, channel ^ 0x20])))
        if k == len(data) - 1:
            marks.append(b"\x7b")
        draw.shuffle(marks)
        text += b"".join(marks) + (spelled(byte) if draw.random() < 0.95 else bytes([0x7D, byte ^ 0x20]))
    return text


def drawn_stream(draw, word, reach):
    """Some packets, now and then with a byte changed or cut off."""
    before, stream = 0, b""
    for _ in range(draw.randrange(6)):
        channel = draw.choice((0, 0, 1, 255, *SPECIAL))
        stream += marked(draw, channel, drawn_packet(draw, word, reach), before)
        before = channel
    if stream and draw.random() < 0.3:
        place = draw.randrange(len(stream))
        stream = draw.choice((stream[:place], stream[:place] + bytes([draw.choice((draw.randrange(256), *SPECIAL))]) + stream[place + 1:]))
    return stream


def drawn_row(seed):
    draw = random.Random(seed)
    word = draw.choice((1, 2, 4, 8, 16))
    reach = draw.choice((64, 1024, 1 << 16, 1 << 32))
    stream = drawn_stream(draw, word, reach)
    words = [draw.choice((draw.getrandbits(8 * word), 0x7A7B7C7D % (1 << 8 * word))) for _ in range(draw.choice((0, 3, 12, 40)))]
    return f"{word} {reach} {draw.choice((0, 2, 8, 60))} {','.join(f'{it:x}' for it in words) or '-'} {stream.hex() or '-'}"


def main():
    if sys.argv[1:2] == ["--draw"]:
        rows = list(shown_rows())
        rows += [drawn_row(seed) for seed in range(max(0, int(sys.argv[2]) - len(rows)))]
        print("\n".join(rows))
    else:
        with open(sys.argv[1], encoding="ascii") as file:
            for row in file.read().splitlines():
                print(answer(row))


if __name__ == "__main__":
    main()
