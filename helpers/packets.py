#!/usr/bin/env python3
"""Packets of reads and writes as bytes, and the lines of their replies."""
import argparse
import sys

from scripts import Fault, read_text, run

LONG = """\
packets.py make <SCRIPT >BYTES           the packets that a script asks for, as they are sent
packets.py requests <BYTES               the script that bytes ask for
packets.py replies SCRIPT <BYTES         what was answered to each line of a script

A script has a transaction a line. Numbers are decimal, or hexadecimal behind 0x; the bytes of a write are hexadecimal.

  write 0x10 de ad be ef     four bytes from address 0x10 on
  read 0x10 4                four bytes from there
  write-fixed 0x20 01 02     all bytes at one address, a word at a time
  read-fixed 0x20 8
  nothing                    no transaction: the other side answers that it is there
  channel 3                  the channel of the lines below; 0 at first

Empty lines and lines that begin with # count for nothing. It is the form of Platform Designer's bytes-to-packets converter and its
packets-to-transactions converter, as they stand behind a serial port or JTAG.
"""

FIRST, LAST, CHANNEL, ESCAPE, TURNED = 0x7A, 0x7B, 0x7C, 0x7D, 0x20
SPECIAL = (FIRST, LAST, CHANNEL, ESCAPE)
CODES = {"write-fixed": 0x00, "write": 0x04, "read-fixed": 0x10, "read": 0x14, "nothing": 0x7F}
NAMES = {code: name for name, code in CODES.items()}


# ---- marked bytes


def spelled(byte):
    """A byte as it is sent: behind an escape where it means something of its own."""
    return bytes([ESCAPE, byte ^ TURNED]) if byte in SPECIAL else bytes([byte])


def pack(channel, data):
    """The packet of some bytes on a channel, as it is sent."""
    if not data:
        raise ValueError("a packet has at least one byte")
    text = bytes([CHANNEL]) + spelled(channel) + bytes([FIRST])
    for byte in data[:-1]:
        text += spelled(byte)
    return text + bytes([LAST]) + spelled(data[-1])


def unpack(stream):
    """The packets of a stream, as (channel, bytes), one after the other."""
    channel, packet, packet_channel = 0, None, 0
    first = last = marked = False
    at = 0

    def value(at):
        if at < len(stream) and stream[at] == ESCAPE:
            if at + 1 < len(stream):
                return stream[at + 1] ^ TURNED, at + 2
            raise Fault(f"byte {len(stream)}: the bytes end behind an escape")
        if at < len(stream):
            return stream[at], at + 1
        raise Fault(f"byte {len(stream)}: the bytes end behind a mark")

    while at < len(stream):
        byte = stream[at]
        if byte == FIRST:
            first, at = True, at + 1
        elif byte == LAST:
            last, at = True, at + 1
        elif byte == CHANNEL:
            if at + 1 < len(stream) and stream[at + 1] in (FIRST, LAST, CHANNEL):
                raise Fault(f"byte {at + 1}: a mark in place of a channel")
            channel, at = value(at + 1)
            marked = True
        else:
            if packet is None and not first:
                raise Fault(f"byte {at}: a byte outside a packet")
            if packet is not None and (first or channel != packet_channel):
                raise Fault(f"byte {at}: a packet inside a packet")
            data, at = value(at)
            packet = (packet or bytearray()) + bytes([data])
            packet_channel = channel
            if last:
                yield channel, bytes(packet)
                packet = None
            first = last = marked = False
    if packet is not None or first or last or marked:
        raise Fault(f"byte {len(stream)}: the bytes end inside a packet")


# ---- transactions


def number(word, most):
    try:
        value = int(word, 16 if word.startswith("0x") else 10)
    except ValueError:
        raise Fault(f"{word} is no number") from None
    if not 0 <= value <= most:
        raise Fault(f"{word} is too large")
    return value


def byte(word):
    try:
        value = int(word, 16)
    except ValueError:
        raise Fault(f"{word} is no byte") from None
    if not 0 <= value <= 0xFF:
        raise Fault(f"{word} is no byte")
    return value


def transaction(words):
    """The bytes of the transaction that the words of a line ask for."""
    name = words[0]
    if name not in CODES:
        raise Fault(f"{name} is no transaction")
    code = CODES[name]
    if name == "nothing":
        if len(words) != 1:
            raise Fault("nothing has no further words")
        return bytes([code])
    if len(words) < 3 or (name.startswith("read") and len(words) != 3):
        raise Fault(f"{name} has a wrong number of words")
    address = number(words[1], 0xFFFFFFFF)
    data = bytes(byte(word) for word in words[2:]) if name.startswith("write") else b""
    size = len(data) if name.startswith("write") else number(words[2], 0xFFFF)
    if not 0 < size <= 0xFFFF:
        raise Fault("a transaction has 1 to 65535 bytes")
    return bytes([code, 0]) + size.to_bytes(2, "big") + address.to_bytes(4, "big") + data


def line_of(data):
    """The line that asks for the transaction of these bytes."""
    name = NAMES.get(data[0])
    if name is None:
        raise Fault(f"{data[0]:02x} is no code")
    if name == "nothing":
        return name
    size, address = int.from_bytes(data[2:4], "big"), int.from_bytes(data[4:8], "big")
    due = 8 + size if name.startswith("write") else 8
    if size == 0 or len(data) != due:
        raise Fault(f"a {name} of {size} bytes in a packet of {len(data)}")
    return f"{name} {address:#x} " + (data[8:].hex(" ") if name.startswith("write") else str(size))


def requests_of(text):
    """The requests of a script, as (line, channel, words)."""
    channel = 0
    for count, line in enumerate(text.splitlines(), 1):
        words = line.split()
        if not words or words[0].startswith("#"):
            continue
        try:
            if words[0] == "channel":
                if len(words) != 2:
                    raise Fault("channel has one number")
                channel = number(words[1], 0xFF)
            else:
                transaction(words)
                yield count, channel, words
        except Fault as fault:
            raise Fault(f"line {count}: {fault}") from None


def script_of(stream):
    """The lines that ask for what the packets of a stream ask for."""
    channel = 0
    for other, data in unpack(stream):
        if other != channel:
            yield f"channel {other}"
            channel = other
        yield line_of(data)


def make(text):
    """The packets that a script asks for, as they are sent."""
    return b"".join(pack(channel, transaction(words)) for _, channel, words in requests_of(text))


def answer_of(words, data):
    """What a reply says of the request of these words."""
    request = transaction(words)
    if words[0] == "nothing":
        return "there" if data == b"\xff\0\0\0" else f"answered {data.hex(' ')}"
    size = int.from_bytes(request[2:4], "big")
    if words[0].startswith("write"):
        due = bytes([request[0] | 0x80, 0]) + request[2:4]
        return f"wrote {size} at {words[1]}" if data == due else f"answered {data.hex(' ')}"
    return f"read {data.hex(' ')} from {words[1]}" if len(data) == size else f"answered {data.hex(' ')}"


def replies(text, stream):
    """What was answered to each request of a script; one without an answer says so."""
    answers = unpack(stream)
    for count, channel, words in requests_of(text):
        reply = next(answers, None)
        if reply is None:
            yield f"line {count}: no answer"
        elif reply[0] != channel:
            yield f"line {count}: answered on channel {reply[0]}"
        else:
            yield f"line {count}: {answer_of(words, reply[1])}"
    for channel, data in answers:
        yield f"besides: {data.hex(' ')} on channel {channel}"


def main():
    words = argparse.ArgumentParser(description=LONG, formatter_class=argparse.RawDescriptionHelpFormatter)
    words.add_argument("what", choices=["make", "requests", "replies"])
    words.add_argument("script", nargs="?")
    it = words.parse_args()
    if (it.script is not None) != (it.what == "replies"):
        words.error("replies has a script, and nothing else has one")
    if it.what == "make":
        sys.stdout.buffer.write(make(sys.stdin.read()))
    elif it.what == "requests":
        print("\n".join(script_of(sys.stdin.buffer.read())))
    else:
        print("\n".join(replies(read_text(it.script), sys.stdin.buffer.read())))


if __name__ == "__main__":
    run(main)
