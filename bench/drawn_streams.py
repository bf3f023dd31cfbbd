#!/usr/bin/env python3
"""Prints rows of drawn streams, as crates/stream_rows/stdin has them: drawn_streams.py FIRST LAST.

Row N has a source and a sink of 1 to 8 symbols, of one to nine bits, with or without packets, errors and channels, and a queue of up to 20 beats;
both ends have ready latencies of 0 to 8 and at times a larger allowance, and the sink is at times not ready. The source sends 1 to 20 beats of what is drawn too, with any
word in what a packet leaves empty. What crates/stream_rows prints of them can be compared with what bench/stream_model.py says.
"""
import sys
from random import Random


def pace(draw, ready):
    if ready is None:
        return []
    return [f"ready={ready}"] + ([f"allowance={draw.randint(ready, 16)}"] if ready and draw.random() < 0.5 else [])


def end(draw, symbols, bits, pace, packets, error, channel, low):
    words = [f"{symbols}x{bits}"] + pace + (["low"] if low else [])
    words += ["packets"] if packets else []
    words += [f"empty={(symbols - 1).bit_length() + draw.randrange(3)}"] if packets and symbols > 1 else []
    words += [f"error={error}"] if error else []
    words += [f"channel={channel[0]}", f"largest={channel[1]}"] if channel else []
    return ",".join(words)


def channel_of(draw):
    bits = draw.randint(1, 4)
    return bits, draw.randrange(1 << bits)


def beats(draw, symbols, bits, packets, error, channel, low, count):
    opened, on = False, 0
    for number in range(count):
        first = packets and not opened
        if channel and not (packets and opened):
            on = draw.randint(0, channel[1])
        last = packets and (draw.randrange(3) == 0 or number + 1 == count)
        empty = draw.randrange(symbols) if last else 0
        word = f"{draw.getrandbits(symbols * bits):0{-(-symbols * bits // 4)}x}" + ("/s" if first else "") + ("/e" if last else "")
        word += f"/empty={empty}" if empty else ""
        word += f"/channel={on}" if on else ""
        mark = draw.getrandbits(error) if error and draw.randrange(3) == 0 else 0
        yield word + (f"/error={mark}" if mark else "")
        opened = packets and not last


def row(number):
    draw, allowances = Random(number), Random(~number)
    source, sink = draw.randint(1, 8), draw.randint(1, 8)
    bits, packets = draw.randint(1, 9), draw.random() < 0.7
    error = draw.choice([0, 0, 1, 3])
    # beats are joined only where there is one channel
    channel = channel_of(draw) if source % sink == 0 and (packets or source == sink) and draw.random() < 0.4 else None
    taken = channel_of(draw) if channel and draw.random() < 0.4 else channel
    low = draw.random() < 0.2, draw.random() < 0.2
    shown = end(draw, source, bits, pace(allowances, draw.choice([0, 0, 0, 1, 2, 3, 8])), packets, error, channel, low[0])
    wanted = end(draw, sink, bits, pace(allowances, draw.choice([None, 0, 0, 0, 0, 1, 2, 5])), packets, error or draw.choice([0, 0, 2]), taken, low[1])
    levels = "".join(draw.choice("0111") for _ in range(draw.randint(1, 12))) + "1"
    sent = beats(draw, source, bits, packets, error, channel, low[0], draw.randint(1, 20))
    return " ".join([shown, wanted, str(draw.choice([0, 0, 0, 1, 3, 4, 20])), draw.choice([levels, levels, "1", "v"]), str(draw.randint(40, 200)), *sent])


for number in range(int(sys.argv[1]), int(sys.argv[2]) + 1):
    print(row(number))
