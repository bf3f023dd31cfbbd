#!/usr/bin/env python3
"""Rows of crates/script_rows that replay multiplexers, demultiplexers and gatherers: routed_rows.py PROGRAM, or with a second word their answers.

Each module's text is PROGRAM's; the waves are those of legal sources and of sinks that stall, as judge_routed.py and gather_runs.py draw and judge
them, and what the outputs show is told by text_runs.py, apart from the program.
"""
import random
import sys
from pathlib import Path

import gather_runs
import judge_routed

CYCLES = 24


def routed(program, kind, numbers, seed, often):
    """The text, the waves and the outputs of a run in which sources and sinks are there so many eighths of the cycles."""
    judge_routed.CYCLES, judge_routed.MOODS = CYCLES, [often]
    text = judge_routed.made(program, kind, numbers).stdout
    module, inputs, outputs, _ = judge_routed.run(text, kind, *numbers, random.Random(seed))
    return text, module, inputs, outputs


def gathered(program, shape, beats, ready):
    """The same of a gatherer, of given beats: each channel and word, until it is accepted; memories begin with 0, as in a replay."""
    text = gather_runs.text_of(program, shape)
    run = gather_runs.Run(text, shape, random.Random(1))
    for memory in run.text.memories:
        memory[:] = [0 for _ in memory]
    inputs, outputs, cycle = [], [], 0
    for channel, word in beats:
        while True:
            values = (1, word, channel, ready[cycle % len(ready)])
            inputs.append(list(values))
            outputs.append([int(value) for value in run.text.show(values)])
            cycle += 1
            if run.step(*[values[k] for k in (0, 2, 1, 3)]):
                break
    return text, run.text, inputs, outputs


def runs(program):
    yield "mux", "a multiplexer whose inputs are always there", routed(program, "mux", (2, 1, 8), 3, 8)
    yield "mux", "a multiplexer before a sink that stalls", routed(program, "mux", (2, 1, 8), 5, 5)
    yield "demux", "a demultiplexer whose input is always there", routed(program, "demux", (2, 1, 8), 2, 8)
    yield "demux", "a demultiplexer before sinks that stall", routed(program, "demux", (2, 1, 8), 4, 5)
    pairs = [(0, 0x11), (1, 0xaa), (0, 0x22), (1, 0xbb)]
    yield "gather", "a gatherer of two channels in turn", gathered(program, (2, 1, 2, 8), pairs, [1])
    yield "gather", "a gatherer before a sink that stalls", gathered(program, (2, 1, 2, 8), pairs + pairs, [0, 0, 1])
    many = [(channel, 16 * part + channel) for part in (1, 2) for channel in range(16)]
    yield "gather16", "a gatherer of sixteen channels at once", gathered(program, (16, 1, 2, 8), many, [1, 1, 0])


def main():
    program, told = Path(sys.argv[1]).resolve(), len(sys.argv) > 2
    for part, title, (text, module, inputs, outputs) in runs(program):
        if told:
            print(f"text {title}: ")
            for cycle, values in enumerate(outputs):
                shown = " ".join(f"{name}={value:0{(bits + 3) // 4}x}" for (name, bits), value in zip(module.outputs, values))
                print(f"{cycle} {shown}")
            print(f"end {len(outputs)}\n")
        else:
            # a plain `@` would mark a byte
            verilog = text.decode().replace("@", "%40")
            print(f":row text {title}\n:replay\n{verilog}:file\ncycles {len(inputs)}")
            for values in inputs:
                print(judge_routed.line(module.inputs, values))


if __name__ == "__main__":
    main()
