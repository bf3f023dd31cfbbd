#!/usr/bin/env python3
"""Seconds and memory of campaigns beside eight plain simulations of the same drawn scenarios.

campaign_rates.py PROGRAM [CALLS [SYSTEM..]]: for each of these workload systems, by itself 24, `campaign 1` is called, and
`simulate` on each of the eight scenarios of 256 cycles that it draws, which are written from docs/FORMATS.md alone; the
words that hosts were given must be as many. What a call does before its first cycle is taken off: the seconds of
`simulate` on a scenario of one cycle, off the campaign once and off the simulations eight times. Simulations read their
scenarios and write traces besides, to nowhere; a campaign draws its scenarios and writes nine lines.

Seconds are those of the processor, the least of so many calls, five by itself. Each line: the system, its nets, the
seconds before a first cycle, of the campaign and of the eight simulations behind them, how many times as long the latter
took, and how many times as long as whole calls. On a busy machine the times between are noise: they are differences.

The last lines are for memory: nets of a system of streams or of hosts and agents, what a campaign took of memory and what
`simulate` of one cycle (KB), and what the campaign took more, in bytes a net: eight lanes and eight benches, less a
plain simulator and its bench.
"""
import os
import subprocess
import sys
import tempfile
from pathlib import Path

from draw_scenarios import drawn
from workload_scripts import main as write_scripts

BENCH = Path(__file__).resolve().parent
CYCLES, NUMBER = 256, 1


def seconds(calls, *words):
    """The least seconds of the processor of some calls."""
    least = None
    for _ in range(calls):
        with subprocess.Popen(words, stdout=subprocess.DEVNULL) as child:
            _, status, used = os.wait4(child.pid, 0)
            child.returncode = os.waitstatus_to_exitcode(status)
        if child.returncode:
            sys.exit(f"{' '.join(words)}: status {child.returncode}")
        took = used.ru_utime + used.ru_stime
        least = took if least is None else min(least, took)
    return least


def output(*words):
    return subprocess.run(words, stdout=subprocess.PIPE, check=True).stdout.decode().splitlines()


def net_count(text):
    return sum(line.startswith(("  wire [", "  reg [")) for line in text)


def counted(program, of, files):
    """The words that hosts were given, in all lanes: those that the campaign counts, and those of the traces."""
    lanes = output(program, "campaign", str(NUMBER), *files)[:8]
    traces = [output(program, "simulate", files[0], f"lane{lane}", *files[1:]) for lane in range(8)]
    ours = sum(int(line.split()[5]) for line in lanes)
    theirs = sum(line.split()[1] == "get" for trace in traces for line in trace)
    if ours != theirs:
        sys.exit(f"system {of}: a campaign counts {ours} words, and eight simulations {theirs}")


def row(program, calls, of):
    write_scripts(of, Path("."))
    files = Path("files").read_text().split()
    for lane in range(8):
        Path(f"lane{lane}").write_text("\n".join(drawn(NUMBER, lane, CYCLES, of)[1:]) + "\n")
    Path("one").write_text("cycles 1\n")
    counted(program, of, files)
    before = seconds(calls, program, "simulate", files[0], "one", *files[1:])
    campaign = seconds(calls, program, "campaign", str(NUMBER), *files)
    plain = sum(seconds(calls, program, "simulate", files[0], f"lane{lane}", *files[1:]) for lane in range(8))
    lanes, runs = max(campaign - before, 1e-4), plain - 8 * before
    nets = net_count(output(program, "generate", *files))
    print(f"{of:6} {nets:6} {before:8.4f} {lanes:8.4f} {runs:8.4f} {runs / lanes:6.1f} {plain / campaign:6.1f}", flush=True)


def memory(*words):
    """The most memory of a call, in KB. A process of its own calls, since one of Python has more."""
    subprocess.run(["/usr/bin/time", "-f", "%M", "-o", "room", *words], stdout=subprocess.DEVNULL, check=True)
    return int(Path("room").read_text().split()[-1])


def room(program, *size):
    subprocess.run([sys.executable, BENCH / "largest.py", *map(str, size), "."], check=True)
    files = Path("files").read_text().split()
    Path("one").write_text("cycles 1\n")
    lanes = memory(program, "campaign", str(NUMBER), *files)
    plain = memory(program, "simulate", files[0], "one", *files[1:])
    nets = net_count(output(program, "generate", *files))
    print(f"{nets:6} {lanes:8} {plain:8} {1024 * (lanes - plain) / nets:6.0f}", flush=True)


def main(program, calls=5, *systems):
    program = str(Path(program).resolve())
    with tempfile.TemporaryDirectory() as folder:
        os.chdir(folder)
        print(f"{'system':>6} {'nets':>6} {'before':>8} {'campaign':>8} {'eight':>8} {'times':>6} {'whole':>6}")
        for of in systems or range(24):
            row(program, int(calls), int(of))
        print(f"{'nets':>6} {'campaign':>8} {'simulate':>8} {'a net':>6}")
        for size in ((0, 0, 16, 0), (4, 4, 0, 0), (8, 8, 0, 0)):
            room(program, *size)


if __name__ == "__main__":
    main(*sys.argv[1:])
