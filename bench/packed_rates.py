#!/usr/bin/env python3
"""Prints how fast a narrow host's read bursts go, and how often the agent is read for them: packed_rates.py PROGRAM [HOST AGENT]..

For each pair of HOST and AGENT, in bits, ten if none is given, and each bound of the agent from 1 to 8 reads: the agent's read beats for 64 words
from the first place of a wide word on and from the second, and at latencies of 1 to 15 the host's words a cycle in reads of 64 words one behind
the other. A latency at which the bound times the words in a wide one is more than the latency, so that each cycle can have a word, and hasn't,
is told behind. With `fixed` in place of the bound the agent has no readdatavalid and gives its word in just that cycle, at latencies from 0 on.
Run by Icarus Verilog.
"""
import subprocess
import sys
import tempfile
from pathlib import Path

import packs
from lockstep import ports_of

PAIRS = [(8, 16), (8, 32), (8, 64), (8, 128), (16, 32), (16, 64), (16, 128), (32, 64), (32, 128), (64, 128)]
WORDS, FROM, CYCLES = 64, 256, 512


def bench(text, host, latencies):
    """Tells the beats of two bursts, then the words in so many cycles at each latency."""
    ports = [port for port in ports_of(text) if port[2] not in ("clk", "reset")]
    lines = ["module bench;", "  reg clk = 0, reset = 1; integer cycle, words, beats, latency; reg [16:0] due; reg always_;"]
    joins = [".clk(clk)", ".reset(reset)"]
    for way, bits, name in ports:
        flat = name.replace("$", "_")
        lines.append(f"  {'reg' if way == 'input' else 'wire'} [{bits - 1}:0] {flat}{' = 0' if way == 'input' else ''};")
        joins.append(f".{name}({flat})")
    names = [name for _, _, name in ports]
    valid = "a_m_readdatavalid = due[latency];" if "a$m$readdatavalid" in names else ""
    lines += [f"  packs_interconnect join_ ({', '.join(joins)});", f"  task run(input integer begins, input integer ends); begin"]
    lines += ["    due = 0; words = 0; beats = 0; h_m_read = 1; reset = 1; #5 clk = 1; #1 reset = 0;"]
    lines += ["    for (cycle = 0; cycle < ends; cycle = cycle + 1) begin", f"      #1 due = due << 1; {valid} #3 clk = 0;"]
    lines += ["      if (a_m_read) begin due[0] = 1; beats = beats + 1; end", "      if (cycle >= begins) words = words + h_m_readdatavalid;"]
    lines += ["      #1 if (!always_ && h_m_read && !h_m_waitrequest) begin #4 clk = 1; #1 h_m_read = 0; end else begin #4 clk = 1; #1; end"]
    lines += ["    end #4 clk = 0;", "  end endtask", "  initial begin", f"    h_m_byteenable = ~0; h_m_burstcount = {WORDS}; always_ = 0; latency = 1;"]
    for address in (0, host // 8):
        lines.append(f'    h_m_address = {address}; run(0, 400); $write("%0d ", words == {WORDS} ? beats : -1);')
    lines.append("    always_ = 1; h_m_address = 0;")
    for latency in latencies:
        lines.append(f'    latency = {latency}; run({FROM}, {FROM + CYCLES}); $write("%0.2f ", words / {CYCLES}.0);')
    return "\n".join(lines + ["    $finish;", "  end", "endmodule"]) + "\n"


def measured(program, host, agent, bound, latency, folder):
    """What is told of a module: beats, and words a cycle. The bound is 0 where the latency is fixed."""
    packs.write_scripts(host, agent, folder, bound, latency, WORDS)
    files = ["packs.tcl", "host.tcl", "agent.tcl"]
    text = subprocess.run([program, "generate", *files], cwd=folder, check=True, capture_output=True, text=True).stdout
    (folder / "text.v").write_text(text)
    (folder / "bench.v").write_text(bench(text, host, range(1, 16) if bound else [latency]))
    subprocess.run(["iverilog", "-g2005", "-s", "bench", "-o", folder / "bench", folder / "bench.v", folder / "text.v"], check=True)
    beats, shifted, *rates = subprocess.run(["vvp", "-n", folder / "bench"], check=True, capture_output=True, text=True).stdout.split()
    return int(beats), int(shifted), [float(rate) for rate in rates]


def main(program, *words):
    program = Path(program).resolve()
    pairs = [(int(words[k]), int(words[k + 1])) for k in range(0, len(words), 2)] or PAIRS
    slow = 0
    print(f"{'pair':9} {'bound':5} {'beats':7} words a cycle, at latencies 1 to 15")
    with tempfile.TemporaryDirectory() as place:
        folder = Path(place)
        for host, agent in pairs:
            for bound in range(1, 9):
                beats, shifted, rates = measured(program, host, agent, bound, 0, folder)
                late = [k for k, rate in enumerate(rates, 1) if rate < 1 and bound * agent // host > k]
                slow += len(late)
                told = " ".join(f"{rate:.2f}" for rate in rates)
                print(f"{host:3} {agent:3}   {bound:5} {beats:3} {shifted:3} {told}{f'  less than may be at {late}' if late else ''}", flush=True)
            fixed = [measured(program, host, agent, 0, latency, folder) for latency in range(16)]
            late = [latency for latency, (_, _, rates) in enumerate(fixed) if rates[0] < 1]
            slow += len(late)
            told = " ".join(f"{rates[0]:.2f}" for _, _, rates in fixed)
            print(f"{host:3} {agent:3}   fixed {fixed[0][0]:3} {fixed[0][1]:3} {told}{f'  less than may be at {late}' if late else ''}", flush=True)
    print(f"{slow} slower than may be")


if __name__ == "__main__":
    main(*sys.argv[1:])
