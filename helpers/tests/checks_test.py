"""checks.py: silent in the runs of drawn systems whose stand-ins keep their rules, and it names each of the planted faults.

    checks_test.py [COUNT]     so many systems, 24 where nothing is said
"""
import subprocess
import sys
import tempfile
from pathlib import Path
from random import Random

from parts import PROGRAM, TOP, helper, must

import draw_scenarios
from judge_drawn_traces import Faultless, systems_of
from judge_scenarios import judge
from judge_traces import Simulation, generated
from script_systems import System
from workload_scripts import scripts_of

BENCH = """
module bench;
  reg clk = 0;
  reg reset = 1;
  reg [{bits}:0] rows [0:{last}];
  reg [{bits}:0] row;
  integer cycle;
  {name}_checks checks (
    .clk(clk), .reset(reset),
{ports}
  );
  initial begin
    $readmemb("rows.txt", rows);
    row = rows[0];
    #5 clk = 1;
    #1 reset = 0;
    for (cycle = 0; cycle <= {last}; cycle = cycle + 1) begin
      row = rows[cycle];
      #4 clk = 0;
      #5 clk = 1;
      #1;
    end
    $display("broken %0d", checks.broken);
    $finish;
  end
endmodule
"""


class Run:
    """What stands at all ports of a module in each cycle, as numbers by their names; `x` stands for unknown bits."""

    def __init__(self, text, files, scenario):
        self.text, self.files = text, files
        simulation = Simulation(text, System(files[0], files[1:]), scenario)
        self.ports = simulation.text.inputs + simulation.text.outputs
        self.cycles = [dict(zip((name for name, _ in self.ports), map(int, levels))) for _, levels, _ in simulation.run()]

    def find(self, holds):
        """The first cycle in which this holds of it and the next one."""
        for k in range(len(self.cycles) - 1):
            if holds(self.cycles[k], self.cycles[k + 1]):
                return k
        raise LookupError

    def checked(self, folder):
        """What the checks write of the run."""
        folder = Path(folder)
        (folder / "text.v").write_bytes(self.text)
        names = [f"{k}.tcl" for k in range(len(self.files))]
        for name, file in zip(names, self.files):
            (folder / name).write_text(file)
        (folder / "checks.v").write_text(helper("checks.py", "text.v", *names, folder=folder))
        rows, ports, at = [], [], 0
        for name, width in self.ports:
            ports.append(f"    .{name}(row[{at + width - 1}:{at}])")
            at += width
        for cycle in self.cycles:
            row = "".join("x" * width if cycle[name] == "x" else f"{cycle[name]:0{width}b}" for name, width in reversed(self.ports))
            rows.append(row)
        (folder / "rows.txt").write_text("\n".join(rows) + "\n")
        name = self.text.split()[1].decode().removesuffix("_interconnect")
        (folder / "bench.v").write_text(BENCH.format(bits=at - 1, last=len(rows) - 1, name=name, ports=",\n".join(ports)))
        words = ["iverilog", "-g2005", "-Wall", "-o", "bench", "bench.v", "checks.v"]
        said = subprocess.run(words, cwd=folder, capture_output=True, text=True, check=False)
        must(said.returncode == 0 and not said.stderr, "Icarus doesn't take the checks without a word", said.stderr)
        return subprocess.run(["vvp", "bench"], cwd=folder, capture_output=True, text=True, check=True).stdout


def legal(random, system):
    while True:
        scenario = Faultless(random, system).scenario()
        if not judge(system, scenario).startswith("line "):
            return scenario


def drawn_runs(count):
    """Runs of workload systems, and of the systems of crates/scenario_rows with drawn scenarios, which have bursts and channels."""
    random = Random(54)
    others = systems_of((TOP / "crates/scenario_rows/stdin").read_text().split("\n:row ")[0])
    for number in range(count):
        if number % 2:
            files = others[number // 2 % len(others)]
            scenario = legal(random, System(files[0], files[1:]))
        else:
            files = scripts_of(number // 2)
            lines = draw_scenarios.drawn(number // 2, 0, 300)[1:]
            scenario = "\n".join(lines).encode()
        yield Run(generated(PROGRAM, files[0].encode(), [file.encode() for file in files[1:]]), files, scenario)


SYSTEM = ["""create_system s
add_instance cpu cpu
add_instance ram ram
add_instance gen gen
add_instance chk chk
add_instance late late
add_instance led led
add_instance bold bold
add_instance slow slow
add_connection cpu.m ram.s
add_connection gen.o chk.i
add_connection late.o led.i
add_connection bold.o slow.i
""", """set_module_property NAME cpu
add_interface m avalon host
add_interface_port m a address Output 8
add_interface_port m r read Output 1
add_interface_port m w write Output 1
add_interface_port m wd writedata Output 32
add_interface_port m bc burstcount Output 3
add_interface_port m wr waitrequest Input 1
add_interface_port m rd readdata Input 32
add_interface_port m rv readdatavalid Input 1
""", """set_module_property NAME ram
add_interface s avalon agent
add_interface_port s a address Input 6
add_interface_port s r read Input 1
add_interface_port s w write Input 1
add_interface_port s wd writedata Input 32
add_interface_port s bc burstcount Input 3
add_interface_port s wr waitrequest Output 1
add_interface_port s rd readdata Output 32
add_interface_port s rv readdatavalid Output 1
"""]


def stream_end(name, interface, side, latency, allowance=0):
    """A component with an end of a stream: packets of three symbols a beat on three channels. An allowance of 0 is the latency."""
    ways = ("Output", "Input") if side == "source" else ("Input", "Output")
    lines = [f"set_module_property NAME {name}", f"add_interface {interface} avalon_streaming {side}"]
    lines += [f"set_interface_property {interface} {key} {value}" for key, value in
              (("readyLatency", latency), ("readyAllowance", allowance), ("maxChannel", 2), ("symbolsPerBeat", 3))]
    lines += [f"add_interface_port {interface} {role} {role} {ways[role == 'ready']} {width}" for role, width in
              (("ready", 1), ("valid", 1), ("data", 24), ("channel", 2), ("startofpacket", 1), ("endofpacket", 1), ("empty", 2))]
    return "\n".join(lines) + "\n"


SYSTEM += [stream_end("gen", "o", "source", 0), stream_end("chk", "i", "sink", 0)]
SYSTEM += [stream_end("late", "o", "source", 2), stream_end("led", "i", "sink", 2)]
SYSTEM += [stream_end("bold", "o", "source", 1, 3), stream_end("slow", "i", "sink", 0)]

SCENARIO = b"""cycles 60
stall ram.s 0110
write cpu.m 10 f 1 2 3 4
read cpu.m 10 f 4
write cpu.m 20 f 5
read cpu.m 20 f 1
stall chk.i 01
stall led.i 0001
stall slow.i 11111110
"""
for source in ("gen", "late", "bold"):
    for k, flags in enumerate("s - e se s - - e s - e se s - - e".split()):
        SCENARIO += f"beat {source}.o {k} 1 0 {flags} 0\n".encode()

C, G, L, B, R = "cpu$m$", "gen$o$", "late$o$", "bold$o$", "ram$s$"
WAITS = (lambda now, then: now[C + "write"] and now[C + "waitrequest"])
BEGINS = (lambda now, then: not now[C + "write"] and then[C + "write"])
STANDS = (lambda now, then: now[G + "valid"] and not now[G + "ready"])
MOVES = (lambda now, then: now[G + "valid"] and now[G + "ready"] and now[G + "startofpacket"] and not now[G + "endofpacket"])

# where a fault is planted, how many cycles behind, what is changed, the end and the rule that must be named
FAULTS = [
    ("read beside write", WAITS, 0, {C + "read": 1}, "host cpu.m: read and write are high together"),
    ("an address that changes", WAITS, 1, {C + "address": 0x3c}, "host cpu.m: a command changes while waitrequest is high"),
    ("a command that goes", WAITS, 1, {C + "write": 0}, "host cpu.m: a command changes while waitrequest is high"),
    ("data that change", WAITS, 1, {C + "writedata": 0x99}, "host cpu.m: writedata changes while waitrequest is high"),
    ("a burst of no beat", BEGINS, 1, {C + "burstcount": 0}, "host cpu.m: a burst of no beat"),
    ("a burst that is too long", BEGINS, 1, {C + "burstcount": 7}, "host cpu.m: a burst of more than 4 beats"),
    ("a read inside a write burst", lambda now, then: now[C + "write"] and not now[C + "waitrequest"] and then[C + "write"], 1,
     {C + "write": 0, C + "read": 1}, "host cpu.m: a read before the last beat of a write burst"),
    ("an unknown command", WAITS, 0, {C + "write": "x"}, "host cpu.m: write is unknown"),
    ("a word that nobody asked for", lambda now, then: not now[R + "read"] and not now[R + "readdatavalid"], 0, {R + "readdatavalid": 1},
     "agent ram.s: readdatavalid is high, and no read of an earlier cycle is unanswered"),
    ("a beat that changes", STANDS, 1, {G + "data": 0x77}, "source gen.o: a beat changes, or goes, before it is accepted"),
    ("a beat that goes", STANDS, 1, {G + "valid": 0}, "source gen.o: a beat changes, or goes, before it is accepted"),
    ("a channel that there isn't", MOVES, 0, {G + "channel": 3}, "source gen.o: a channel above maxChannel"),
    ("a channel that changes", MOVES, 1, {G + "channel": 2, G + "valid": 1, G + "ready": 1},
     "source gen.o: the channel changes inside a packet"),
    ("a packet inside another", MOVES, 1, {G + "startofpacket": 1, G + "valid": 1, G + "ready": 1},
     "source gen.o: a packet begins before the last one ends"),
    ("a beat without a packet", MOVES, 0, {G + "startofpacket": 0}, "source gen.o: a beat outside of a packet"),
    ("more empty symbols than there are", MOVES, 0, {G + "endofpacket": 1, G + "empty": 3},
     "source gen.o: empty isn't below the 3 symbols of a beat"),
    ("a beat without ready", lambda now, then: not now[L + "valid"] and not now[L + "ready"], 2, {L + "valid": 1},
     "source late.o: valid is high, and ready was low 2 cycles before"),
    ("a beat too many", lambda now, then: now[B + "valid"] and not now[B + "ready"] and not then[B + "valid"] and not then[B + "ready"], 1,
     {B + "valid": 1}, "source bold.o: valid is high, and ready wasn't high yet 1 cycles before, or 3 beats came since it was"),
]


def plant(run, where, behind, changed):
    """The cycle in which a fault is planted; those behind it are left out."""
    at = run.find(where) + behind
    run.cycles[at].update(changed)
    del run.cycles[at + 1:]
    return at


def main():
    count = int(sys.argv[1]) if len(sys.argv) > 1 else 24
    cycles = 0
    with tempfile.TemporaryDirectory() as folder:
        for number, run in enumerate(drawn_runs(count)):
            said = run.checked(folder)
            must(said == "broken 0\n", f"system {number}: a legal run isn't silent", said)
            cycles += len(run.cycles)
        text = generated(PROGRAM, SYSTEM[0].encode(), [file.encode() for file in SYSTEM[1:]])
        must(Run(text, SYSTEM, SCENARIO).checked(folder) == "broken 0\n", "the run without a fault isn't silent")
        for title, where, behind, changed, told in FAULTS:
            run = Run(text, SYSTEM, SCENARIO)
            at = plant(run, where, behind, changed)
            said = run.checked(folder)
            must(f"checks: cycle {at}: {told}\n" in said, f"{title}: cycle {at} isn't told so: {told}", said)
    print(f"checks.py: silent in {count} drawn systems, {cycles} cycles; {len(FAULTS)} planted faults named")


main()
