#!/usr/bin/env python3
"""Writes the top level of a system: the components of its scripts, the generated module, and what joins them."""
import argparse
import re
import sys
from collections import Counter

from scripts import Fault, Header, System, components_of, number, read_text, run

LONG = """\
top.py TEXT SYSTEM COMPONENT.. >NAME_top.v

TEXT is what `avalon generate` writes for SYSTEM and COMPONENT... Written is the module NAME_top: an instance of each component with its
parameters, the generated module, a wire for each of its ports, clocks, resets, interrupts and conduits as SYSTEM joins them, and a port for
each exported signal, NAME_role. `clk` and `reset`, which is active when high, are ports too. What an input that nothing drives is tied to is
told on standard error. The `#top` comments of stand-ins that flatten.tcl writes are followed.
"""

# of Verilog and of SystemVerilog
KEYWORDS = set("""accept_on alias always always_comb always_ff always_latch and assert assign assume automatic before begin bind bins binsof bit
break buf bufif0 bufif1 byte case casex casez cell chandle checker class clocking cmos config const constraint context continue cover covergroup
coverpoint cross deassign default defparam design disable dist do edge else end endcase endchecker endclass endclocking endconfig endfunction
endgenerate endgroup endinterface endmodule endpackage endprimitive endprogram endproperty endsequence endspecify endtable endtask enum event
eventually expect export extends extern final first_match for force foreach forever fork forkjoin function generate genvar global highz0 highz1 if
iff ifnone ignore_bins illegal_bins implements implies import incdir include initial inout input inside instance int integer interconnect
interface intersect join join_any join_none large let liblist library local localparam logic longint macromodule matches medium modport module
nand negedge nettype new nexttime nmos nor noshowcancelled not notif0 notif1 null or output package packed parameter pmos posedge primitive
priority program property protected pull0 pull1 pulldown pullup pulsestyle_ondetect pulsestyle_onevent pure rand randc randcase randsequence rcmos
real realtime ref reg reject_on release repeat restrict return rnmos rpmos rtran rtranif0 rtranif1 s_always s_eventually s_nexttime s_until
s_until_with scalared sequence shortint shortreal showcancelled signed small soft solve specify specparam static string strong strong0 strong1
struct super supply0 supply1 sync_accept_on sync_reject_on table tagged task this throughout time timeprecision timeunit tran tranif0 tranif1 tri
tri0 tri1 triand trior trireg type typedef union unique unique0 unsigned until until_with untyped use uwire var vectored virtual void wait
wait_order wand weak weak0 weak1 while wildcard wire with within wor xnor xor""".split())


def named(name):
    """A name as Verilog takes it."""
    return f"\\{name} " if name in KEYWORDS else name


def ranged(width):
    return f"[{width - 1}:0] " if width > 1 else ""


def literal(kind, word):
    """A parameter's value as Verilog takes it."""
    if kind == "STRING" or kind == "STRING_LIST":
        return '"' + word.replace("\\", "\\\\").replace('"', '\\"') + '"'
    if kind == "BOOLEAN" or word.lower() in ("true", "false"):
        return "1" if word.lower() in ("true", "1") else "0"
    if re.fullmatch(r"0[xX][0-9a-fA-F]+|[0-9]+", word):
        value = number(word)
        return str(value) if value < 2**31 else f"{max(32, value.bit_length())}'h{value:x}"
    if re.fullmatch(r"-?[0-9]+(\.[0-9]+)?([eE][+-]?[0-9]+)?|[0-9]+'[bdhBDH][0-9a-fA-FxzXZ_]+", word):
        return word
    return '"' + word.replace('"', '\\"') + '"'


class Top:
    def __init__(self, header, system, notes):
        self.header, self.system, self.notes = header, system, notes
        self.ports, self.wires, self.body, self.partly = {}, {}, [], set()
        self.sources = [name for name, it in system.instances.items() if it.name == "clock_source"]
        self.main = self.main_source()

    # -- clocks and resets

    def root(self):
        """The start of the clock of what the generated module joins, or None."""
        roots = (self.system.root(end) for ends in self.system.logic() for end in ends)
        return next((root for root in roots if root), None)

    def main_source(self):
        """The clock source whose ports are named clk and reset."""
        name = (self.root() or "").split(".")[0]
        return name if name in self.sources else (self.sources or [None])[0]

    def source_port(self, source, kind):
        name = kind if source == self.main else f"{source}_{kind}"
        self.ports.setdefault(name, ("input", 1))
        return name

    def starts(self, end):
        return [start for start, at in self.system.connections if at == end]

    def clock_from(self, start):
        """The net of the clock that starts here."""
        instance = start.split(".")[0]
        if instance not in self.sources:
            return f"{start.replace('.', '$')}$clk"
        above = self.starts(f"{instance}.clk_in")
        return self.clock_from(above[0]) if above else self.source_port(instance, "clk")

    def resets_to(self, end):
        """The nets of the resets that come to an end, each active when high."""
        nets = []
        for start in self.starts(end):
            instance = start.split(".")[0]
            if instance in self.sources:
                nets += self.resets_to(f"{instance}.clk_in_reset") or [self.source_port(instance, "reset")]
            else:
                nets.append(f"{start.replace('.', '$')}$reset")
        return nets

    # -- one port of a component

    def exported(self, end, port):
        roles = Counter(it.role for it in self.system.interface(end).ports)
        word = port.role if roles[port.role] == 1 else port.name
        name = f"{self.system.exports[end]}_{word}"
        if name in self.ports:
            raise Fault(f"two ports of the top level are named {name}")
        self.ports[name] = (port.direction, port.width)
        return name

    def wire(self, net, width):
        self.wires[net] = width
        return net

    def clock(self, end, port):
        if port.direction == "output":
            return self.wire(f"{end.replace('.', '$')}$clk", 1)
        if end in self.system.exports:
            self.notes.append(f"{end} is exported: give it the clock of the generated module where its interfaces are joined to others")
            return self.exported(end, port)
        starts = self.starts(end)
        if starts:
            return self.clock_from(starts[0])
        self.notes.append(f"{end} is joined to no clock and gets clk")
        return self.source_port(self.main, "clk")

    def reset(self, end, port):
        is_low = port.role.endswith("_n")
        net = f"{end.replace('.', '$')}$reset"
        if port.direction == "output":
            self.wire(net, 1)
            if not is_low:
                return net
            self.wire(net + "_n", 1)
            self.body.append(f"  assign {net} = ~{net}_n;")
            return net + "_n"
        if end in self.system.exports:
            return self.exported(end, port)
        nets = self.resets_to(end)
        if not nets:
            self.notes.append(f"{end} is joined to no reset and gets reset")
            nets = [self.source_port(self.main, "reset")]
        value = " | ".join(dict.fromkeys(nets))
        return value if not is_low else f"~{value}" if len(nets) == 1 else f"~({value})"

    def interrupt(self, end, port):
        if end in self.system.exports:
            return self.exported(end, port)
        net = f"{end.replace('.', '$')}$irq"
        if port.direction == "output":
            if not any(at == end for _, at in self.system.connections):
                return ""
            return self.wire(net, 1)
        bits = ["1'b0"] * port.width
        for start, sender in self.system.connections:
            if start == end:
                at = self.system.interrupts.get((start, sender), 0)
                if at >= port.width:
                    raise Fault(f"interrupt {at} of {sender} is past the {port.width} bits of {end}")
                is_low = self.system.interface(sender).has("irq_n")
                bits[at] = f"{'~' if is_low else ''}{sender.replace('.', '$')}$irq"
        self.wire(net, port.width)
        parts = self.bits_joined(bits)
        self.body.append(f"  assign {net} = {parts[0] if len(parts) == 1 else '{' + ', '.join(parts) + '}'};")
        return net

    @staticmethod
    def bits_joined(bits):
        """Bits from the highest down, rows of zeros as one number."""
        parts, zeros = [], 0
        for bit in [*reversed(bits), None]:
            if bit == "1'b0":
                zeros += 1
                continue
            if zeros:
                parts.append(f"{zeros}'d0")
                zeros = 0
            if bit:
                parts.append(bit)
        return parts

    def conduit(self, end, port):
        if end in self.system.exports:
            return self.exported(end, port)
        for ends in self.system.connections:
            if end in ends:
                other = ends[0] if ends[1] == end else ends[1]
                if any(it.role == port.role for it in self.system.interface(other).ports):
                    return self.wire(f"{ends[0].replace('.', '$')}${port.role}", port.width)
        return self.idle(end, port)

    def logic(self, end, port):
        net = f"{end.replace('.', '$')}${port.role}"
        if net in self.header.width:
            return net
        if end in self.system.exports:
            return self.exported(end, port)
        return self.idle(end, port)

    def idle(self, end, port):
        """What stands at a port that nothing joins."""
        if port.direction != "input":
            return ""
        self.notes.append(f"{end}: nothing drives {port.name}, which is tied to 0")
        return f"{port.width}'d0"

    def value(self, end, port):
        kind = self.system.interface(end).kind
        kinds = {"clock": self.clock, "reset": self.reset, "interrupt": self.interrupt, "conduit": self.conduit}
        return kinds.get(kind, self.logic)(end, port)

    # -- instances

    def of_instance(self, name, it, text):
        """An expression of a `#top` comment over this instance's nets and outputs."""
        def net(found):
            word = found[0]
            return f"{name}${word}" if "$" in word or word in it.given else word
        return re.sub(r"(?<!['\w$])[A-Za-z_][\w$]*", net, text)

    def begins(self, name, it, interface):
        """A net that is high in the first cycle of each transfer of an agent."""
        at, net = it.interfaces[interface], f"{name}${interface}$"
        asks = " | ".join(net + role for role in ("read", "write") if at.has(role))
        if at.has("waitrequest"):
            ends = f"~{net}waitrequest"
        else:
            waits = [at.number(f"{kind}WaitTime", at.number(f"{kind}WaitStates", default)) for kind, default in (("read", 1), ("write", 0))]
            ends = f"{net}stood >= ({net}read ? 8'd{waits[0]} : 8'd{waits[1]})" if at.has("read") else f"{net}stood >= 8'd{waits[1]}"
        root = self.system.root(f"{name}.{interface}")
        clock = self.clock_from(root) if root else self.source_port(self.main, "clk")
        self.body.append(f"""
  // how long a command of {name}.{interface} has stood
  reg [7:0] {net}stood;
  always @(posedge {clock})
    if (reset || !({asks}) || ({ends})) {net}stood <= 0;
    else if ({net}stood != 8'hff) {net}stood <= {net}stood + 8'd1;""")
        return f"({asks}) & {net}stood == 0"

    def instance(self, name, it):
        rows = []
        for port, width in it.given.items():
            rows.append((port, self.wire(f"{name}${port}", width)))
        # a stand-in's nets, of which the component may use a part or nothing
        if it.driven or it.absent:
            self.partly |= {f"{name}${interface}${port.role}" for interface, at in it.interfaces.items() for port in at.ports}
        for target, text in it.driven.items():
            if "$" in target:
                self.body.append(f"  assign {name}${target} = {self.of_instance(name, it, text)};")
            else:
                rows.append((target, self.of_instance(name, it, text)))
        rows += [(port, "") for port in it.open]
        rows += [(port, self.begins(name, it, interface)) for port, interface in it.begins]
        told = {port for port, _ in rows} | it.absent
        for interface, at in it.interfaces.items():
            rows += [(port.name, self.value(f"{name}.{interface}", port)) for port in at.ports if port.name not in told]
        settings = self.system.settings.get(name, {})
        given = []
        for parameter, (kind, is_hdl) in it.parameters.items():
            word = settings.get(parameter, it.defaults.get(parameter))
            if is_hdl and word is not None:
                given.append(f".{parameter}({literal(kind, word)})")
        parameters = f" #({', '.join(given)})" if given else ""
        ports = ",\n".join(f"    .{named(port)}({value})" for port, value in rows)
        self.body.append(f"\n  {named(it.module)}{parameters} {named(name)} (\n{ports}\n  );")

    def interconnect(self, with_checks):
        root = self.root()
        clock = self.clock_from(root) if root else self.source_port(self.main, "clk")
        # what resets a component that it joins resets the module too
        resets = [self.source_port(self.main, "reset")]
        for name in dict.fromkeys(end.split(".")[0] for ends in self.system.logic() for end in ends):
            for interface, at in self.system.instances[name].interfaces.items():
                if at.kind == "reset" and not at.is_start:
                    resets += self.resets_to(f"{name}.{interface}")
        rows = [("clk", clock), ("reset", " | ".join(dict.fromkeys(resets)))] + [(name, name) for name, _, _ in self.header.ports]
        ports = ",\n".join(f"    .{port}({value})" for port, value in rows)
        self.body.append(f"\n  {self.header.name}_interconnect interconnect_0 (\n{ports}\n  );")
        if with_checks:
            self.body.append(f"\n  {self.header.name}_checks checks_0 (\n{ports}\n  );")

    def text(self, with_checks):
        self.source_port(self.main, "clk")
        self.source_port(self.main, "reset")
        for name, it in self.system.instances.items():
            if name not in self.sources:
                self.instance(name, it)
        self.interconnect(with_checks)
        clashes = set(self.ports) & ({*self.system.instances} - set(self.sources) | {"interconnect_0", "checks_0"})
        if clashes:
            raise Fault(f"an instance and a port of the top level are both named {min(clashes)}")
        return self.written()

    def written(self):
        ways = {"input": "input wire", "output": "output wire", "bidir": "inout wire"}
        ports = ",\n".join(f"  {ways[way]} {ranged(width)}{name}" for name, (way, width) in self.ports.items())
        lines = [f"// The top level of the system {self.header.name}: its components, and the generated module that lies between them.",
                 f"module {self.header.name}_top (\n{ports}\n);"]
        told = {name: width for name, width, _ in self.header.ports if name.endswith(("$grant", "$dropped")) or name in self.partly}
        joined = {name: width for name, width, _ in self.header.ports if name not in told}
        lines += [f"  wire {ranged(width)}{name};" for name, width in (joined | self.wires).items()]
        if told:
            lines += ["  // to look at, as the host that is served and beats that a sink doesn't take, or used in part",
                      "  /* verilator lint_off UNUSEDSIGNAL */"]
            lines += [f"  wire {ranged(width)}{name};" for name, width in told.items()]
            lines.append("  /* verilator lint_on UNUSEDSIGNAL */")
        body = "\n".join(self.body)
        if "()" in body:
            lines.append("  /* verilator lint_off PINCONNECTEMPTY */")
        return "\n".join(lines + [body, "endmodule", ""])


BENCH = """
// Runs the top level behind a reset for {cycles} cycles, and writes all waves to {name}.vcd.
module {name}_bench;
  reg clk = 0;
  reg reset = 1;
{signals}
  {name}_top {name}_top (
{rows}
  );

  always #5 clk = ~clk;
  initial begin
    $dumpfile("{name}.vcd");
    $dumpvars(0, {name}_bench);
    // the first cycle begins behind the second edge
    repeat (2) @(posedge clk);
    #1 reset = 0;
    repeat ({cycles}) @(posedge clk);
    $finish;
  end
endmodule
"""


def bench(top, cycles):
    """A test bench: clock, reset, so many cycles, and a file of waves. All clocks are one, and further inputs are 0."""
    driven = {f"{source}_{kind}": kind for source in top.sources for kind in ("clk", "reset")} | {"clk": "clk", "reset": "reset"}
    signals = ""
    for port, (way, width) in top.ports.items():
        if port not in driven:
            signals += f"  reg {ranged(width)}{port} = 0;\n" if way == "input" else f"  wire {ranged(width)}{port};\n"
    rows = ",\n".join(f"    .{port}({driven.get(port, port)})" for port in top.ports)
    return BENCH.format(name=top.header.name, cycles=cycles, signals=signals, rows=rows)


def main():
    words = argparse.ArgumentParser(description=LONG, formatter_class=argparse.RawDescriptionHelpFormatter)
    words.add_argument("text")
    words.add_argument("system")
    words.add_argument("components", nargs="*", metavar="component")
    words.add_argument("--bench", type=int, metavar="CYCLES", 
                       help="also write a test bench, NAME_bench, that runs so many cycles and writes NAME.vcd")
    words.add_argument("--checks", action="store_true", help="also put in NAME_checks, which checks.py writes")
    it = words.parse_args()
    header = Header(read_text(it.text), it.text)
    system = System(read_text(it.system), components_of(it.components))
    notes = []
    top = Top(header, system, notes)
    text = top.text(it.checks)
    if it.bench is not None:
        text += bench(top, it.bench)
    print(text, end="")
    for note in dict.fromkeys(notes):
        print(f"top.py: {note}", file=sys.stderr)


if __name__ == "__main__":
    run(main)
