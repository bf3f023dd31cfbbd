#!/usr/bin/env python3
"""What crates/scenario_rows must print behind its rows: workload systems and drawn scenarios, from docs/FORMATS.md alone."""


class Generator:
    def __init__(self, number, lane):
        self.x = 8 * number + lane

    def draw(self, k):
        self.x = (6364136223846793005 * self.x + 1442695040888963407) % 2**64
        return (self.x >> 33) % k


class System:
    def __init__(self, n):
        self.hosts = [8 * 2 ** ((n + i) % 4) // 8 for i in range(1 + n % 4)]  # bytes of a word
        self.agents = [8 * 2 ** ((n + 2 * j) % 4) // 8 for j in range(1 + n // 4 % 6)]
        self.streams = [(1 + (n + k) % 4, 1 + (n + 2 * k) % 4) for k in range(n % 3)]

    def weight(self):
        h, a, s = len(self.hosts), len(self.agents), len(self.streams)
        return 64 + 2048 * h + 8192 * a + 1024 * h * a + 8192 * s


def tell_host(g, system, number, out):
    word = system.hosts[number]
    lanes = 2**word - 1
    for _ in range(16):
        q = g.draw(4)
        if q == 3:
            out.append(f"idle h{number}.m {1 + g.draw(8)}")
            continue
        base = 0x1000 * g.draw(len(system.agents))
        address = base + g.draw(max(1, 0x1000 // word)) * word
        if q < 2:
            value = sum(g.draw(256) << (8 * lane) for lane in range(word))
            out.append(f"write h{number}.m {address:08x} {lanes:x} {value:x}")
        else:
            out.append(f"read h{number}.m {address:08x} {lanes:x} 1")


def pattern(g):
    return "".join("1" if g.draw(4) == 0 else "0" for _ in range(16))


def drawn(n, lane, cycles, of=None):
    """What number n draws for a lane of the workload system `of`, its own if none is said."""
    g, system, out = Generator(n, lane), System(n if of is None else of), [f"drawn {n} lane {lane}", f"cycles {cycles}"]
    for number in range(len(system.hosts)):
        tell_host(g, system, number, out)
    for number in range(len(system.agents)):
        out.append(f"stall a{number}.s {pattern(g)}")
        out.append(f"latency a{number}.s {1 + g.draw(8)}")
    sinks = []
    for number, (symbols, _) in enumerate(system.streams):
        for _ in range(32):
            word = 0
            for _ in range(symbols):  # the first symbol has the high-order bits
                word = word << 8 | g.draw(256)
            out.append(f"beat s{number}.o {word:x} 0 0 se 0")
        sinks.append(f"stall k{number}.i {pattern(g)}")
    return out + sinks


def main():
    for n in [*range(48), 2**32 - 1]:
        system = System(n)
        print(f"workload {n} weight {system.weight()} hosts {len(system.hosts)} agents {len(system.agents)} streams {len(system.streams)}")
    for n, lane, cycles in [(0, 0, 1), (7, 0, 2000), (23, 5, 256), (2**32 - 1, 7, 65536)]:
        print("\n".join(drawn(n, lane, cycles)))


if __name__ == "__main__":
    main()
