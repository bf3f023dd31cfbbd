#!/usr/bin/env python3
"""Writes the rows of hosts with `response` as crates/bus_rows/stdin has them: coded_rows.py.

Each runs for as many cycles as bench/bus_model.py needs until nothing is left. Behind them stand rows that were drawn, with codes.
"""
from random import Random

from bus_model import Row, answer
from judge_rows import draw_codes, draw_row

MOST_TENS = 29
WIDTHS = [8, 16, 32, 64, 128]
TIMES = ["wait=0,pending=4,latency=1", "wait=0,pending=4,latency=3", "fixed,latency=0", "fixed,latency=1", "fixed,latency=3"]
SAID = TIMES[1]


def timed(ends, *accesses):
    """A row with the tens of cycles that it needs, None where it needs too many; further hosts stand among the accesses."""
    short, tens = 0, MOST_TENS + 1
    while short + 1 < tens:
        middle = MOST_TENS if tens > MOST_TENS else (short + tens) // 2
        if list(answer(" ".join([*ends, f"{middle}0", *accesses])))[-1] == "nothing left, the rules were kept":
            tens = middle
        elif middle == MOST_TENS:
            return None
        else:
            short = middle
    return " ".join([*ends, f"{tens}0", *accesses])


def codes(random, least=3):
    """Codes that aren't all alike, as many as no power of two."""
    while True:
        drawn = "".join(random.choice("0123") for _ in range(random.choice([3, 5, 7, 11])))
        if len(set(drawn)) >= least:
            return drawn


def lanes(random, bits):
    """Some of a word's lanes; each of its halves now and then alone."""
    count = bits // 8
    some = random.choice([random.getrandbits(count), 1 << random.randrange(count), ((1 << count) - 1) >> count // 2])
    return f"{some or 1:x}"


def agent(bits, times, coded, *more):
    """An agent of 256 bytes; its words are told apart by `first`."""
    address = 8 - (bits // 8).bit_length() + 1
    return ",".join([f"{bits},rw,address={address}", times, *([f"codes={coded}"] if coded else []), f"first={bits:x}0", *more])


def host(bits, *more):
    return ",".join([f"{bits},rw,address=10", *more])


def spread(random, bits, times, enables):
    """Reads at places all over, of whole words, then where there are byte enables of some of their lanes."""
    bytes_ = bits // 8
    reads = [f"r{random.randrange(256 // bytes_) * bytes_:x}" for _ in range(times)]
    some = [f"r{random.randrange(256 // bytes_) * bytes_:x}/{lanes(random, bits)}" for _ in range(times)]
    return reads + (some if enables else [])


def plain_rows():
    yield "# the code of a word comes with it, whatever the agent's timing, to hosts with readdatavalid and without"
    for times in TIMES:
        for valid in (["valid"], []):
            yield timed([host(32, *valid, "response"), agent(32, times, "0123310")], "r0*8", "w4=5", "r4*3", "+3", "r8")
    yield "# the reserved code is passed on as it is, through each kind of link; and each other code alone"
    for bits, other in [(32, 32), (32, 8), (8, 32), (64, 16), (16, 128)]:
        yield timed([host(bits, "valid", "response"), agent(other, SAID, "1", "enables")], f"r{bits // 8:x}*3")
    yield timed([host(8, "valid", "response", "burst=4"), agent(32, SAID, "1", "enables")], "r1:7")
    yield timed([host(32, "valid", "response", "burst=4"), agent(32, SAID, "1", "burst=2")], "r4:7")
    for code in "023":
        yield timed([host(32, "valid", "response"), agent(16, SAID, code)], "r4*3")
    yield "# an agent without response says 0, and the default agent 3, also where no lane is asked of it"
    plain, coded = agent(32, SAID, None), agent(32, "fixed,latency=1", "2103", "at=100")
    yield timed([host(32, "valid", "response"), plain, coded], "r0*3", "r100*4", "r200*2", "r0", "r300", "r104")
    yield timed([host(32, "response"), plain, coded], "r0*3", "r100*4", "r200*2", "r0", "r300", "r104")
    yield timed([host(32, "valid", "response", "enables"), agent(32, SAID, None, "enables"), agent(16, "wait=0,pending=2,latency=2", "2103", "at=100")],
                "r200/0", "r100/1", "r204/3", "r104/c", "r0/1", "r208")
    yield timed([host(32, "valid", "response", "burst=3"), plain, coded], "r0:4", "r200:4", "r100:4", "r300:2", "r104:2")
    yield "# a read of an agent that is only written has code 3; hosts and agents that only write may have response"
    yield timed([host(32, "valid", "response"), "32,w,address=6,wait=0,codes=1", "32,r,address=6,at=100,fixed,latency=1,first=10,codes=0213"],
                "r0*2", "w0=5", "r100*4", "w100=6", "r0")
    yield timed(["32,w,address=10,response", "32,rw,address=6,wait=0,latency=1,pending=2,codes=3,from=0+1"], "w0=5*4",
                host(32, "valid", "response"), "r0*4")
    yield timed([host(32, "valid"), "32,rw,address=6,wait=0,latency=1,pending=2,codes=1230"], "r0*4")
    yield "# words that come late, and agents that stall"
    for late in ["wait=01,pending=2,latency=1,late=0110", "wait=110,pending=1,latency=4", "readwait=2,writewait=1,pending=3,latency=2,late=001", "readwait=1,fixed,latency=2"]:
        yield timed([host(32, "valid", "response"), agent(32, late, "01230")], "r0*8", "w0=5", "r0*2")
    yield timed([host(32, "valid", "response"), agent(32, "wait=0,pending=16,latency=25", "0123021")], "r0*17")


def width_rows(random):
    yield "# each pair of widths: whole words and some of their lanes; codes of pieces that aren't read don't count"
    for bits in WIDTHS:
        for other in WIDTHS:
            times = random.choice(TIMES)
            yield timed([host(bits, "valid", "response", "enables"), agent(other, times, codes(random), "enables")], *spread(random, bits, 6, True))
    yield "# before agents without byte enables, and of hosts without them"
    for bits in WIDTHS:
        for other in WIDTHS:
            if other <= bits:
                valid = ["valid"] if random.random() < 0.8 else []
                enables = ["enables"] if random.random() < 0.6 else []
                yield timed([host(bits, *valid, "response", *enables), agent(other, random.choice(TIMES), codes(random))],
                            *spread(random, bits, 6, enables))
    yield "# each pattern of lanes, with the greatest code in each piece in turn"
    patterns = [f"r0/{k:x}" for k in range(1, 16)]
    for coded in ["0123", "3210", "1320", "2031"]:
        yield timed([host(32, "valid", "response", "enables"), agent(8, "fixed,latency=1", coded, "enables")], *patterns)
    yield timed([host(32, "valid", "response", "enables"), agent(16, "wait=0,pending=4,latency=1", "31", "enables")], *patterns)
    yield timed([host(32, "valid", "response", "enables"), agent(8, "wait=0,pending=4,latency=2", "2031")], *patterns)
    yield timed([host(32, "valid", "response", "enables"), agent(16, "fixed,latency=0", "12")], *patterns)
    yield "# one piece of sixteen"
    for coded in ["3" + 15 * "0", "3" + 15 * "1", 15 * "0" + "2", 7 * "1" + "3" + 8 * "0"]:
        yield timed([host(128, "valid", "response", "enables"), agent(8, "wait=0,pending=4,latency=1", coded, "enables")], "r0", "r0/fffe", "r0/7fff", "r0/ff7f", "r0/1", "r0/8000")


def burst_rows(random):
    yield "# bursts between each pair of widths; a narrower host's words have the code of the wide word that is read for them"
    for bits in WIDTHS:
        for other in WIDTHS:
            bytes_, most = bits // 8, random.choice([2, 3, 5])
            enables = ["enables"] if other > bits or random.random() < 0.5 else []
            take = [f"burst={random.choice([1, 2, 4])}"] if random.random() < 0.6 else []
            longest = 1 << most - 1
            reads = [f"r{random.randrange(128 // bytes_) * bytes_:x}:{random.randint(1, longest)}" for _ in range(4)]
            yield timed([host(bits, "valid", "response", f"burst={most}"), agent(other, random.choice(TIMES[:2]), codes(random), *enables, *take)], *reads)
    yield "# wide words that are read once for several words, at each place, at fixed latencies, and behind other reads"
    for place in range(8):
        yield timed([host(8, "valid", "response", "burst=5"), agent(64, TIMES[0], "3102013", "enables")], f"r{place:x}:16")
    for latency in [0, 1, 2, 3, 15]:
        yield timed([host(8, "valid", "response", "burst=5"), agent(32, f"wait=0,fixed,latency={latency}", "3102013", "enables")], "r1:16", "r6:5", "w2=a1:3", "r0:8")
    yield timed([host(16, "valid", "response", "burst=4", "enables"), agent(64, "wait=0,pending=2,latency=6,late=01", "0231", "enables")], "r2:8", "r4/2:7", "r0/1:4", "r10:8")
    yield timed([host(32, "valid", "response", "burst=4"), agent(128, "wait=01,pending=4,latency=2", "021", "enables")], "r4:8", "r8:3", "rc:1", "r0:4")
    yield "# bursts that are cut, and that pass the end of the span"
    for take in [1, 2, 3]:
        yield timed([host(32, "valid", "response", "burst=5"), agent(32, SAID, "0123120", f"burst={take}")], "r0:16", "w8=5:7", "r8:7", "rf8:5")
    yield timed([host(32, "valid", "response", "burst=5"), agent(32, TIMES[3], "0123120")], "r0:16", "rf8:5")
    yield timed([host(32, "valid", "response", "burst=5", "enables"), agent(8, SAID, "01231"), ], "r0:4", "r8/5:3", "rf8/c:4")
    yield timed([host(32, "valid", "response", "burst=3", "enables"), agent(64, SAID, "01231", "enables"), ], "r0:4", "r8/5:3", "rfc/c:4")


def stage_rows():
    yield "# behind stages, at each number of them: a wire, pieces, a place in a wide word, wide words that are read once, bursts"
    for stages in range(5):
        behind = [f"stages={stages}"]
        yield timed([host(32, "valid", "response"), agent(32, SAID, "0123120"), *behind], "r0*8", "r200", "r4")
        yield timed([host(32, "response", "enables"), agent(8, TIMES[3], "0123120", "enables"), *behind], "r0*2", "r8/6", "r10/9", "r200", "r4/8")
        yield timed([host(16, "valid", "response"), agent(64, TIMES[2], "0123120", "enables"), *behind], "r0*6", "r200", "r10*3")
        yield timed([host(8, "valid", "response", "burst=4"), agent(32, TIMES[0], "0123120", "enables"), *behind], "r1:8", "r6:5", "r200:2", "r9:3")
        yield timed([host(64, "valid", "response", "burst=3", "enables"), agent(16, SAID, "3120", "burst=2"), *behind], "r0:3", "r8/3c:4", "r18/81:2")


def host_rows(random):
    yield "# hosts with response and without at one agent: each is given its own codes"
    for times in TIMES:
        yield timed([host(32, "valid", "response"), agent(32, times, "0123120", "from=0+1+2")], "r0*6",
                    host(32, "valid", "response"), "r8*6", host(32, "valid"), "r4*4")
    yield timed([host(32, "response"), agent(32, SAID, "0123120", "enables", "from=0*2+1*3+2")], "r0*4",
                host(8, "valid", "response", "burst=4"), "r1:8", "r20:5", host(64, "valid", "response", "enables"), "r0*3", "r8/f0", "r10/1")
    yield timed([host(128, "valid", "response", "enables"), agent(8, "wait=001,pending=4,latency=2", "01231", "from=0+1+2+3")], "r0/8001", "r10/3",
                host(8, "response"), "r3*4", host(16, "valid"), "r2*4", host(32, "valid", "response", "burst=3"), "r8:3")
    for stages in (1, 3):
        yield timed([host(32, "valid", "response"), agent(32, SAID, "0123120", "enables", "from=0+1+2"), f"stages={stages}"], "r0*5",
                    host(64, "valid", "response"), "r8*3", host(16, "valid", "response", "burst=3"), "r2:4", "r6:3")
    yield "# hosts with agents of their own beside a shared one, with response and without"
    yield timed([host(32, "valid", "response"), agent(32, SAID, "0123", "from=0+1"), agent(16, TIMES[3], None, "at=100"), agent(32, TIMES[1], "32", "at=200", "from=1")],
                "r0*3", "r100*2", "r8", "r200", host(32, "response"), "r200*3", "r0*3", "r300")
    yield timed([host(32, "valid"), agent(32, SAID, "0123", "from=0+1"), agent(8, TIMES[4], "3210", "at=100", "from=1")],
                "r0*3", "r200", host(32, "valid", "response", "enables"), "r100*3", "r0*3", "r104/6", "r300")
    yield "# five agents, and sixteen hosts"
    agents = [agent(WIDTHS[k], TIMES[k], codes(random), "enables", f"at={k * 256:x}") for k in range(5)]
    for bits in (8, 32, 128):
        yield timed([f"{bits},rw,address=12,valid,response", *agents], *[f"r{(k * 7 % 5) * 256 + k * 16:x}" for k in range(15)], "r800")
    first, *others = [host(8, *(["valid"] if k % 3 else []), *(["response"] if k % 4 else [])) for k in range(16)]
    shown = [word for k, each in enumerate(others, 1) for word in (each, f"r{k:x}", f"r{2 * k:x}")]
    yield timed([first, agent(8, SAID, "0123120", "from=" + "+".join(map(str, range(16))))], "r0*2", *shown)


def drawn_rows(random, count):
    yield "# drawn at random, with codes"
    while count:
        row = draw_codes(random, draw_row(random))
        ends, accesses = (part.split() for part in row.split(" 700 "))
        if any(each.response and each.reads for each in Row(row).hosts) and len(row) < 900 and (row := timed(ends, *accesses)):
            yield row
            count -= 1


if __name__ == "__main__":
    drawing = Random(17)
    for rows in (plain_rows(), width_rows(drawing), burst_rows(drawing), stage_rows(), host_rows(drawing), drawn_rows(drawing, 40)):
        print("\n".join(rows))
