"""packets.py: packets that were worked out by hand, drawn ones and back, and faulty bytes and lines by their places."""
import subprocess
import sys
from random import Random

from parts import HELPERS, must

from packets import Fault, make, pack, replies, script_of, unpack

SCRIPT = "# a row\nwrite 0x0 11 22 33 44\n\nread 0 4\nchannel 3\nnothing\n"
SENT = "7c007a04000004000000001122337b44 7c007a140000040000007b00 7c037a7b7f"
GOT = "7c007a8400007b04 7c007a1122337b44 7c037aff00007b00"


def same(found, due):
    must(found == due, f"{found!r}", f"isn't {due!r}")


def refused(place, call):
    try:
        call()
    except Fault as fault:
        must(str(fault).startswith(f"{place}:"), f"{fault} isn't at {place}")
        return
    must(False, f"nothing is wrong at {place}")


def marked():
    for channel, data, due in [(0, "84000004", "7c007a8400007b04"), (0, "ff000000", "7c007aff00007b00"), (1, "09", "7c017a7b09"),
                               (0x7D, "7a7b7c7d", "7c7d5d7a7d5a7d5b7d5c7b7d5d"), (0, "797e", "7c007a797b7e")]:
        same(pack(channel, bytes.fromhex(data)).hex(), due)
    for stream, due in [("7a7f7b7d5a", [(0, b"\x7f\x7a")]), ("7c057a7b017b7a02", [(5, b"\1"), (5, b"\2")]), ("7a7b7d21", [(0, b"\1")]), ("", [])]:
        same(list(unpack(bytes.fromhex(stream))), due)
    for stream, place in [("7c7a", 1), ("41", 0), ("7b7d21", 1), ("7a017a02", 3), ("7a017c0302", 4), ("7a01", 2), ("7a", 1), ("7c", 1), ("7a7b7d", 3), ("7c05", 2)]:
        refused(f"byte {place}", lambda it=bytes.fromhex(stream): list(unpack(it)))


def drawn(count):
    draw = Random(1)
    for _ in range(count):
        some = []
        for _ in range(draw.randrange(4)):
            data = [draw.choice([draw.randrange(256), 0x7A + draw.randrange(4)]) for _ in range(draw.randrange(1, 30))]
            some.append((draw.randrange(256), bytes(data)))
        same(list(unpack(b"".join(pack(channel, data) for channel, data in some))), some)


def scripts():
    same(make(SCRIPT), bytes.fromhex(SENT))
    same(list(script_of(bytes.fromhex(SENT))), ["write 0x0 11 22 33 44", "read 0x0 4", "channel 3", "nothing"])
    same(make("write 0x7a7b7c7d 7a").hex(), "7c007a040000017d5a7d5b7d5c7d5d7b7d5a")
    same(list(replies(SCRIPT, bytes.fromhex(GOT))), ["line 2: wrote 4 at 0x0", "line 4: read 11 22 33 44 from 0", "line 6: there"])
    same(list(replies(SCRIPT, bytes.fromhex(GOT)[:8]))[1:], ["line 4: no answer", "line 6: no answer"])
    for line in ["write 0x0", "read 0 0", "read 0 65536", "read 0x100000000 1", "write 0 100", "jump 4", "nothing 1", "channel 256", "read 1 2 3"]:
        refused("line 2", lambda it=line: make("\n" + it))


def calls():
    run = subprocess.run([sys.executable, HELPERS / "packets.py", "make"], input=SCRIPT.encode(), capture_output=True, check=True)
    same(run.stdout, bytes.fromhex(SENT))
    back = subprocess.run([sys.executable, HELPERS / "packets.py", "requests"], input=run.stdout, capture_output=True, check=True)
    same(back.stdout.decode().splitlines()[0], "write 0x0 11 22 33 44")
    bad = subprocess.run([sys.executable, HELPERS / "packets.py", "requests"], input=b"\x7c\x7a", capture_output=True, check=False)
    same((bad.returncode, bad.stderr.decode()), (1, "packets.py: byte 1: a mark in place of a channel\n"))


marked()
drawn(2000)
scripts()
calls()
print("packets.py: 2000 drawn streams read back, faults by their byte, scripts and replies line by line")
