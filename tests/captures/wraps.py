"""A flow of datagrams so fast that its identifications return within a second: 200,000 packets through a simulated queue.

The lines are those that tshark writes, made here, since captures of that size are too large to keep.
"""

import gzip
import os
import random
import resource
import subprocess
from collections import deque
from collections.abc import Callable
from pathlib import Path

import commands

PACKETS = 200_000
GAP = 10_000  # nanoseconds from packet to packet
SERVED = 9_700  # and for each in the queue
LIMIT = 500
START = 1_800_000_000 * 10**9
SLOWEST = 60  # seconds of processor time, several times what it takes
LENGTH = 128
Flow = list[tuple[int, int, int | None]]  # each packet's number, and when it came and left


def flow(seed: int) -> Flow:
    """Packets at random times through a queue that loses some."""
    chance = random.Random(seed)
    time, free = START, 0
    inside: deque[int] = deque()
    found: Flow = []
    for number in range(PACKETS):
        time += chance.randrange(2 * GAP)
        while inside and inside[0] <= time:
            inside.popleft()
        if len(inside) < LIMIT and chance.random() > 0.002:
            free = max(free, time) + SERVED
            inside.append(free)
            found.append((number, time, free))
        else:
            found.append((number, time, None))
    return found


def no_checksum(_: int) -> int:
    """That of senders that make none."""
    return 0


def checksum(number: int) -> int:
    """One that few packets share."""
    return 1 + number * 7919 % 65521


def line(time: int, identification: int, checksum: int) -> str:
    """What tshark writes of one datagram."""
    return (f"0x0800\t{time // 10**9}.{time % 10**9:09}\t4500{LENGTH:04x}{identification % 65536:04x}0000401100000a0001040a000202"
            f"1b5c01bb{LENGTH - 20:04x}{checksum:04x}{'':064}\n")


def write(path: Path, times: list[tuple[int, int]], sum_of: Callable[[int], int], numbered: bool) -> None:
    """Writes the lines of a capture, given numbers and times."""
    with gzip.open(path.with_suffix(".gz"), "wt", compresslevel=1) as file:
        file.writelines(line(time, number * numbered, sum_of(number)) for number, time in times)
    path.with_suffix(".pcap").touch()


def right_trace(packets: Flow, first: int) -> str:
    """The trace of the packets from this time on, which are numbered from 1."""
    lines = ["switch,qid,uid,srcip,dstip,srcport,dstport,proto,pkt_len,payload_len,tcpseq,tin,tout,qsize"]
    inside: deque[int] = deque()
    seen = [packet for packet in packets if packet[1] >= first]
    second = seen[0][1] // 10**9 * 10**9
    for uid, (_, came, left) in enumerate(seen, 1):
        while inside and inside[0] <= came:
            inside.popleft()
        out = "inf" if left is None else left - second
        lines.append(f"1,0,{uid},10.0.1.4,10.0.2.2,7004,443,17,{LENGTH},{LENGTH - 28},0,{came - second},{out},{len(inside)}")
        if left is not None:
            inside.append(left)
    return "\n".join(lines) + "\n"


def trace_of(folder: Path) -> tuple[subprocess.CompletedProcess[str], float]:
    """What the script makes of the captures of a folder, and the processor time that it takes."""
    words = [str(commands.SCRIPTS / "trace-from-captures"), "before.pcap", "after.pcap"]
    spent = resource.getrusage(resource.RUSAGE_CHILDREN)
    done = commands.run(words, folder, folder)
    now = resource.getrusage(resource.RUSAGE_CHILDREN)
    return done, now.ru_utime + now.ru_stime - spent.ru_utime - spent.ru_stime


def check_wraps(tally, room: Path) -> None:
    """First captures that begin late, and one that ends early, with checksums that say nothing and with such as tell packets."""
    seed = int(os.environ.get("MARPLE_SEED", random.randrange(10**6)))
    packets = flow(seed)
    middle, end = packets[PACKETS // 2][1], packets[-80_000][1]
    for name, begin, stop, sum_of, numbered in (
        ("begun 1 ms late", START + 10**6, None, no_checksum, True),
        ("begun 10 ms late", START + 10**7, None, no_checksum, True),
        ("begun a second late", middle, None, no_checksum, True),
        ("begun a second late, with checksums and no identifications", middle, None, checksum, False),
        ("ended early", START, end, no_checksum, True),
    ):
        folder = room / name.replace(" ", "-").replace(",", "")
        folder.mkdir()
        seen = [packet for packet in packets if begin <= packet[1] and (stop is None or packet[1] <= stop)]
        write(folder / "before", [(number, came) for number, came, _ in seen], sum_of, numbered)
        write(folder / "after", [(number, left) for number, _, left in packets if left is not None], sum_of, numbered)
        done, spent = trace_of(folder)
        wanted = right_trace([packet for packet in packets if stop is None or packet[1] <= stop], begin)
        tally.check(done.returncode == 0 and done.stdout == wanted, f"the trace of a first capture {name} (seed {seed}),")
        tally.check(spent < SLOWEST, f"{spent:.0f} s of processor time for a first capture {name}:")
        differing = sum(1 for one, other in zip(done.stdout.splitlines(), wanted.splitlines()) if one != other)
        if done.stdout != wanted:
            print(f"  {differing} lines differ; {done.stderr!r}")
