"""A pair of captures that was taken of a token bucket with all kinds of traffic, and what becomes of it in wrong hands.

Datagrams beside TCP, IPv6 beside IPv4, bulk in both directions, offload on and tcpdump as it is by default: the right way round
the losses are those that the queue counted. Swapped, given twice, empty or cut there is no trace, or one of what is there.
"""

import gzip
import shutil
import struct
from pathlib import Path

import commands
from checker import ipv6_to, trace

HERE = Path(__file__).resolve().parent
TAKEN = HERE / "taken" / "mixed"
LONGEST = 4396  # bytes of a packet that the queue takes whole
COMPLAINT = 'tshark: The file "cut.pcap" appears to have been cut short in the middle of a packet.\n'
AGAIN = "(--force makes one all the same)"


def ran(words: list[str], folder: Path) -> tuple[int, str, list[str]]:
    """The status of the script, its trace and what it says."""
    folder_of_text = folder / "kept"
    done = commands.run([str(commands.SCRIPTS / "trace-from-captures"), *words], folder, folder_of_text)
    return done.returncode, done.stdout, [line.removeprefix("trace-from-captures: ") for line in done.stderr.splitlines()]


def prepare(folder: Path) -> int:
    """Writes the captures and their text, an empty one and one cut in the middle of a packet; how many whole ones that has."""
    shutil.copytree(HERE / "kept" / "mixed", folder / "kept")
    data = {}
    for name in ("before", "after"):
        data[name] = gzip.decompress((TAKEN / f"{name}.pcap.gz").read_bytes())
        (folder / f"{name}.pcap").write_bytes(data[name])
    (folder / "copy.pcap").write_bytes(data["before"])
    shutil.copy(folder / "kept" / "before.gz", folder / "kept" / "copy.gz")
    (folder / "empty.pcap").write_bytes(data["after"][:24])
    (folder / "kept" / "empty.gz").write_bytes(gzip.compress(b""))
    starts = [24]
    while starts[-1] < len(data["after"]):
        starts.append(starts[-1] + 16 + struct.unpack_from("<I", data["after"], starts[-1] + 8)[0])
    whole = len(starts) // 2
    (folder / "whole.pcap").write_bytes(data["after"][: starts[whole]])
    (folder / "cut.pcap").write_bytes(data["after"][: starts[whole] + 40])
    lines = gzip.decompress((folder / "kept" / "after.gz").read_bytes()).splitlines(keepends=True)
    (folder / "kept" / "cut.gz").write_bytes(gzip.compress(b"".join(lines[:whole])))
    (folder / "kept" / "cut.complaint").write_text(COMPLAINT)
    return whole


def without_unseen(text: str) -> str:
    """A trace without the packets that came after the last one left and are the last ones."""
    lines = text.splitlines(keepends=True)
    end = max(int(line.split(",")[12]) for line in lines[1:] if ",inf," not in line)
    last = max(place for place, line in enumerate(lines) if place and ",inf," not in line)
    return "".join(line for place, line in enumerate(lines) if place <= last or int(line.split(",")[11]) <= end)


def check_mixed(tally, room: Path) -> None:
    """The pair the right way round, and in wrong hands."""
    folder = room / f"mixed-{tally.mode}"
    folder.mkdir()
    prepare(folder)
    right = trace(folder / "before.pcap", folder / "after.pcap", "10.0.1.0/24", LONGEST, 1448, True)
    status, text, said = ran(["before.pcap", "after.pcap"], folder)
    tally.same((status, text), (0, right), "the trace of mixed traffic")
    wanted = (TAKEN / "messages").read_text().replace("trace-from-captures: ", "").splitlines()
    tally.same(said, wanted, "the messages of mixed traffic")
    others = ipv6_to(folder / "before.pcap", "fd00:2::2") - ipv6_to(folder / "after.pcap", "fd00:2::2")
    dropped = commands.dropped(TAKEN / "qdisc.txt")
    tally.same(text.count(",inf,") + others, dropped, "its losses, with those of IPv6, against the count of the queue")
    tally.check(0 < others < dropped, "losses of both kinds")
    check_wrong_hands(tally, folder)
    check_cut(tally, folder)


def check_wrong_hands(tally, folder: Path) -> None:
    """Swapped, given twice, copied, empty."""
    back = trace(folder / "after.pcap", folder / "before.pcap", "10.0.2.0/24", 65535, 1448, False)
    status, text, said = ran(["after.pcap", "before.pcap"], folder)
    tally.same((status, text), (0, back), "the trace of mixed traffic with swapped files")
    sizes = [sum(int(line.split(",")[8]) for line in one.splitlines()[1:] if ",inf," not in line)
             for one in (trace(folder / "before.pcap", folder / "after.pcap", "10.0.1.0/24", LONGEST, 1448, True), back)]
    note = f"{100 * sizes[0] / sum(sizes):.0f} % of the bytes and "
    tally.check(any(line.startswith(note) and line.endswith(" the other way: for those give before.pcap first") for line in said),
                "what is said of swapped files:", said)
    for words, reason in (
        (["before.pcap", "before.pcap"], "before.pcap is given twice: give the capture before the queue and the one after it"),
        (["before.pcap", "copy.pcap"], "each packet left in the nanosecond in which it came: copy.pcap is a copy of before.pcap"),
        (["before.pcap", "empty.pcap"], "empty.pcap has no packets, so nothing says what left"),
        (["--both-directions", "before.pcap", "after.pcap"], None),
    ):
        status, text, said = ran(words, folder)
        tally.same((status, text), (1, ""), "the trace of", *words)
        if reason is not None:
            tally.same(said[-1], f"no trace: {reason} {AGAIN}", "what is said of", *words)
        tally.check("two clocks" not in said[-1], "one clock in", said[-1])


def check_cut(tally, folder: Path) -> None:
    """A second capture that is cut in the middle of a packet."""
    right = trace(folder / "before.pcap", folder / "whole.pcap", "10.0.1.0/24", LONGEST, 1448, True)
    status, text, said = ran(["before.pcap", "cut.pcap"], folder)
    tally.same((status, text), (0, without_unseen(right)), "the trace of a capture that was cut")
    tally.same(said[0], "cut.pcap ends in the middle of a packet: the whole ones before it were taken", "what is said of it")
