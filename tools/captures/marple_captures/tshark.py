"""Reads captures by tshark: one line of columns for each packet, of which a record is made.

Columns of the packet list are several times cheaper than `-T fields`, for which tshark formats each field of each packet, and
cheaper still where it dissects nothing above the link: a header of 20 bytes is read here. Where a capture holds anything that
isn't so simple (other links, IP options, tunnels, very short snapshots), tshark dissects IP too, for all captures. TCP and UDP
it never dissects: what a record needs of them stands in the first bytes of the payload.
"""

import os
import shutil
import signal
import stat
import subprocess
import sys
import tempfile
import time
from collections.abc import Iterable, Iterator
from contextlib import ExitStack, contextmanager
from functools import lru_cache
from itertools import accumulate, chain, islice
from operator import sub
from pathlib import Path
from socket import inet_aton
from struct import Struct
from types import TracebackType
from typing import BinaryIO

from marple_captures import CaptureError
from marple_captures.records import LAYOUT, SHORT_LAYOUT, TCP, UDP, Spool

FIELDS = ("frame.time_epoch", "ip.src", "ip.dst", "ip.proto", "ip.hdr_len", "ip.len", "ip.id", "ip.frag_offset", "data.data")
TCP_SIZES = [4 * int(chr(digit), 16) if chr(digit) in "0123456789abcdef" else 0 for digit in range(256)]  # of a header's length
IP_HEADER = Struct(">BxHHHxB2x4s4sI")  # of 20 bytes, with the ports after it
SHORTEST = 66  # hexadecimal digits of an IP header of 20 bytes and of TCP's first 13
NEEDED = {b"6": 26, b"17": 8}  # hexadecimal digits of a transport header that a record needs, for TCP and UDP
IPV4 = (b"0x0800", b"0x0021")  # what tshark says of a link's payload that it doesn't dissect: as Ethernet and as PPP number it
IPV6 = (b"0x86dd", b"0x0057")
IP_IN_IPV6 = b"04"
CUT_SHORT = "appears to have been cut short in the middle of a packet."
ENDING = {signal.SIGHUP, signal.SIGINT, signal.SIGTERM}
TURN = 512  # lines that are read of one capture before the next one has its turn


class NotSimple(Exception):
    """A packet for which tshark has to dissect IP."""


def command(capture: str, simple: bool) -> list[str]:
    """The words that make tshark write columns, separated by tabs, for each packet of a capture."""
    columns = [f'"{field}","%Cus:{field}:1:U"' for field in FIELDS]
    without = ["tcp", "udp"]
    if simple:
        columns = ['"protocol","%p"', columns[0], columns[-1]]
        without += ["ip", "ipv6"]
    return ["tshark", "-r", capture, "-n", "-T", "tabs", "-o", "gui.column.format:" + ",".join(columns),
            "-o", "ip.defragment:FALSE", *chain.from_iterable(("--disable-protocol", name) for name in without)]


@contextmanager
def signals_held() -> Iterator[None]:
    """Holds back the signals that end the command while processes start, so that none starts unseen."""
    before = signal.pthread_sigmask(signal.SIG_BLOCK, ENDING)
    try:
        yield
    finally:
        signal.pthread_sigmask(signal.SIG_SETMASK, before)


def need_tshark() -> None:
    """Says where tshark comes from if it isn't there."""
    if shutil.which("tshark") is None:
        raise CaptureError("needs tshark (on Debian and Ubuntu: apt-get install tshark)")


class Reading:
    """A tshark that reads one capture."""

    def __init__(self, capture: str, file: str, preferences: Path, simple: bool) -> None:
        self.capture = capture
        self.ends_inside = False
        self.complaints = tempfile.TemporaryFile()
        environment = os.environ | {"WIRESHARK_CONFIG_DIR": str(preferences)}
        self.process = subprocess.Popen(command(file, simple), stdout=subprocess.PIPE, stderr=self.complaints, env=environment)

    def __enter__(self) -> "Reading":
        return self

    def __exit__(self, kind: type[BaseException] | None, value: BaseException | None, trace: TracebackType | None) -> None:
        assert self.process.stdout is not None
        self.process.stdout.close()
        self.process.kill()  # a tshark that waits to write heeds no SIGTERM
        self.process.wait()
        self.complaints.close()

    def lines(self) -> Iterator[bytes]:
        """The lines of tshark; an error if it couldn't read the capture to its end, or to the packet in which it was cut."""
        assert self.process.stdout is not None
        yield from self.process.stdout
        if self.process.wait() != 0:
            complaint = self.complaint()
            self.ends_inside = complaint.endswith(CUT_SHORT)
            if not self.ends_inside:
                raise CaptureError(f"tshark cannot read {self.capture}: {complaint}")

    def complaint(self) -> str:
        """The first line that tshark wrote on standard error, but for its warning of a superuser."""
        self.complaints.seek(0)
        lines = self.complaints.read().decode(errors="replace").splitlines()
        return next((line for line in lines if not line.startswith("Running as user")), "no reason was given")


@lru_cache(maxsize=65536)
def address(text: bytes) -> bytes:
    """The four bytes of an address in dotted form."""
    return inet_aton(text.decode())


@lru_cache(maxsize=65536)
def head(*texts: bytes) -> tuple[int, ...]:
    """The numbers of columns that rarely differ."""
    return tuple(map(int, texts))


def nanoseconds(text: bytes) -> int:
    """The nanoseconds of a number of seconds."""
    seconds, _, part = text.partition(b".")
    return int(seconds + part.ljust(9, b"0")[:9])


def number_of(data: bytes, start: int, digits: int) -> int:
    """A number of this many hexadecimal digits, or 0 where a short snapshot lacks one of them."""
    text = data[start : start + digits].strip()
    return int(text, 16) if len(text) == digits else 0


def transport(protocol: int, data: bytes) -> tuple[int, int, int]:
    """Ports and sequence number in one word, the mark, and the bytes of the transport header."""
    if protocol == TCP:
        return number_of(data, 0, 8) << 32 | number_of(data, 8, 8), number_of(data, 16, 8), 4 * number_of(data, 24, 1)
    return (number_of(data, 0, 8) << 32, number_of(data, 12, 4), 8) if protocol == UDP else (0, 0, 0)


def record_of(line: bytes, number: int) -> tuple[int, bytes]:
    """The time of a packet of which tshark dissected IP, and its record: empty where it has no IPv4 header."""
    epoch, source, target, protocol_text, header_text, length, identification, offset_text, data = line.split(b"\t")
    moment = nanoseconds(epoch)
    if not source or not target:
        return moment, b""
    protocol, header, offset = head(protocol_text, header_text, offset_text)
    # A fragment after the first has no ports.
    word, mark, size = (0, 0, 0) if offset else transport(protocol, data)
    return moment, SHORT_LAYOUT.pack(address(source), address(target), word, int(identification, 16), protocol, offset,
                                     int(length), mark, header + size, number, moment)


def is_cut_off(line: bytes) -> bool:
    """Whether the snapshot of a packet of which tshark dissected IP ends inside the headers."""
    _, source, target, protocol, header, length, _, offset, data = line.split(b"\t")
    if not source or not target:
        return bool(header or length)
    return offset == b"0" and len(data.strip()) < NEEDED.get(protocol, 0)


def simple_record_of(line: bytes, number: int) -> tuple[int, bytes]:
    """The same of a packet of which tshark dissected the link."""
    kind, epoch, data = line.split(b"\t")
    moment = int(epoch[:-10] + epoch[-9:]) if epoch[-10:-9] == b"." else nanoseconds(epoch)
    if kind not in IPV4:
        if len(data) > 1 and (not kind.startswith(b"0x") or (kind in IPV6 and data[12:14] in (IP_IN_IPV6, b"\n"))):
            raise NotSimple
        return moment, b""
    digits = len(data) - 1
    if digits < SHORTEST:
        data = data[:-1].ljust(SHORTEST, b"0")
    first, length, identification, place, protocol, source, target, ports = IP_HEADER.unpack(bytes.fromhex(data[:48].decode()))
    offset = place & 0x1FFF
    if first != 0x45 or length < 20 or digits < 40:
        raise NotSimple
    sequence, mark, header = 0, 0, 20
    if offset or protocol not in (TCP, UDP):  # a fragment after the first has no ports
        ports = 0
    elif digits < (SHORTEST if protocol == TCP else 48):
        raise NotSimple
    elif protocol == TCP:
        sequence, mark = int(data[48:56], 16), int(data[56:64], 16)
        header += TCP_SIZES[data[64]]
    else:
        mark = number_of(data, 52, 4)
        header += 8
    return moment, LAYOUT.pack(source, target, ports, sequence, identification, protocol, offset, length, mark, header, number,
                               moment)


class Progress:
    """Says on a terminal, twice a second, how many packets were read."""

    def __init__(self, name: str, spools: list[Spool]) -> None:
        self.name = name
        self.spools = spools
        self.shown = sys.stderr.isatty()
        self.due = 0.0

    def show(self) -> None:
        """Writes the counts over those that stand there, if it is time to."""
        if self.shown and time.monotonic() >= self.due:
            self.due = time.monotonic() + 0.5
            counts = " and ".join(f"{spool.packets + spool.foreign:,}" for spool in self.spools)
            print(f"\r{self.name}: {counts} packets were read", end="", file=sys.stderr, flush=True)

    def clear(self) -> None:
        """Takes the line off the terminal."""
        if self.shown:
            print("\r\033[K", end="", file=sys.stderr, flush=True)


def least(known: int | None, time: int) -> int:
    """The lesser of two times, of which the first may not be known yet."""
    return time if known is None else min(known, time)


def fill(spool: Spool, lines: Iterable[bytes], file: BinaryIO, simple: bool) -> bool:
    """Writes the records of some lines; whether there were any."""
    record = simple_record_of if simple else record_of
    line = b""
    found = []
    try:
        for number, line in enumerate(lines, spool.packets + spool.foreign + 1):
            found.append(record(line, number))
            spool.cut_off += not simple and is_cut_off(line)
    except (ValueError, OSError) as error:
        raise CaptureError(f"tshark wrote a line that isn't understood: {line.decode(errors='replace').strip()}") from error
    if not found:
        return False
    moments = [moment for moment, _ in found]
    spool.back = max(spool.back, *map(sub, accumulate(moments, max, initial=spool.last or 0), moments))
    spool.first = least(spool.first, min(moments))
    spool.last = max(spool.last or 0, max(moments))
    records = [record for _, record in found if record]
    if records:
        spool.begin = least(spool.begin, min(moment for moment, record in found if record))
    file.write(b"".join(records))
    spool.packets += len(records)
    spool.foreign += len(found) - len(records)
    return True


def read_side_by_side(name: str, captures: list[str], paths: list[Path]) -> list[Spool]:
    """Reads captures at the same time, each by a separate tshark, into spools at these paths."""
    files = [on_disk(capture, path.with_suffix(".capture")) for capture, path in zip(captures, paths, strict=True)]
    try:
        return read_all(name, captures, files, paths, simple=True)
    except NotSimple:
        return read_all(name, captures, files, paths, simple=False)


def on_disk(capture: str, path: Path) -> str:
    """The capture, or a copy of it at the path where it can be read only once, as that of `<(...)` in a shell."""
    try:
        with open(capture, "rb") as file:
            if stat.S_ISREG(os.fstat(file.fileno()).st_mode):
                return capture
            with path.open("wb") as copy:
                shutil.copyfileobj(file, copy)
    except OSError as error:
        raise CaptureError(f"cannot read {capture}: {error.strerror}") from error
    return str(path)


def read_all(name: str, captures: list[str], files: list[str], paths: list[Path], simple: bool) -> list[Spool]:
    """Reads all captures from their files, dissecting IP or not."""
    spools = [Spool(path) for path in paths]
    progress = Progress(name, spools)
    with ExitStack() as stack:
        stack.callback(progress.clear)
        preferences = paths[0].with_suffix(".preferences")  # a folder that isn't there: tshark has its own defaults
        with signals_held():
            readings = [stack.enter_context(Reading(capture, file, preferences, simple))
                        for capture, file in zip(captures, files, strict=True)]
        outputs = [stack.enter_context(path.open("wb")) for path in paths]
        turns = [(spool, reading.lines(), output) for spool, reading, output in zip(spools, readings, outputs, strict=True)]
        while turns:
            turns = [turn for turn in turns if fill(turn[0], islice(turn[1], TURN), turn[2], simple)]
            progress.show()
        for spool, reading in zip(spools, readings, strict=True):
            spool.ends_inside = reading.ends_inside
    return spools
