"""What is wrong with a trace that marple refused: the line of the file, the field's text, and the reason in words."""

import csv
import io
import re
import sys
from dataclasses import dataclass
from pathlib import Path
from typing import BinaryIO, Iterator, Optional

from query_help.near import alike
from query_help.places import LONGEST_LINE, printable

BYTES, PACKETS, WORDS = 268_435_456, 4_194_304, 2**64
# How files begin that aren't text: captures, and what captures are packed with.
CAPTURES = {
    b"\xd4\xc3\xb2\xa1": "a capture (pcap)", b"\xa1\xb2\xc3\xd4": "a capture (pcap)",
    b"\x4d\x3c\xb2\xa1": "a capture (pcap)", b"\xa1\xb2\x3c\x4d": "a capture (pcap)",
    b"\x0a\x0d\x0d\x0a": "a capture (pcapng)",
}
PACKED = {b"\x1f\x8b": "gzip", b"\xfd7zXZ": "xz", b"\x28\xb5\x2f\xfd": "zstd", b"PK\x03\x04": "zip"}
_ADDRESS = re.compile(r"(\d{1,3})\.(\d{1,3})\.(\d{1,3})\.(\d{1,3})")
_FAULT = re.compile(r"(\w+)(?:\((\d+)?,?(\w+)?\))?$")


@dataclass
class TraceFault:
    """A fault as marple names it, with the number of the data record and the field where it has them."""

    kind: str
    record: int = 0
    field: str = ""


@dataclass
class Record:
    """A record of a CSV file: the line where it begins, from 1, and its fields."""

    line: int
    fields: list[str]


def parse_fault(words: str) -> TraceFault:
    found = _FAULT.match(words)
    if not found:
        return TraceFault(words)
    return TraceFault(found.group(1), int(found.group(2) or 0), found.group(3) or "")


def records_of(stream: BinaryIO) -> Iterator[Record]:
    """The records of the file, without empty lines and a byte order mark. A quoted field may have several lines."""
    csv.field_size_limit(sys.maxsize)
    if stream.read(3) != b"\xef\xbb\xbf":
        stream.seek(0)
    reader = csv.reader(io.TextIOWrapper(stream, encoding="latin-1", newline=""))
    line = 1
    for fields in reader:
        if fields:
            yield Record(line, fields)
        line = reader.line_num + 1


def record_at(trace: Path, number: int) -> Optional[Record]:
    """The record with this number, where 0 is the header."""
    with trace.open("rb") as stream:
        for at, record in enumerate(records_of(stream)):
            if at == number:
                return record
    return None


def kind_of_file(trace: Path) -> Optional[str]:
    """What the file is where it is no text, by its first bytes."""
    with trace.open("rb") as stream:
        start = stream.read(8)
    for magic, words in CAPTURES.items():
        if start.startswith(magic):
            return words
    for magic, words in PACKED.items():
        if start.startswith(magic):
            return f"packed by {words}"
    return None


def text_of(field: str) -> str:
    """The field's bytes as text, for showing."""
    return printable(field.encode("latin-1"))


def reason(field: str, text: str) -> str:
    """Why the text is no number of this field."""
    bare = text.strip(" \t")
    if bare == "":
        return "it is empty"
    if bare.lower() == "inf":
        return "`inf` is written in small letters" if field == "tout" else "`inf` belongs in `tout`"
    if re.fullmatch(r"-\d+", bare):
        return "a number has no sign"
    if re.fullmatch(r"\d+\.\d*(e[+-]?\d+)?", bare, re.IGNORECASE):
        return "a number has no decimal point, so give times in whole nanoseconds"
    if re.fullmatch(r"0x[0-9a-f]+", bare, re.IGNORECASE):
        return "a number is decimal"
    if bare.isdigit() and bare.isascii():
        return "a number has at most 20 digits" if len(bare) > 20 else "numbers end at 2^64-1, 18446744073709551615"
    if _ADDRESS.fullmatch(bare):
        return "a part is above 255" if field in ("srcip", "dstip") else "an address belongs in `srcip` or `dstip`"
    if ":" in bare and field in ("srcip", "dstip"):
        return "an address is that of IPv4, or a number"
    return "a number has only decimal digits"


def caret_below(line: str, fields: list[str], column: int) -> str:
    """The line and a caret under its field of this number, where the fields have no quotes around them."""
    if ",".join(fields) != line or len(line) > LONGEST_LINE:
        return ""
    blanks = " " * len(text_of(",".join(fields[:column] + [""])))
    return f"{text_of(line)}\n{blanks}^\n"


def bad_number(name: str, fault: TraceFault, header: Record, record: Record) -> str:
    names = [field.strip(" \t") for field in header.fields]
    column = names.index(fault.field)
    text = record.fields[column]
    shown = text_of(text) if len(text) <= LONGEST_LINE else text_of(text[:LONGEST_LINE]) + ".."
    said = (f"{name}:{record.line}: {fault.kind}: the field `{fault.field}` of data record {fault.record} has the text "
            f"\"{shown}\", which is no number: {reason(fault.field, text)}.\n")
    return said + caret_below(",".join(record.fields), record.fields, column)


def field_count(name: str, fault: TraceFault, header: Record, record: Record) -> str:
    line = text_of(",".join(record.fields))
    shown = f"{line}\n" if len(line) <= LONGEST_LINE else ""
    fields = counted(len(record.fields), "field")
    return (f"{name}:{record.line}: {fault.kind}: data record {fault.record} has {fields}, and the header has "
            f"{len(header.fields)}.\n{shown}")


def counted(number: int, word: str) -> str:
    return f"{number} {word}" if number == 1 else f"{number} {word}s"


def field_missing(name: str, fault: TraceFault, header: Record, fields: list[str]) -> tuple[str, str]:
    """What is said of a column that isn't there, and the situation that its remedy is under."""
    names = [text_of(field.strip(" \t")) for field in header.fields]
    said = f"{name}:{header.line}: {fault.kind}: the query reads `{fault.field}`, and the header doesn't name it.\n"
    if all(re.fullmatch(r"[0-9.]+|inf", field) for field in names):
        return said + f"The first line is {', '.join(names)}.\n", "without a header"
    if len(names) == 1 and re.search(r"[;\t|]", names[0]):
        return said + f"The first line is {names[0]}.\n", "with other separators"
    near = alike(fault.field, [column for column in names if column not in fields])
    if near:
        said += f"Did you mean {' or '.join(f'`{candidate}`' for candidate in near)}?\n"
    return said + f"The columns of the trace are: {', '.join(names)}.\n", ""


def sizes(trace: Path) -> str:
    """How large the file is compared with the limits, and how many bytes a packet takes in it."""
    size = trace.stat().st_size
    with trace.open("rb") as stream:
        sample = stream.read(1 << 20)
    lines = sample.count(b"\n")
    width = len(sample) / lines if lines else 0
    said = f"The file has {size:,} bytes, and a trace at most {BYTES:,} bytes and {PACKETS:,} packets."
    if width:
        said += f" Its lines have {width:.0f} bytes or so, so {min(PACKETS, int(BYTES / width)):,} packets fit."
    return said + "\n"


def record_words(trace: Path, name: str, words: str, fault: TraceFault, header: Record) -> str:
    """What is said of a fault in a data record."""
    record = record_at(trace, fault.record)
    if record is None:
        return f"{name}: {words}\n"
    if fault.kind == "BadNumber":
        return bad_number(name, fault, header, record)
    if fault.kind == "FieldCount":
        return field_count(name, fault, header, record)
    return f"{name}:{record.line}: {words}: data record {fault.record} has the 65th switch.\n"


def explain_trace(trace: Path, name: str, words: str, fields: list[str]) -> tuple[str, str, str]:
    """What is said of the fault `words` of the trace, and the fault and the situation that its remedy is under; fields:
    those that a packet has.
    """
    fault = parse_fault(words)
    kind = kind_of_file(trace)
    if kind:
        found = "capture" if kind.startswith("a capture") else "packed"
        return f"{name}: {words}: the file is {kind}, and no trace.\n", found, ""
    if fault.kind in ("TraceTooLong", "TooManyPackets"):
        return f"{name}: {words}: the trace is too large.\n{sizes(trace)}", fault.kind, ""
    header = record_at(trace, 0)
    if header is None:
        return f"{name}: {words}: the file has no line.\n", fault.kind, ""
    if fault.kind == "FieldMissing":
        said, situation = field_missing(name, fault, header, fields)
        return said, fault.kind, situation
    if fault.kind == "FieldTwice":
        columns = [str(at) for at, field in enumerate(header.fields, 1) if field.strip(" \t") == fault.field]
        said = f"{name}:{header.line}: {words}: the columns {' and '.join(columns)} are both named `{fault.field}`.\n"
        return said, fault.kind, ""
    return record_words(trace, name, words, fault, header), fault.kind, ""
