"""Shows a place of a file: its name with line and column, the line, and a caret below it."""

LONGEST_LINE = 200


def printable(line: bytes) -> str:
    """The line with what a terminal doesn't show as `?`."""
    text = line.removesuffix(b"\r").decode("utf-8", "replace")
    return "".join(letter if letter == "\t" or letter.isprintable() else "?" for letter in text)


def line_around(data: bytes, start: int) -> tuple[int, int]:
    """The number of the line that has the byte, from 1, and its first byte. The end of the text is in its last line."""
    before = data[:start]
    if start >= len(data) and before.endswith(b"\n"):
        before = before[:-1]
    return before.count(b"\n") + 1, before.rfind(b"\n") + 1


def place_of(name: str, data: bytes, start: int, words: str) -> str:
    """`NAME:LINE:COLUMN: words`, in bytes from 1, and below it the line with a caret, unless it is very long."""
    number, first = line_around(data, start)
    end = data.find(b"\n", first)
    line = data[first:] if end < 0 else data[first:end]
    column = min(start - first, len(line))
    shown = f"{name}:{number}:{column + 1}: {words}\n"
    if len(line) > LONGEST_LINE:
        return shown
    blanks = "".join("\t" if letter == "\t" else " " for letter in printable(line[:column]))
    return f"{shown}{printable(line)}\n{blanks}^\n"
