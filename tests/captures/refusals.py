"""Cases that have no trace without an option: what the script must say of them, and what it must do with that option."""

from collections.abc import Iterator
from dataclasses import replace

from cases import MSECS, busy, left_out, near_end, offload
from synthesize import START, Case, Packet, Row, World

SWAPPED = "the files are swapped, give before.pcap.gz first"
CONSTANT = "all flows by one constant: the captures have two clocks, give --shift"


def both_leave(shift: int) -> str:
    """What is said where both directions leave after they come."""
    return (f"packets of both directions leave after they come, by {-shift / 1e9:.6f} s and more: the captures have "
            f"two clocks, give --shift {shift}; or --both-directions if both pass the queue")


def refused(case: Case, name: str, reason: str, options: tuple[str, ...] = ()) -> Case:
    """The same captures with what the script says last of them."""
    return replace(case, name=name, status=1, messages=[f"no trace: {reason} (--force makes one all the same)"],
                   captures=case.name if options else "", options=list(options))


def with_option(case: Case, name: str, options: tuple[str, ...], **changes) -> Case:
    """The same captures with options by which they have a trace, of which the checker isn't given the clocks."""
    checked = case.checked and options[0] != "--shift"
    return replace(case, name=name, status=0, options=list(options), captures=case.name, checked=checked, **changes)


def clock(case: Case, name: str, by: int) -> Case:
    """The same captures where the clock after the queue is wrong."""
    return replace(case, name=name, after=[replace(frame, time=frame.time + by) for frame in case.after])


def latencies(case: Case) -> list[int]:
    """Nanoseconds in the queue of the packets that left."""
    return [row.left - row.came for row in case.rows if row.left is not None]


def moved(case: Case, by: int) -> list[Row]:
    """The rows with other departures."""
    return [replace(row, left=row.left + by) if row.left is not None else row for row in case.rows]


def swapped_files() -> Iterator[Case]:
    """Files the wrong way round: with losses, without them, with both directions."""
    world, _ = busy(21)
    case = replace(world.case("swapped"), swapped=True)
    left = len(latencies(case))
    yield refused(case, "swapped", f"{left} of {left} packets left before they came: {SWAPPED}")
    world = World(22, limit=1000)
    world.traffic(150, 1_400_000)
    case = replace(world.case("swapped-without-losses"), swapped=True)
    yield refused(case, case.name, f"150 of 150 packets left before they came: {SWAPPED}")
    world, answers = busy(23, answers=True)
    case = replace(world.case("swapped-with-answers"), swapped=True)
    size = sum(row.packet.length for row in case.rows if row.left is not None)
    reason = f"most bytes are of packets that left before they came ({size} of {size + 52 * answers}): {SWAPPED}"
    yield refused(case, case.name, f"{reason}; or name the senders of the lesser direction by --direction")


def two_clocks() -> Iterator[Case]:
    """Clocks that differ by a constant: one direction, then both, with the constant that is offered and the trace that it makes."""
    world, _ = busy(24)
    right = world.case("one-clock", messages=[world.counts()])
    least, left = min(latencies(right)), len(latencies(right))
    for name, by in (("clock-slow", -1500 * MSECS), ("clock-a-little-slow", -least - 3 * MSECS)):
        case = clock(right, name, by)
        early = sum(1 for latency in latencies(right) if latency + by < 0)
        yield refused(case, name, f"{early} of {left} packets left before they came, {CONSTANT} {-least - by}")
        yield with_option(case, f"{name}-shifted", ("--shift", str(-least - by)), rows=moved(right, -least))


def two_clocks_with_answers() -> Iterator[Case]:
    """The same where answers go the other way, 50 microseconds from tap to tap."""
    world, answers = busy(25, answers=True)
    right = world.case("one-clock", messages=[world.counts(), left_out(answers, answers), *near_end(world)])
    least, left = min(latencies(right)), len(latencies(right)) + answers
    for name, by in (("clock-slow-with-answers", -250 * MSECS), ("clock-fast-with-answers", 250 * MSECS)):
        case = clock(right, name, by)
        shift = -(least + by + by - 50_000) // 2
        if by < 0:
            reason = f"{left} of {left} packets left before they came, {CONSTANT} {shift}"
        else:
            reason = both_leave(shift)
        yield refused(case, name, reason)
        yield with_option(case, f"{name}-shifted", ("--shift", str(shift)), rows=moved(right, by + shift))


def many_clocks() -> Case:
    """A flow that is off by more than the others: no constant mends it."""
    world, _ = busy(26)
    odd = bytes((10, 0, 1, 3))
    for frame in world.after:
        frame.time -= (3000 if frame.data[26:30] == odd else 1500) * MSECS
    left = sum(1 for row in world.rows if row.left is not None)
    return refused(world.case("many-clocks"), "many-clocks", f"{left} of {left} packets left before they came, by no constant: "
                   "the captures have clocks that go apart, so take both on one machine")


def both_directions() -> Iterator[Case]:
    """A queue that packets of both directions pass."""
    world = World(27)
    time = START
    for number in range(200):
        time += int(world.random.expovariate(1 / 1_100_000))
        packet = world.next_packet("10.0.1.1", 700)
        if number % 2:
            packet = replace(packet, source=packet.target, target=packet.source, ports=packet.ports[::-1])
        world.send(time, packet)
    case = world.case("both-directions", messages=[world.counts()])
    shift = -(2 * min(latencies(case))) // 2
    yield refused(case, case.name, both_leave(shift))
    yield with_option(case, "both-directions-given", ("--both-directions",), senders="0.0.0.0/0")
    rows = [row for row in case.rows if row.packet.source == "10.0.2.2"]
    left = sum(1 for row in rows if row.left is not None)
    seen = sum(1 for row in case.rows if row.left is not None) - left
    messages = [f"{len(rows)} packets came, {left} left, {len(rows) - left} never did",
                left_out(len(case.rows) - len(rows), seen, "10.0.1.1 to 10.0.2.2")]
    options = ("--direction", "10.0.2.0/24")
    yield with_option(case, "one-direction-given", options, messages=messages, rows=rows, senders="10.0.2.0/24")


def strangers() -> Case:
    """Two captures that have nothing to do with one another."""
    world, _ = busy(28)
    other, _ = busy(29)
    world.after = other.after
    count = sum(1 for row in other.rows if row.left is not None)
    return refused(world.case("strangers"), "strangers", f"{count} of {count} packets after the queue match none before it: "
                   "take both captures at one queue, at the same time")


def few_in_common() -> Case:
    """A second capture of another queue that has a few of the packets too, at its end."""
    world, _ = busy(30)
    other, _ = busy(31, 80)
    common = sorted(world.after, key=lambda frame: frame.time)[-5:]
    others = [replace(frame, time=frame.time + 60 * MSECS) for frame in other.after]
    world.after = others + common
    return refused(world.case("few-in-common"), "few-in-common", f"{len(others)} of {len(others) + 5} packets after the "
                   "queue match none before it: take both captures at one queue, at the same time")


def splits() -> Iterator[Case]:
    """Offload that is left as it is, and offload that is cut by a length that is given."""
    case = offload()
    strange = sum(1 for row in case.rows if row.left is not None and is_piece(case, row))
    expected = sum(1 for row in case.rows if row.left is not None)
    yield refused(case, "no-split", f"{strange} of {expected} packets after the queue match none before it: "
                  "take both captures at one queue, at the same time", ("--no-split",))
    yield with_option(case, "split", ("--split", "1500"))


def is_piece(case: Case, row: Row) -> bool:
    """Whether the row's frame has other rows too."""
    return sum(1 for other in case.rows if other.frame is row.frame) > 1


def refusal_cases() -> Iterator[Case]:
    """All of them."""
    yield from swapped_files()
    yield from two_clocks()
    yield from two_clocks_with_answers()
    yield many_clocks()
    yield from both_directions()
    yield strangers()
    yield few_in_common()
    yield from splits()
