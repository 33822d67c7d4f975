"""Cases in which a trace would mislead if nothing were said: what the script must say of each, and the trace that is right."""

from collections.abc import Iterator
from dataclasses import replace

from cases import BUSY, MSECS, busy, joined, left_out, near_end, ordinary
from refusals import CONSTANT, clock, latencies, refused, with_option
from synthesize import RECEIVER, START, TCP, UDP, Case, Packet, Row, World

SPLIT = ("longer than 1500 bytes in both captures, each counted as one: if offload joined what the link has apart, give "
         "--split 1500")


def turned_second() -> Case:
    """Two packets out of order around a whole second: time begins at the earlier one."""
    world, _ = busy(41, 120)
    begin = world.rows[0].came
    move = START // 10**9 * 10**9 + 10**9 - (begin + world.rows[1].came) // 2  # the first two are around the second
    for frame in world.before + world.after:
        frame.time += move
    rows = [replace(row, came=row.came + move, left=None if row.left is None else row.left + move) for row in world.rows]
    rows[:2] = rows[1], rows[0]
    return replace(world.case("turned-second", messages=[world.counts()], turned=1, checked=False), rows=rows)


def sent_slowly(seed: int, seconds: int, burst: int = 1) -> World:
    """Packets over some seconds, mostly alone in the queue, after a burst that fills it and keeps it filled."""
    world = World(seed, limit=200)
    time = START
    for number in range(300):
        time += int(world.random.expovariate(1 / (seconds * 10**9 / 300)))
        for _ in range(burst if number > 20 else 1):
            world.send(time, world.next_packet("10.0.1.1", 1448))
    return world


def drifting(name: str, seed: int, per_million: int) -> Case:
    """A clock after the queue that is faster or slower by some millionths."""
    world = sent_slowly(seed, 100)
    for frame in world.after:
        frame.time += (frame.time - START) * per_million // 10**6
    rows = [replace(row, left=row.left + (row.left - START) * per_million // 10**6) for row in world.rows]
    begin, span = rows[0].came, rows[-1].came - rows[0].came
    least = [min(row.left - row.came for row in rows if low * span <= 10 * (row.came - begin) <= high * span)
             for low, high in ((0, 1), (9, 10))]
    rate = round(abs(least[1] - least[0]) / (0.9 * span) * 10**6)
    note = (f"the least latency goes evenly from {least[0] / 10**6:.3f} ms in the first tenth of the time to "
            f"{least[1] / 10**6:.3f} ms in the last: clocks that drift by {rate} in a million do that, and make latencies wrong "
            "by so much; take both captures on one machine")
    assert abs(rate - abs(per_million)) < 10
    messages = [world.counts(), note]
    return replace(world.case(name, messages=messages, checked=False), rows=rows)


def filled() -> Case:
    """A queue that fills up and stays so is no clock that drifts."""
    world = sent_slowly(43, 100, 12)
    return world.case("filled", messages=[world.counts()])


def nothing_left() -> Iterator[Case]:
    """No packet after the queue: most likely no capture, so it has to be forced."""
    world, _ = busy(8, 40)
    world.after = []
    for row in world.rows:
        row.left = None
    reason = "after.pcap.gz has no packets, so nothing says what left"
    case = refused(world.case("nothing-left"), "nothing-left", reason)
    yield case
    yield with_option(case, "nothing-left-by-force", ("--force",), messages=[world.counts(), f"by force: {reason}"])


def nothing_came() -> Case:
    """No packet before the queue."""
    world, _ = busy(53, 40)
    world.before, world.rows = [], []
    return refused(world.case("nothing-came"), "nothing-came", "before.pcap.gz has no packets, so nothing says what came")


def everywhere() -> Iterator[Case]:
    """Captures on all interfaces of a router, which have a packet as it comes and as it leaves."""
    world, _ = busy(51, 120)
    both = world.before + world.after
    right = world.before, world.after
    several = ("has most of its packets several times, as all interfaces (-i any) and a mirror of both directions show them: take "
               "it on one interface")
    for name, taps, which in (("everywhere", (both, both), "before"), ("everywhere-before", (both, right[1]), "before"),
                              ("everywhere-after", (right[0], both), "after")):
        world.before, world.after = ([replace(frame, time=frame.time + late) for frame in tap]
                                     for tap, late in zip(taps, (0, 2000), strict=True))
        yield refused(world.case(name), name, f"{which}.pcap.gz {several}")


def not_through_the_queue() -> Iterator[Case]:
    """Packets to another link, to the router itself and a few back, and to many: they aren't lost."""
    world, _ = busy(55)
    rows, others = list(world.rows), []
    for place, row in enumerate(rows):
        for target, every in (("10.0.3.7", 3), ("10.0.1.254", 5), ("224.0.0.251", 90)):
            if place % every == 1:
                packet = replace(row.packet, source="10.0.1.2", target=target)
                others.append(Row(world.see(world.before, row.came + every, packet), packet, row.came + every, None))
                if target == "10.0.1.254" and place % 25 == 1:
                    world.see(world.before, row.came + 1000, replace(packet, source=target, target="10.0.1.2"))
    back = sum(1 for frame in world.before if frame.data[26:30] == bytes((10, 0, 1, 254)))
    said = (f"left out, since none of the same addresses left: {len(others) + back} packets (10.0.1.2 to 10.0.1.254 and 3 more); if "
            "they go through this queue, name all senders by --direction")
    case = world.case("not-through-the-queue", messages=[world.counts(), said, *near_end(world)], checked=False)
    yield case
    world.rows = sorted(rows + others, key=lambda row: row.came)
    out = left_out(back, 0, "10.0.1.254 to 10.0.1.2")
    said = (f"{len(others)} packets of which none of the same addresses left (10.0.1.2 to 10.0.1.254 and 2 more): counted as lost, but "
            "they may not go through this queue")
    yield with_option(case, "through-the-queue-all-the-same", ("--direction", "10.0.1.0/29"), rows=world.rows,
                      messages=[world.counts(), out, said, *near_end(world)])


def shared_queue() -> Case:
    """A queue that packets of another link go through too."""
    world, _ = busy(56)
    for row in world.rows[9::4]:
        world.see(world.after, row.came, replace(row.packet, source="10.0.9.9"))
    count, left = len(world.rows[9::4]), sum(1 for row in world.rows if row.left is not None)
    reason = (f"{count} of {count + left} packets after the queue match none before it, nearly all of addresses that aren't in "
              "before.pcap.gz (10.0.9.9 to 10.0.2.2): take both captures at one queue, or if it has packets of other links too, name "
              "the senders of this one by --direction")
    return refused(world.case("shared-queue"), "shared-queue", reason)


def stood_still() -> Iterator[Case]:
    """A second capture that has nothing for a while, and one that has answers meanwhile and so shows that the queue lost packets."""
    for name, answers in (("stood-still", False), ("lost-in-a-row", True)):
        world = World(57, limit=1000)
        count = world.traffic(240, answers=True)
        begin, end = world.rows[100].came, world.rows[160].came
        world.after = [frame for frame in world.after
                       if not begin <= frame.time < end or (answers and frame.data[26:30] == bytes((10, 0, 2, 2)))]
        unseen = [row for row in world.rows if row.left is not None and begin <= row.left < end]
        for row in unseen:
            row.left = None
        latest = max(row.left for row in world.rows if row.left is not None and row.left < begin)
        silent = [row.came for row in unseen if row.came > latest]
        back = sum(1 for frame in world.after if frame.data[26:30] == bytes((10, 0, 2, 2)))
        note = (f"{len(silent)} packets in a row came within {(silent[-1] - silent[0]) / 1e9:.6f} s, "
                f"{(silent[0] - world.rows[0].came) / 1e9:.6f} s after the first, while after.pcap.gz has none: counted as lost, but it "
                "may have stood still")
        yield world.case(name, messages=[world.counts(), left_out(count, back), *([] if answers else [note])], checked=False)


def set_back() -> Iterator[Case]:
    """A clock that was set back by five seconds while both captures ran, or one of them."""
    for name, both in (("set-back", True), ("set-back-after", False)):
        world, _ = busy(58, 120)
        case = world.case(name, kept_order=True)
        middle = world.rows[60].came
        for tap in (world.before, world.after) if both else (world.after,):
            tap.sort(key=lambda frame: frame.time)
            for frame in tap:
                frame.time -= 5 * 10**9 * (frame.time >= middle)
        tap, which = (world.before, "before") if both else (world.after, "after")
        back = max(one.time - other.time for one, other in zip(tap, tap[1:]))
        reason = (f"the times of {which}.pcap.gz go back by {back / 1e9:.6f} s: its clock was set while it ran, or it was joined of parts "
                  "in another order")
        yield refused(case, name, reason)


def copied() -> Case:
    """A capture and a copy of it."""
    world, _ = busy(44, 40)
    world.after = list(world.before)
    return refused(world.case("copied"), "copied", "each packet left in the nanosecond in which it came: after.pcap.gz is a copy "
                   "of before.pcap.gz")


def elsewhere() -> Iterator[Case]:
    """A second capture with packets of other senders and none of the first's."""
    world, _ = busy(45, 40)
    world.after = [world.see([], row.came, replace(row.packet, source="10.0.7.7")) for row in world.rows]
    case = refused(world.case("elsewhere"), "elsewhere", "40 of 40 packets after the queue match none before it: take both "
                   "captures at one queue, at the same time")
    yield case
    yield refused(case, "elsewhere-by-direction", "none of 40 packets before the queue is in after.pcap.gz: take both captures at "
                  "one queue", ("--direction", "10.0.1.0/24"))


def swapped_answers() -> Case:
    """Swapped files with both directions, whose trace is that of the lesser one."""
    world, time = World(46), START
    rows: list[Row] = []
    for number in range(200):
        time += int(world.random.expovariate(1 / BUSY))
        sent = world.send(time, world.next_packet(f"10.0.1.{number % 3 + 1}", 1448))
        world.answer(sent, 300)
        rows += [row for row in sent if row.left is not None]
    back = [frame for frame in world.after if frame.data[26:30] == bytes((10, 0, 2, 2))]
    answers = [Row(frame, Packet(RECEIVER, row.packet.source, row.packet.ports[::-1], TCP, 0, 300, 77), row.left + 40_000,
                   row.left + 90_000) for frame, row in zip(back, rows, strict=True)]
    lengths = 1500 * len(rows), 352 * len(rows)
    messages = [f"{len(rows)} packets came, {len(rows)} left, 0 never did",
                left_out(len(rows), len(world.rows), "10.0.1.1 to 10.0.2.2 and 2 more"),
                f"{100 * lengths[0] / sum(lengths):.0f} % of the bytes and 50 % of the packets go the other way: for those give "
                "after.pcap.gz first"]
    return Case("swapped-answers", world.after, world.before, answers, messages=messages, checked=False)


def one_clock() -> Case:
    """Both directions asked for where one passes the captures in turn: no clock is wrong."""
    case = ordinary()
    left = len(latencies(case))
    return refused(case, "both-directions-of-one-clock", f"{left} of {2 * left} packets left before they came, {RECEIVER} to "
                   "10.0.1.1 and 2 more, and those of the way back after they came: the two ways pass the captures in turn, so "
                   "leave --both-directions out, or name the senders of one way by --direction", ("--both-directions",))


def slow_clock_both_ways() -> Iterator[Case]:
    """A slow clock after a queue that packets of both directions pass: no latency may be below 0 by the constant for these."""
    world, time = World(50), START
    for number in range(200):
        time += int(world.random.expovariate(1 / BUSY))
        packet = world.next_packet("10.0.1.1", 100 if number % 2 else 1400)
        if number % 2:
            packet = replace(packet, source=packet.target, target=packet.source, ports=packet.ports[::-1])
        world.send(time, packet)
    case = clock(world.case("both-ways"), "clock-slow-both-ways", -250 * MSECS)
    left = len(latencies(case))
    floors = [min(row.left - row.came for row in case.rows if row.left is not None and (row.packet.source == RECEIVER) == way)
              for way in (True, False)]
    said = f"{left} of {left} packets left before they came, {CONSTANT}"
    yield refused(case, case.name, f"{said} {-(sum(floors) - 500 * MSECS) // 2}")
    yield refused(case, f"{case.name}-given", f"{said} {250 * MSECS - min(floors)}", ("--both-directions",))


def long_ones() -> Iterator[Case]:
    """Packets that both captures have joined count as one, or are cut by the length that is said."""
    world, time = World(47), START
    for number in range(150):
        time += int(world.random.expovariate(1 / (2 * BUSY)))
        world.send(time, world.next_packet(f"10.0.1.{number % 3 + 1}", 2896 if number % 3 else 700))
    long = sum(1 for row in world.rows if row.packet.length > 1500)
    case = world.case("long-ones", longest=3000, messages=[world.counts(), f"{long} packets {SPLIT}"])
    yield case
    rows = [replace(row, packet=part) for row in world.rows for part in row.packet.pieces(1448)]
    cut = [f"{count} packets {place} the queue had been joined by segmentation offload: cut into {2 * count}"
           for count, place in ((long, "before"), (sum(1 for frame in world.after if frame.length > 1514), "after"))]
    lost = sum(1 for row in rows if row.left is None)
    messages = [f"{len(rows)} packets came, {len(rows) - lost} left, {lost} never did", *cut]
    yield with_option(case, "long-ones-split", ("--split", "1500"), rows=rows, messages=messages, longest=1500)


def cut_short() -> Case:
    """A capture that ends in the middle of a packet, the last one that came."""
    world, _ = busy(48, 80)
    last = world.rows.pop()
    world.after = [frame for frame in world.after if frame.time != last.left]
    note = "before.pcap.gz ends in the middle of a packet: the whole ones before it were taken"
    return world.case("cut-short", messages=[note, world.counts()], missing=30, checked=False)


def lost_whole() -> Iterator[Case]:
    """A queue that takes packets of up to 4396 bytes whole and cuts longer ones; one that it would take whole is lost, where others
    like it leave, and where none does."""
    for name, others in (("lost-whole", 4344), ("lost-whole-alone", 2896)):
        world, time = World(59, limit=1000), START
        for number in range(120):
            time += int(world.random.expovariate(1 / (6 * BUSY)))
            source, payload = (("10.0.1.1", others), ("10.0.1.2", 2896), ("10.0.1.2", 7240), ("10.0.1.1", 700))[number % 4]
            world.send(time, world.next_packet(source, payload), piece=1448 if payload > 4344 else 0)
        (lost,) = world.send(time + MSECS, world.next_packet("10.0.1.2", 4344))
        world.after.pop()
        lost.left = None
        for _ in range(3):
            world.send(time + 2 * MSECS, world.next_packet("10.0.1.2", 2896))
        cut = sum(1 for frame in world.before if frame.length == 7240 + 66)
        long = sum(1 for row in world.rows if row.packet.length > 1500)
        messages = [world.counts(), joined("before", cut, 5 * cut), f"{long} packets {SPLIT}"]
        yield world.case(name, messages=messages, longest=4396)


def ended_before_long_ones() -> Case:
    """A second capture that ends before the first long packet leaves: nothing says that offload joined what came later."""
    world = World(52, limit=30)
    time = START
    for number in range(120):
        time += int(world.random.expovariate(1 / (2 * BUSY)))
        world.send(time, world.next_packet("10.0.1.1", 2896 if number > 60 else 700))
    end = world.rows[60].came
    world.after = [frame for frame in world.after if frame.time < end]
    seen = [row for row in world.rows if row.came <= max(frame.time for frame in world.after)]
    late = len(world.rows) - len(seen)
    world.rows = [replace(row, left=row.left if row.left is not None and row.left < end else None) for row in seen]
    note = f"{late} packets came after after.pcap.gz ends: left out, since nothing says what left then"
    return world.case("ended-before-long-ones", checked=False, messages=[world.counts(), note, *near_end(world)])


class Headless(Packet):
    """A TCP packet of whose header the length isn't known, so that it counts as payload."""

    header = 20


def cut_off() -> Case:
    """Snapshots that end inside TCP's header, after the sequence number."""
    world, _ = busy(54, 80)
    for frame in world.before + world.after:
        frame.data = frame.data[:42]
    said = "packets: what it lacks of addresses, ports, tcpseq and payload_len is wrong in the trace; take snapshots of 96 bytes (-s 96)"
    messages = [f"{name}.pcap.gz has only a part of the headers of {len(tap)} {said}"
                for name, tap in (("before", world.before), ("after", world.after))]
    for row in world.rows:
        row.packet = Headless(**vars(row.packet) | {"payload": row.packet.length - Headless.header})
    return world.case("cut-off", checked=False, dissected=True, messages=[*messages, world.counts(), *near_end(world)])


def marked() -> Iterator[Case]:
    """Datagrams whose identification is always 0: their checksums tell them apart, whatever the time in the queue."""
    world, time = World(49), START
    for number in range(200):
        time += int(world.random.expovariate(1 / BUSY))
        world.send(time, Packet("10.0.1.4", RECEIVER, (7004, 7005), UDP, 0, 1000, checksum=1 + number * 37 % 65535))
    yield world.case("marked", messages=[world.counts(), *near_end(world)], checked=False)
    world.before = [frame for frame in world.before if frame.time >= world.rows[60].came]
    missing = sum(1 for row in world.rows[:60] if row.left is not None)
    world.rows = world.rows[60:]
    note = f"{missing} packets after the queue came before before.pcap.gz begins or after it ends: left out"
    yield world.case("marked-late", messages=[world.counts(), *near_end(world), note], checked=False)


def doubtful_cases() -> Iterator[Case]:
    """All of them."""
    yield turned_second()
    yield drifting("clock-gains", 42, 50)
    yield drifting("clock-loses", 42, -15)
    yield filled()
    yield from nothing_left()
    yield nothing_came()
    yield from everywhere()
    yield from not_through_the_queue()
    yield shared_queue()
    yield from stood_still()
    yield from set_back()
    yield copied()
    yield from elsewhere()
    yield swapped_answers()
    yield one_clock()
    yield from slow_clock_both_ways()
    yield from long_ones()
    yield cut_short()
    yield from lost_whole()
    yield ended_before_long_ones()
    yield cut_off()
    yield from marked()
