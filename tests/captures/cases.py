"""The cases: what ordinary captures hold, each with the trace and the messages that are right for it."""

from collections.abc import Iterator
from dataclasses import replace

from synthesize import RECEIVER, START, TCP, UDP, Case, Frame, Packet, World

MSECS = 10**6
BUSY = 1_100_000  # nanoseconds between packets that make the queue overflow


def busy(seed: int, packets: int = 200, answers: bool = False) -> tuple[World, int]:
    """A queue that loses packets, and how many answers went the other way."""
    world = World(seed)
    return world, world.traffic(packets, BUSY, answers)


def left_out(before: int, after: int, way: str = f"{RECEIVER} to 10.0.1.1 and 2 more") -> str:
    """The message for packets of the other direction."""
    return f"left out as another direction: {before} packets before, {after} after ({way})"


def joined(place: str, packets: int, pieces: int) -> str:
    """The message for packets that were cut."""
    return f"{packets} packets {place} the queue had been joined by segmentation offload: cut into {pieces}"


def near_end(world: World) -> list[str]:
    """The message for lost packets that came after the last one that left, no longer before the end than one was in the queue."""
    longest = max(row.left - row.came for row in world.rows if row.left is not None)
    last = max(place for place, row in enumerate(world.rows) if row.left is not None)
    count = sum(1 for row in world.rows[last + 1 :] if row.came + longest > max(frame.time for frame in world.after))
    words = ("1 packet", "it") if count == 1 else (f"{count} packets", "they")
    said = f"{words[0]} came so near the end of after.pcap.gz that nothing says whether {words[1]} left: counted as lost"
    return [said] * (count > 0)


def ordinary() -> Case:
    """Both directions in both captures, as tcpdump takes them."""
    world, answers = busy(1, answers=True)
    return world.case("ordinary", messages=[world.counts(), left_out(answers, answers)])


def one_sided() -> Case:
    """Both directions before the queue, one after it."""
    world, answers = busy(2, answers=True)
    world.after = [frame for frame in world.after if frame.data[26:30] != bytes((10, 0, 2, 2))]
    return world.case("one-sided", messages=[world.counts(), left_out(answers, 0)])


def tagged() -> Case:
    """Another VLAN tag on each side."""
    world = World(3)
    world.traffic(150, BUSY, vlans=(10, 20))
    return world.case("tagged", messages=[world.counts(), *near_end(world)])


def other_protocols() -> Case:
    """IPv6 and ARP beside."""
    world, _ = busy(4)
    for number in range(25):
        kind = b"\x86\xdd" + b"\x60" + bytes(5) + b"\x3b\x40" + bytes(32) if number % 5 else b"\x08\x06" + bytes(28)
        for tap in (world.before, world.after):
            tap.append(Frame(START + number * 7 * MSECS, bytes(12) + kind + bytes(20), 12 + len(kind) + 20))
    passed_over = "25 packets without IPv4 were passed over: the trace has neither their losses nor their places"
    return world.case("other-protocols", messages=[world.counts(), passed_over])


def no_link() -> Case:
    """A tunnel's device, whose packets have no link header: tshark has to say what they are."""
    world, _ = busy(16, 60)
    for frame in world.before + world.after:
        frame.data, frame.length = frame.data[14:], frame.length - 14
    return world.case("no-link", messages=[world.counts()], checked=False, dissected=True, link=101)


def fragments() -> Case:
    """Datagrams in three fragments beside TCP."""
    world = World(5)
    time = START
    for number in range(60):
        time += int(world.random.expovariate(1 / 3.5e6))
        world.send(time, world.next_packet("10.0.1.1", 900))
        whole = Packet("10.0.1.4", RECEIVER, (7004, 53), UDP, 500 + number, 1472, more=True)
        for offset, payload in ((0, 1472), (1480, 1480), (2960, 300)):
            time += 10_000
            world.send(time, replace(whole, offset=offset, payload=payload, more=offset < 2960))
    return world.case("fragments", messages=[world.counts(), *near_end(world)])


def twice() -> Case:
    """A sender that numbers no packets: what it sends again is the same in all that distinguishes packets."""
    world = World(6)
    time, lost, again = START, [], 0
    for number in range(200):
        time += int(world.random.expovariate(1 / BUSY))
        packet = replace(world.next_packet(f"10.0.1.{number % 3 + 1}", 1000), identification=0)
        lost += [row.packet for row in world.send(time, packet) if row.left is None]
        if number % 10 == 9 and lost:
            time += 60 * MSECS
            again += 1
            world.send(time, lost.pop(0))
    return world.case("twice", messages=[world.counts(), alike(world)])


def alike(world: World) -> str:
    """The message for packets alike: as many as left while one of the same kind had come and not left."""
    count = 0
    for place, row in enumerate(world.rows):
        same = [other for other in world.rows if other is not row and other.packet == row.packet]
        if row.left is not None:
            count += any(other.came < row.left and (other.left is None or other.left > row.left) for other in same)
    return f"{count} packets were told from others alike by the time in the queue"


def wrapped() -> Case:
    """Datagrams of one length whose identification wraps after 32: the lost ones are like later ones."""
    world = World(7)
    time = START
    for number in range(300):
        time += int(world.random.expovariate(1 / (1.5 * BUSY)))
        world.send(time, Packet("10.0.1.4", RECEIVER, (7004, 7005), UDP, number % 32, 1000))
    return world.case("wrapped", messages=[world.counts(), alike(world)])


def offload() -> Case:
    """A sender with offload: packets of up to 20 pieces before the queue, the pieces after it, answers beside."""
    world = World(9, limit=25)
    time, answers, cut, pieces = START, 0, 0, 0
    for number in range(90):
        time += int(world.random.expovariate(1 / 12e6))
        size = world.random.choice((100, 1448, 2896, 4000, 14480, 20 * 1448)) if 0 < number < 89 else 100
        rows = world.send(time, world.next_packet(f"10.0.1.{number % 3 + 1}", size), piece=1448)
        cut, pieces = cut + (len(rows) > 1), pieces + (len(rows) if len(rows) > 1 else 0)
        answers += world.answer(rows)
    messages = [world.counts(), joined("before", cut, pieces), left_out(answers, answers)]
    return world.case("offload", messages=messages)


def datagrams() -> Case:
    """The same of datagrams, whose pieces have no sequence number."""
    world = World(10, limit=25)
    time, cut, pieces = START, 0, 0
    for number in range(80):
        time += int(world.random.expovariate(1 / 9e6))
        size = world.random.choice((400, 1200, 2400, 6000, 12100))
        packet = Packet("10.0.1.4", RECEIVER, (7004, 443), UDP, world.identification, size)
        world.identification = (world.identification + -(-size // 1200)) % 65536
        rows = world.send(time, packet, piece=1200)
        cut, pieces = cut + (len(rows) > 1), pieces + (len(rows) if len(rows) > 1 else 0)
    return world.case("datagrams", longest=1228, payload=1200, messages=[world.counts(), joined("before", cut, pieces)])


def join_runs(left: list[tuple[int, Packet]]) -> list[tuple[int, Packet]]:
    """Joins up to four pieces that follow one another and left within 3 ms each, as a receiver's offload does."""
    found: list[tuple[int, Packet]] = []
    for time, packet in left:
        last = found[-1][1] if found else None
        if last and last.sequence + last.payload == packet.sequence and last.payload % 1448 == 0 and last.payload < 4 * 1448:
            found[-1] = (time, replace(last, payload=last.payload + packet.payload))
        else:
            found.append((time, packet))
    return found


def bulk(name: str, seed: int, sent: int, odd: int = -1, **how) -> tuple[World, Case]:
    """A bulk transfer of packets of `sent` pieces to a receiver that joins them; a record leaves when its joined packet does.

    The packet of the number `odd` is one of 936 bytes.
    """
    world = World(seed, limit=30)
    time = START
    for number in range(60):
        time += int(world.random.expovariate(1 / (sent * 2.6e6)))
        packet = world.next_packet("10.0.1.1", 936 if number == odd else sent * 1448 - (700 if number % 7 == 3 else 0))
        rows = world.send(time, packet, piece=1448, join=join_runs)
        together = join_runs([(row.left, row.packet) for row in rows if row.left is not None])
        for row in rows:
            ends = [at for at, part in together if part.sequence <= row.packet.sequence < part.sequence + part.payload]
            row.left = ends[0] if row.left is not None else None
    return world, world.case(name, **how)


def both_ends() -> Iterator[Case]:
    """Offload at both ends: nowhere are the packets those of the link, or only one that isn't a full one."""
    for name, odd in (("both-ends", -1), ("one-apart", 30)):
        world, case = bulk(name, 11, 10, odd)
        joins = [frame for frame in case.after if frame.length > 1514]
        alone = odd >= 0
        cut = [joined("before", 60 - alone, len(world.rows) - alone), joined("after", len(joins), pieces_of(joins))]
        yield replace(case, messages=[world.counts(), *cut])


def pieces_of(frames: list[Frame]) -> int:
    """How many pieces of 1448 bytes are in frames."""
    return sum(-(-(frame.length - 66) // 1448) for frame in frames)


def joined_after() -> Case:
    """A receiver that joins packets, which came one by one."""
    world = World(12, limit=30)
    time = START
    for number in range(60):
        time += int(world.random.expovariate(1 / 9e6))
        rows = [row for _ in range(4) for row in world.send(time, world.next_packet("10.0.1.1", 1448), seen=False)]
        for at, part in join_runs([(row.left, row.packet) for row in rows if row.left is not None]):
            world.see(world.after, at, part)
            for row in rows:
                if part.sequence <= row.packet.sequence < part.sequence + part.payload:
                    row.left = at
    joins = [frame for frame in world.after if frame.length > 1514]
    return world.case("joined-after", messages=[world.counts(), joined("after", len(joins), pieces_of(joins))])


def late_after() -> Case:
    """A second capture that begins after some sixty packets came."""
    world, _ = busy(13)
    begin = world.rows[60].came
    world.after = [frame for frame in world.after if frame.time >= begin]
    seen = next(place for place, row in enumerate(world.rows) if row.left is not None and row.left >= begin)
    world.rows = world.rows[seen:]
    note = f"{seen} packets came before after.pcap.gz begins: left out, since nothing says what left then"
    return world.case("late-after", checked=False, messages=[world.counts(), note])


def early_end() -> Case:
    """A second capture that ends before the last fifty packets came."""
    world, _ = busy(14)
    end = world.rows[150].came
    world.after = [frame for frame in world.after if frame.time < end]
    seen = max(place for place, row in enumerate(world.rows) if row.left is not None and row.left < end)
    for row in world.rows:
        row.left = row.left if row.left is not None and row.left < end else None
    last = max(row.left for row in world.rows if row.left is not None)
    gone = sum(1 for row in world.rows[seen + 1 :] if row.came > last)
    inside = [row for row in world.rows[seen + 1 :] if row.came <= last]
    world.rows = world.rows[: seen + 1 + len(inside)]
    note = f"{gone} packets came after after.pcap.gz ends: left out, since nothing says what left then"
    (doubt,) = near_end(world)
    return world.case("early-end", checked=False, messages=[world.counts(), note, doubt])


def late_before() -> Case:
    """A first capture that begins after some fifty packets left."""
    world, _ = busy(15)
    begin = world.rows[80].came
    world.before = [frame for frame in world.before if frame.time >= begin]
    missing = sum(1 for row in world.rows[:80] if row.left is not None)
    world.rows = world.rows[80:]
    note = f"{missing} packets after the queue came before before.pcap.gz begins or after it ends: left out"
    return world.case("late-before", checked=False, messages=[world.counts(), note])


def trace_cases() -> Iterator[Case]:
    """Cases that have a trace without an option."""
    for make in (ordinary, one_sided, tagged, other_protocols, no_link, fragments, twice, wrapped, offload,
                 datagrams, joined_after, late_after, early_end, late_before):
        yield make()
    yield from both_ends()
