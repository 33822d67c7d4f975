"""What `plan` writes of a query."""

from dataclasses import dataclass

FIELDS = (
    "switch", "qid", "uid", "srcip", "dstip", "srcport", "dstport", "proto",
    "pkt_len", "payload_len", "tcpseq", "tin", "tout", "qsize",
)  # fmt: skip


@dataclass(frozen=True)
class Groupby:
    """A groupby in a plan. kind: `linear` or `other`; depth: how many packets back its fold looks; keys, args, states:
    how many.
    """

    name: str
    kind: str
    depth: int
    keys: int
    args: int
    states: int


@dataclass(frozen=True)
class Plan:
    """The stages of a query. stages: the operations of each; bound: the most steps of a packet; text: that
    of the program.
    """

    stages: tuple[int, ...]
    groupbys: tuple[Groupby, ...]
    bound: int
    text: str


def read_plan(text: str) -> Plan:
    """Reads the text that `plan` writes."""
    stages, groupbys, bound = [], [], 0
    for line in text.splitlines():
        words = line.split(" ")
        if words[0] == "stage":
            stages.append(int(words[2]))
        elif words[0] == "groupby":
            groupbys.append(Groupby(words[1], words[2], *map(int, (words[3], *words[5::2]))))
        elif words[0] == "bound":
            bound = int(words[1])
    return Plan(tuple(stages), tuple(groupbys), bound, text)
