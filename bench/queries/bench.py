"""Five queries over the generator's trace of 1,000,000 packets, compared with Rust, awk, datamash and sqlite3.

`hand` does in Rust what marple does but for the epochs, and `limit` the least that gives the answer.
"""

from __future__ import annotations

import shutil

from measure import Command, Race
from workshop import Workshop

PACKETS = 1_000_000
COUNTED = 100_000
QUERIES = {
    "count": "count: packets by source",
    "sum": "sum: bytes by flow",
    "max": "max: longest queue by source",
    "oos": "oos: packets out of sequence by flow",
    "eight": "eight: eight groupbys",
}
FLOW = "srcip, dstip, srcport, dstport, proto"
DATAMASH = {"count": "-g 4 count 4", "sum": "-g 4,5,6,7,8 sum 9", "max": "-g 4 max 14"}
SQL = {
    "count": "SELECT srcip, count(*) FROM t GROUP BY srcip",
    "sum": f"SELECT {FLOW}, sum(CAST(pkt_len AS INTEGER)) FROM t GROUP BY {FLOW}",
    "max": "SELECT srcip, max(CAST(qsize AS INTEGER)) FROM t GROUP BY srcip",
    "oos": f"SELECT {FLOW}, sum(tcpseq + 0 <> wanted) FROM (SELECT {FLOW}, tcpseq, lag(tcpseq + payload_len, 1, 0) "
    f"OVER (PARTITION BY {FLOW} ORDER BY rowid) AS wanted FROM t) GROUP BY {FLOW}",
}


def marple_rows(output: bytes) -> list[str]:
    """The rows of marple's tables without mark, epoch and epochs."""
    rows = []
    mark = -1
    lines = iter(output.decode().splitlines())
    for line in lines:
        if line.startswith("table "):
            mark = next(lines).split(",").index("mark")
            table = line.split()[1]
            continue
        columns = line.split(",")
        rows.append(",".join([table, *columns[:mark], *columns[mark + 3 :]]))
    return rows


def answer_of(query: str):
    """The sorted rows that all programs have: of `oos` those without the sequence number that is expected next."""

    def answer(program: str, output: bytes) -> object:
        if program == "marple":
            rows = marple_rows(output)
            rows = rows if query == "eight" else [row.partition(",")[2] for row in rows]
        else:
            rows = output.decode().splitlines()
        if query == "oos":
            parts = [row.split(",") for row in rows]
            rows = [",".join([*part[:5], part[-1]]) for part in parts]
        return sorted(rows)

    return answer


def commands(shop: Workshop, query: str, trace: str, rust: dict[str, str]) -> dict[str, Command]:
    """The programs for a query that are there, with their commands over a trace."""
    found = {"marple": [shop.marple, "run", shop.query(query), trace], "hand": [rust["hand"], query, trace]}
    if query == "eight":
        return found
    found["limit"] = [rust["limit"], query, trace]
    for awk in ("mawk", "gawk"):
        found[awk] = [awk, "-f", str(shop.here / f"{query}.awk"), trace]
    if query in DATAMASH:
        words = f'LC_ALL=C exec datamash -t, --header-in -s {DATAMASH[query]} <"$1"'
        found["datamash"] = ["sh", "-c", words, "datamash", trace]
    found["sqlite3"] = ["sqlite3", ":memory:", ".mode csv", f".import {trace} t", f"{SQL[query]};"]
    return {name: command for name, command in found.items() if name not in PEERS or shutil.which(name)}


PEERS = ("mawk", "gawk", "datamash", "sqlite3")


def races(shop: Workshop) -> list[Race]:
    """A race for each query; instructions are counted over fewer packets, of marple and the Rust programs."""
    rust = {"hand": shop.rust("hand/main.rs"), "limit": shop.rust("limit.rs")}
    whole, part = shop.trace(PACKETS), shop.trace(COUNTED)
    found = []
    for query, name in QUERIES.items():
        small = commands(shop, query, part, rust)
        counted = {program: small[program] for program in ("marple", *rust) if program in small}
        found.append(Race(name, commands(shop, query, whole, rust), answer=answer_of(query), small=counted))
    return found
