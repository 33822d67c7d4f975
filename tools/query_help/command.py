"""The command `explain`: asks marple about a query, or a query and a trace, and puts its answer into words."""

import argparse
import os
import re
import subprocess
import sys
import tempfile
from dataclasses import dataclass
from pathlib import Path
from typing import Optional

from query_help import causes, facts, hints, page, traces
from query_help.causes import Cause
from query_help.facts import Fact
from query_help.habits import meant
from query_help.places import place_of
from query_help.situations import situation

CAUSES = {
    "if": "a condition", "greatest": "a condition that keeps the greatest", "least": "min", "forms": "two forms",
    "min": "min", "decay": "decay", "/": "a division", "%": "a division",
    "<<": "a shift", ">>": "a shift", "&": "a bit operation", "|": "a bit operation", "^": "a bit operation",
    "*": "a product", "sadd": "a sum of two",
}
EXACT = {"linear": "exact for any cache.", "other": "by epochs: exact only for keys that stay in the cache."}
UNFIT = {
    "NotAdditive": "this isn't `x = x + e` or `x = x - e` by only the packet",
    "NotMonotone": "this doesn't rise with the state",
}
QUERY_REFUSED, TRACE_REFUSED = 4, 5
LONGEST = 65_536  # bytes of a query; of a longer one no more is looked at
Remedies = dict[str, page.Remedy]
COMPLAINT = re.compile("marple: (out of memory|bad command line|cannot (read|write)|query: |trace: )")


@dataclass
class Query:
    """A query as a file: the name it was given, its bytes, with one character for each in `text`, and its facts."""

    name: str
    data: bytes
    text: str
    facts: Fact

    def place(self, start: int, words: str) -> str:
        return place_of(self.name, self.data, start, words)

    def fold_of(self, groupby: Fact) -> Fact:
        return facts.named(self.facts["folds"], groupby["fold"])


@dataclass
class Answer:
    """What a call of marple gave."""

    status: int
    output: str
    complaint: str


def read(name: str, tools: str) -> Query:
    data = Path(name).read_bytes()
    return Query(name, data, data[:LONGEST].decode("latin-1"), facts.ask(tools, name))


def ask(program: str, words: list[str]) -> Answer:
    """Runs marple. What a launcher says while it builds the program goes on to standard error as it comes."""
    complaint = ""
    with tempfile.TemporaryFile() as output:
        try:
            process = subprocess.Popen(
                [program, *words], stdin=subprocess.DEVNULL, stdout=output, stderr=subprocess.PIPE, encoding="latin-1"
            )
        except OSError as fault:
            sys.exit(f"explain: cannot run {program}: {fault.strerror}")
        with process:
            for line in process.stderr or ():
                if COMPLAINT.match(line):
                    complaint += line
                else:
                    print(line, end="", file=sys.stderr, flush=True)
        output.seek(0)
        return Answer(process.returncode, output.read().decode("latin-1"), complaint)


def plan_words(query: Query, plan: str) -> str:
    """A plan in words: its size, and which groupbys are exact."""
    numbers = {line.split()[0]: line.split()[1] for line in plan.splitlines()}
    stages, operations = (traces.counted(int(numbers[f"{word}s"]), word) for word in ("stage", "operation"))
    said = f"{stages}, {operations}, at most {numbers['bound']} steps for a packet.\n"
    for one in query.facts["groupbys"]:
        said += f"groupby {one['name']}: {one['class']}, depth {query.fold_of(one)['depth']}: {EXACT[one['class']]}\n"
    return said + lacking_words(query)


def lacking_words(query: Query) -> str:
    """The finals that lack keys, since they are made from a groupby of class other."""
    said = ""
    lacking = {one["name"] for one in query.facts["groupbys"] if one["class"] == "other"}
    for final in query.facts["finals"]:
        source = next((name for name in final["inputs"] if name in lacking), None)
        if source:
            lacking.add(final["name"])
            said += (f"final {final['name']}: made from {source}, so a key that left the cache and came back "
                     "has no row in it.\n")
    return said


def other_words(query: Query, remedies: Remedies) -> str:
    """For each fold that isn't linear the places that keep it from being so, each with its remedy."""
    said = ""
    done = set()
    for groupby in query.facts["groupbys"]:
        fold = query.fold_of(groupby)
        if fold["name"] in done:
            continue
        done.add(fold["name"])
        found = causes.why_other(fold)
        for at, cause in enumerate(found):
            words = CAUSES.get(cause.op, "a condition")
            said += query.place(cause.start, f"{fold['name']} isn't linear: {cause_words(cause)}")
            same = at + 1 < len(found) and CAUSES.get(found[at + 1].op) == words
            if not same:
                said += remedy_line(remedies, "other", f"by {words}")
    return said


def loss_words(query: Query, remedies: Remedies) -> str:
    """The places where the infinity of a dropped packet's `tout` is reckoned with, and the remedy."""
    said = ""
    for warning in query.facts["warnings"]:
        name = warning["name"]
        time = "`tout`" if name == "tout" else f"`{name}` comes from `tout`, which"
        said += query.place(warning["start"], f"{time} is infinity for a dropped packet")
    return said + remedy_line(remedies, "tout", "of dropped packets") if said else ""


def cause_words(cause: Cause) -> str:
    carried = f"`{cause.reads}`, which is carried on from packet to packet"
    if cause.op in ("if", "greatest", "least"):
        return f"the condition reads {carried}"
    if cause.op == "forms":
        return "it has sums and maxima"
    return f"`{cause.op}` of {carried}"


def remedy_line(remedies: Remedies, fault: str, where: str = "") -> str:
    found = page.remedy(remedies, fault, where)
    return found.lines() if found else ""


def command_words(query: Query, fault: str, start: int) -> str:
    """Where the fold of the groupby at the byte has what `net` or `enclose` can't take."""
    finders = {"NotAdditive": causes.why_not_additive, "NotMonotone": causes.why_not_monotone}
    if fault not in finders:
        return ""
    groupby = next(one for one in query.facts["groupbys"] if one["start"] == start)
    return "".join(query.place(cause.start, UNFIT[fault]) for cause in finders[fault](query.fold_of(groupby)))


def argument_words(query: Query, fault: Fact, item: Fact) -> str:
    """The arguments of a groupby's fold that are no columns, each where it stands in the fold."""
    said = ""
    fold = facts.named([one for one in query.facts["items"] if one["kind"] == "fold"], item["fold"]["name"])
    for missing in fault["missing"]:
        argument = facts.named(fold["arguments"], missing)
        said += query.place(argument["start"], f"this argument of {fold['name']} is no column of {item['inputs'][0]['name']}")
        said += "".join(f"{hint}\n" for hint in hints.argument_hints(missing, fault, item))
    return said


def grammar_words(query: Query, fault: Fact, remedies: Remedies) -> str:
    """What is said of a fault of the tokens or of the grammar."""
    kind, start = fault["kind"], fault["start"]
    hint = (hints.address_hint(query.text, start) if kind == "BadByte" else None) or meant(kind, query.text, start)
    if hint:
        return f"{hint}\n"
    said = "".join(f"{hint}\n" for hint in hints.syntax_hints(fault, query.text)) if kind == "UnexpectedToken" else ""
    return said + remedy_line(remedies, kind)


def unknown_words(query: Query, fault: Fact) -> str:
    """What a name that isn't known may have been."""
    if fault["missing"]:
        return argument_words(query, fault, query.facts["items"][fault["item"]])
    name = query.text[fault["start"]:fault["end"]]
    habit = meant(fault["kind"], query.text, fault["start"])
    said = f"{habit}\n" if habit else ""
    return said + "".join(f"{hint}\n" for hint in hints.name_hints(name, query.facts, query.text))


def fault_words(query: Query, words: str, start: int, remedies: Remedies) -> str:
    """The place of a query's fault, its remedy, and what may have been meant."""
    said = query.place(start, words)
    fault = query.facts["fault"]
    if fault is None or (fault["kind"], fault["start"]) != (words.split("(")[0], start):  # what another command refuses
        return said + command_words(query, words, start) + remedy_line(remedies, words)
    if fault["kind"] in ("BadByte", "UnexpectedToken"):
        return said + grammar_words(query, fault, remedies)
    if fault["kind"] == "UnknownName":
        said += unknown_words(query, fault)
    return said + remedy_line(remedies, words, situation(fault, query.facts["items"]))


class Session:
    """One call of the command: what it was asked, and where the programs and the remedies are."""

    def __init__(self, program: str, tools: str, remedies: Remedies, asked: argparse.Namespace):
        self.program, self.tools, self.remedies, self.asked = program, tools, remedies, asked

    def words_for(self, command: str) -> list[str]:
        """The words of marple. Without a trace an empty one is given, whose fault only an accepted query comes to."""
        if command == "plan":
            return ["plan", self.asked.query, "--ways", self.asked.ways]
        if command == "compile":
            return ["compile", self.asked.query]
        return [command, self.asked.query, self.asked.trace or os.devnull]

    def refused(self, answer: Answer) -> int:
        """Shows why marple didn't do it."""
        found = re.match(r"marple: query: (.*) at (\d+)$", answer.complaint.strip())
        if answer.status == QUERY_REFUSED and found:
            query = read(self.asked.query, self.tools)
            sys.stdout.write(fault_words(query, found.group(1), int(found.group(2)), self.remedies))
        elif answer.status == TRACE_REFUSED and self.asked.trace:
            words = answer.complaint.strip().removeprefix("marple: trace: ")
            fields = facts.ask(self.tools, self.asked.query)["fields"]
            said, fault, where = traces.explain_trace(Path(self.asked.trace), self.asked.trace, words, fields)
            sys.stdout.write(said + remedy_line(self.remedies, fault, where))
        else:
            sys.stdout.flush()
            sys.stderr.write(answer.complaint)
        return answer.status

    def show_plan(self, plan: Answer) -> None:
        """What marple thinks of a query that it accepts."""
        query = read(self.asked.query, self.tools)
        words = plan_words(query, plan.output) + other_words(query, self.remedies) + loss_words(query, self.remedies)
        sys.stdout.write(words)

    def run(self) -> int:
        command = self.asked.command or ("run" if self.asked.trace else "plan")
        plan = ask(self.program, self.words_for("plan")) if command != "run-plan" else None
        if plan and plan.status != 0:
            return self.refused(plan)
        answer = plan if plan and command == "plan" else ask(self.program, self.words_for(command))
        if answer.status == TRACE_REFUSED and self.asked.trace:
            return self.refused(answer)
        if plan:
            self.show_plan(plan)
        if answer.status in (0, TRACE_REFUSED):
            if command != "plan":
                print(f"{command} takes it.")
            return 0
        if answer.status == QUERY_REFUSED:
            print(f"{command} refuses it:")
        return self.refused(answer)


def main(folder: Path) -> int:
    """Runs the command; folder is that of the script, beside which the program is."""
    parser = argparse.ArgumentParser(
        prog=Path(sys.argv[0]).name,
        description="Says where and why marple refuses a query or a trace, or which of the query's groupbys are exact.",
    )
    parser.add_argument("query", metavar="QUERY", help="the query's file, or a plan's with --for run-plan")
    parser.add_argument("--ways", default="8", help="the cache's ways, for the bound on steps (8)")
    parser.add_argument("--for", dest="command", choices=("run", "net", "enclose", "compile", "run-plan"),
                        help="the command that is to take the query too")
    parser.add_argument("--trace", help="a trace that the query is to be run over too")
    asked = parser.parse_args()
    program = os.environ.get("MARPLE") or str(folder / "marple")
    return Session(program, facts.tools_of(folder, program), page.read_remedies(folder), asked).run()
