"""Runs the capture scripts and marple, and checks what no single case is about: options, messages, places, memory."""

import gzip
import os
import pty
import re
import shutil
import subprocess
import sys
from pathlib import Path

HERE = Path(__file__).resolve().parent
TOP = HERE.parent.parent
SCRIPTS = TOP / "tools" / "captures"
EXAMPLES = TOP / "examples" / "captures"
MARPLE = os.environ.get("MARPLE", str(TOP / "marple"))
WAITING = 100_000
# Writes the most memory that a command takes, or 0 where it fails. A process counts what the one that started it had, so that
# is this small one.
MEASURE = """
import resource, subprocess, sys
done = subprocess.run(sys.argv[1:], stdout=subprocess.DEVNULL, stderr=subprocess.DEVNULL)
print(resource.getrusage(resource.RUSAGE_CHILDREN).ru_maxrss if done.returncode == 0 else 0)
"""
ENVIRONMENT = dict(os.environ)


def use(kept: bool, folder: Path, stand_in: Path) -> None:
    """Lets scripts find the stand-in that writes kept text, or tshark itself."""
    ENVIRONMENT["PATH"] = f"{stand_in}:{os.environ['PATH']}" if kept else os.environ["PATH"]
    ENVIRONMENT["KEPT"] = str(folder)


def run(words: list[str], folder: Path, kept: Path | None = None, **how) -> subprocess.CompletedProcess[str]:
    """Runs a command in a folder; `kept` has the text of its captures."""
    environment = ENVIRONMENT | ({"MARPLE_KEPT": str(kept)} if kept else {})
    return subprocess.run(words, cwd=folder, env=environment, text=True, capture_output=True, check=False, **how)


def script(name: str, words: list[str], folder: Path, kept: str) -> subprocess.CompletedProcess[str]:
    """Runs a script on captures of a folder."""
    return run([str(SCRIPTS / name), *words], folder, Path(ENVIRONMENT["KEPT"]) / kept)


def tables(query: Path, trace: Path) -> dict[tuple[str, ...], tuple[int, ...]]:
    """What marple counts for each flow."""
    text = subprocess.run([MARPLE, "run", str(query), str(trace)], text=True, capture_output=True, check=True).stdout
    found: dict[tuple[str, ...], tuple[int, ...]] = {}
    for line in text.splitlines():
        words = line.split(",")
        if "exact" in words:
            quads = [".".join(str(int(word) >> shift & 255) for shift in (24, 16, 8, 0)) for word in words[:2]]
            flow = (*quads, *words[2:5])
            found[flow] = found.get(flow, ()) + tuple(map(int, words[8:]))
    return {flow: numbers if len(numbers) == 4 else (*numbers, 0) for flow, numbers in found.items()}


def dropped(path: Path) -> int:
    """How many packets the queue dropped, by its own count."""
    found = re.search(r"dropped (\d+),", path.read_text())
    return int(found.group(1)) if found else 0


def example(name: str, words: list[str]) -> subprocess.CompletedProcess[str]:
    """Runs a script on the captures of the examples."""
    return script(name, words, EXAMPLES, "examples")


def columns(text: str, number: int) -> list[str]:
    """One column of a trace, counted from 0."""
    return [line.split(",")[number] for line in text.splitlines()[1:]]


def check_examples(tally, room: Path) -> None:
    """The captures of the examples: their traces, and what each option changes in them."""
    both = ["before.pcap", "after.pcap"]
    right = (EXAMPLES / "queue.csv").read_text()
    done = example("trace-from-captures", both)
    tally.same(done.stdout, right, "the trace of two captures")
    date = "time 0 is 2026-11-27 14:28:42 UTC, second 1795789722 of 1970"
    said = ["818 packets came, 591 left, 227 never did", date]
    tally.same(done.stderr, "".join(f"trace-from-captures: {line}\n" for line in said), "its counts and time 0")
    lost = dropped(EXAMPLES / "qdisc.txt")
    tally.check(0 < lost == right.count(",inf,"), "the loss against the count of the queue")
    done = example("trace-from-captures", ["--switch", "7", "--queue", "2", *both])
    tally.same(re.sub("(?m)^7,2,", "1,0,", done.stdout), right, "the options for switch and queue")
    done = example("trace-from-captures", ["--origin", "1795789720", *both])
    later = [str(int(time) + 2 * 10**9) for time in columns(right, 11)]
    tally.same(columns(done.stdout, 11), later, "an origin")
    done = example("trace-from-captures", ["--shift", "1000000000", *both])
    later = [time if time == "inf" else str(int(time) + 10**9) for time in columns(right, 12)]
    tally.same(columns(done.stdout, 12), later, "a shift")
    done = example("trace-from-captures", ["--direction", "10.0.1.2/31", *both])
    tally.same(set(columns(done.stdout, 3)), {"10.0.1.2", "10.0.1.3"}, "a direction")
    done = example("trace-from-captures", ["--force", *both[::-1]])
    tally.same((done.returncode, len(columns(done.stdout, 0))), (0, 591), "swapped files by force")
    check_single(tally, right)


def check_single(tally, right: str) -> None:
    """Traces of one capture."""
    done = example("trace-from-capture", ["before.pcap"])
    wanted = [",".join([*line.split(",")[:12], line.split(",")[11], "0"]) for line in right.splitlines()[1:]]
    tally.same(done.stdout.splitlines()[1:], wanted, "the trace of one capture")
    date = "time 0 is 2026-11-27 14:28:42 UTC, second 1795789722 of 1970"
    said = "".join(f"trace-from-capture: {line}\n" for line in ("818 packets were read", date))
    tally.same(done.stderr, said, "its count and time 0")
    done = example("trace-from-capture", ["mixed.pcap"])
    mixed = (EXAMPLES / "mixed.csv").read_text()
    tally.same(done.stdout, mixed, "the trace of mixed packets")
    tally.check("trace-from-capture: 10 packets without IPv4 were passed over\n" in done.stderr, "their count")
    done = example("trace-from-captures", ["--both-directions", "mixed.pcap", "mixed.pcap"])
    said = done.stderr.splitlines()[-1]
    twice = "mixed.pcap is given twice: give the capture before the queue and the one after it"
    tally.same((done.returncode, done.stdout), (1, ""), "one file given twice")
    tally.same(said, f"trace-from-captures: no trace: {twice} (--force makes one all the same)", "what is said of one file")
    done = example("trace-from-captures", ["--force", "--both-directions", "mixed.pcap", "mixed.pcap"])
    tally.same(done.stdout, mixed, "mixed packets that leave as they come")


def check_messages(tally, room: Path) -> None:
    """What is said of words, files and tools that aren't right, and where a script stands."""
    for name, words in (("trace-from-captures", ["before.pcap", "after.pcap"]), ("trace-from-capture", ["before.pcap"])):
        done = example(name, ["--origin", "1795789730", *words])
        said = (done.returncode, done.stderr.splitlines()[-1])
        tally.same(said, (1, f"{name}: packet 1 came before the origin"), "an origin too late")
        done = example(name, ["nowhere.pcap", *words[1:]])
        wanted = f"{name}: cannot read nowhere.pcap: No such file or directory\n"
        tally.same((done.returncode, done.stderr), (1, wanted), "a missing capture")
        (room / "text").write_text("no capture\n")
        done = example(name, [str(room / "text"), *words[1:]])
        wanted = f"{name}: tshark cannot read {room}/text: "
        tally.check(done.returncode == 1 and done.stderr.startswith(wanted), name, "a file that is no capture")
        done = example(name, [])
        tally.check(done.returncode == 2 and done.stderr.startswith(f"usage: {name} "), name, "without words")
        for number in ("-1", "x", "1.5"):
            done = example(name, ["--switch", number, *words])
            tally.check(done.returncode == 2 and not done.stdout, name, "with the switch", number)
        check_without_tshark(tally, room, name, words)
        check_elsewhere(tally, room, name, words)
    done = example("trace-from-captures", ["--split", "120", "before.pcap", "after.pcap"])
    tally.check(done.returncode == 2 and "--split" in done.stderr, "pieces that are too short")
    check_progress(tally)


def check_without_tshark(tally, room: Path, name: str, words: list[str]) -> None:
    """A search path without tshark."""
    tools = room / "tools"
    tools.mkdir(exist_ok=True)
    (tools / "python3").unlink(missing_ok=True)
    (tools / "python3").symlink_to(sys.executable)
    words = [sys.executable, str(SCRIPTS / name), *words]
    done = subprocess.run(words, cwd=EXAMPLES, env={"PATH": str(tools)}, text=True, capture_output=True)
    wanted = f"{name}: needs tshark (on Debian and Ubuntu: apt-get install tshark)\n"
    tally.same((done.returncode, done.stderr), (1, wanted), "without tshark")


def check_elsewhere(tally, room: Path, name: str, words: list[str]) -> None:
    """A script that was installed under another name."""
    prefix = room / "prefix"
    shutil.rmtree(prefix, ignore_errors=True)
    (prefix / "bin").mkdir(parents=True)
    shutil.copy(SCRIPTS / name, prefix / "bin" / f"marple-{name}")
    shutil.copytree(SCRIPTS / "marple_captures", prefix / "share" / "marple" / "marple_captures")
    there = run([str(prefix / "bin" / f"marple-{name}"), *words], EXAMPLES, Path(ENVIRONMENT["KEPT"]) / "examples")
    here = example(name, words)
    tally.same((there.returncode, there.stdout), (0, here.stdout), name, "in another place")
    tally.same(there.stderr, here.stderr.replace(name, f"marple-{name}"), name, "under another name")


def check_progress(tally) -> None:
    """Progress on a terminal, and none elsewhere."""
    reader, terminal = pty.openpty()
    words = [str(SCRIPTS / "trace-from-captures"), "before.pcap", "after.pcap"]
    environment = ENVIRONMENT | {"MARPLE_KEPT": f"{ENVIRONMENT['KEPT']}/examples"}
    with subprocess.Popen(words, cwd=EXAMPLES, env=environment, stdout=subprocess.DEVNULL, stderr=terminal) as process:
        process.wait()
    os.close(terminal)
    shown = os.read(reader, 65536).decode()
    os.close(reader)
    line = re.search(r"\rtrace-from-captures: [\d,]+ and [\d,]+ packets were read\r", shown)
    tally.check(line is not None, "progress on a terminal")


def peak(room: Path, waiting: int) -> int:
    """The most memory in bytes that the script needs while `waiting` packets wait for their match."""
    folder = room / f"waiting-{waiting}"
    folder.mkdir()
    line = "0x0800\t18000000{:02}.{:09}\t450005dc{:04x}0000400600000a0001010a0002029c411389{:08x}000000018010\n"
    with gzip.open(folder / "before.gz", "wt", compresslevel=1) as file:
        file.writelines(line.format(n // 10**6, n % 10**6 * 1000, n % 65536, n * 1448) for n in range(waiting))
    gzip.open(folder / "after.gz", "wt").close()
    (folder / "before.pcap").touch()
    (folder / "after.pcap").touch()
    words = [str(SCRIPTS / "trace-from-captures"), "--force", "before.pcap", "after.pcap"]
    done = run([sys.executable, "-c", MEASURE, *words], folder, folder)
    return int(done.stdout) * 1024


def check_memory(tally, room: Path) -> None:
    """At most 200 bytes for each packet that waits for its match."""
    few, many = peak(room, 1000), peak(room, WAITING + 1000)
    tally.check(0 < few < many <= few + 200 * WAITING, f"memory: {(many - few) / WAITING:.0f} bytes for each packet that waits,")
