"""Captures that come through a pipe, preferences of a user, and versions of Python."""

import os
import shutil
import subprocess
import sys
from pathlib import Path

import commands

OLDEST = (3, 10)


def check_surroundings(tally, room: Path) -> None:
    """All of them."""
    check_pipes(tally, room)
    check_old_python(tally)
    if tally.mode == "tshark":
        check_preferences(tally, room)


def check_pipes(tally, room: Path) -> None:
    """Captures that can be read only once, as those of `<(...)` in a shell."""
    folder = room / f"pipes-{tally.mode}"
    folder.mkdir()
    writers = []
    for name in ("before", "after"):
        os.mkfifo(folder / f"{name}.pcap")
        writers.append(subprocess.Popen(["sh", "-c", f'cat "$1/{name}.pcap" >"$2/{name}.pcap"', "sh", commands.EXAMPLES, folder]))
    done = commands.script("trace-from-captures", ["before.pcap", "after.pcap"], folder, "examples")
    for writer in writers:
        writer.kill()
        writer.wait()
    tally.same((done.returncode, done.stdout), (0, (commands.EXAMPLES / "queue.csv").read_text()), "the trace of pipes")


def check_preferences(tally, room: Path) -> None:
    """A user whose Wireshark doesn't dissect Ethernet."""
    folder = room / "home" / ".config" / "wireshark"
    folder.mkdir(parents=True)
    (folder / "disabled_protos").write_text("eth\n")
    environment = commands.ENVIRONMENT | {"HOME": str(room / "home"), "XDG_CONFIG_HOME": str(room / "home" / ".config")}
    environment.pop("WIRESHARK_CONFIG_DIR", None)
    words = [sys.executable, str(commands.SCRIPTS / "trace-from-captures"), "before.pcap", "after.pcap"]
    done = subprocess.run(words, cwd=commands.EXAMPLES, env=environment, text=True, capture_output=True, check=False)
    tally.same((done.returncode, done.stdout), (0, (commands.EXAMPLES / "queue.csv").read_text()), "the trace of such a user")


def oldest_python() -> str | None:
    """The oldest Python that is enough, if it is here."""
    name = "python%d.%d" % OLDEST
    kept = Path.home() / ".pyenv" / "versions"
    for python in [shutil.which(name), *map(str, kept.glob("%d.%d.*/bin/python3" % OLDEST))]:
        if python and subprocess.run([python, "-c", ""], capture_output=True, check=False).returncode == 0:
            return python
    return None


def check_old_python(tally) -> None:
    """The oldest Python that is enough has the same traces, and an older one is refused with the reason."""
    python = oldest_python()
    if python is None:
        tally.skip("python%d.%d" % OLDEST, "the capture scripts by it")
    kept = Path(commands.ENVIRONMENT["KEPT"]) / "examples"
    for name, words in (("trace-from-captures", ["before.pcap", "after.pcap"]), ("trace-from-capture", ["mixed.pcap"])):
        script = str(commands.SCRIPTS / name)
        right = commands.example(name, words)
        if python is not None:
            done = commands.run([python, script, *words], commands.EXAMPLES, kept)
            tally.same((done.returncode, done.stdout), (0, right.stdout), name, "by the oldest Python")
        older = "import runpy, sys; sys.version_info = (3, 9, 18); runpy.run_path(sys.argv[1])"
        done = commands.run([sys.executable, "-c", older, script, *words], commands.EXAMPLES, kept)
        said = f"{name}: needs Python 3.10 or later, and this is 3.9\n"
        tally.same((done.returncode, done.stdout, done.stderr), (1, "", said), name, "by an older Python")
