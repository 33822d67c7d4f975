"""What is left behind where a signal ends a command: nothing."""

import os
import signal
import subprocess
import time
from collections.abc import Callable
from pathlib import Path

import commands
from checks import hear_signals

LONGEST = 30.0  # seconds to wait for anything
TOOL = """\
#!/bin/sh
# Stands in for a tool that make-captures needs: writes down its words, and goes on as the real one would. The first flow sends
# make-captures the signal MARPLE_SIGNAL, if there is one.
echo "$(basename "$0") $*" >>"$MARPLE_CALLS"
case "$(basename "$0") $*" in
*" tcpdump "* | *" nc "*)
    echo $$ >>"$MARPLE_CALLS.running"
    case "${MARPLE_SIGNAL-} $*" in
    [A-Z]*" -p 40001 "*) kill -s "$MARPLE_SIGNAL" "$PPID" ;;
    esac
    exec sleep 600
    ;;
esac
"""


def wait_for(there: Callable[[], bool]) -> bool:
    """Whether something comes about in time."""
    end = time.monotonic() + LONGEST
    while not there() and time.monotonic() < end:
        time.sleep(0.02)
    return there()


def end_by(process: subprocess.Popen[bytes], number: signal.Signals) -> None:
    """Ends a process by a signal, or in any case if it doesn't hear that."""
    process.send_signal(number)
    if not wait_for(lambda: process.poll() is not None):
        process.kill()


def is_running(process: int) -> bool:
    """Whether a process is there and isn't a zombie."""
    try:
        return Path(f"/proc/{process}/stat").read_text().rsplit(")", 1)[1].split()[0] != "Z"
    except OSError:
        return False


def check_make_captures(tally, room: Path) -> None:
    """Namespaces and captures of make-captures, whose tools are stand-ins."""
    tools = room / "stand-ins"
    tools.mkdir()
    for name in ("ip", "tc", "ethtool", "tcpdump", "nc", "sysctl"):
        (tools / name).write_text(TOOL)
        (tools / name).chmod(0o755)
    for number, name, early in ((signal.SIGTERM, "TERM", False), (signal.SIGHUP, "HUP", False), (signal.SIGINT, "INT", False),
                                (signal.SIGINT, "INT as flows begin", True)):
        calls = room / f"calls-{name}"
        running = Path(f"{calls}.running")
        environment = os.environ | {"PATH": f"{tools}:{os.environ['PATH']}", "MARPLE_CALLS": str(calls)}
        environment |= {"MARPLE_SIGNAL": "INT"} if early else {}
        words = ["sh", str(commands.SCRIPTS / "make-captures"), str(room / f"taken-{name}")]
        quiet = {"stdout": subprocess.DEVNULL, "stderr": subprocess.DEVNULL}
        with subprocess.Popen(words, env=environment, preexec_fn=hear_signals, **quiet) as process:
            started = early or wait_for(lambda: running.exists() and len(running.read_text().split()) == 8)
            if not early or not wait_for(lambda: process.poll() is not None):
                end_by(process, number)
        said = calls.read_text().splitlines()
        added = {line.split()[-1] for line in said if line.startswith("ip netns add")}
        deleted = {line.split()[-1] for line in said if line.startswith("ip netns del")}
        left = [int(word) for word in running.read_text().split()]
        tally.check(started and len(added) == 3 and added == deleted, "the namespaces of make-captures after", name)
        tally.check(wait_for(lambda: not any(map(is_running, left))), "what make-captures started, after", name)
        tally.same(process.returncode, 128 + number, "the status of make-captures after", name)


def check_scripts(tally, room: Path) -> None:
    """The folder of a capture script, and its tshark, which waits."""
    tools, folder = room / "waiting", room / "temporary"
    tools.mkdir()
    folder.mkdir()
    (tools / "tshark").write_text('#!/bin/sh\necho $$ >>"$MARPLE_CALLS"\nexec sleep 600\n')
    (tools / "tshark").chmod(0o755)
    calls = room / "calls-tshark"
    environment = os.environ | {"PATH": f"{tools}:{os.environ['PATH']}", "MARPLE_CALLS": str(calls), "TMPDIR": str(folder)}
    words = [str(commands.SCRIPTS / "trace-from-captures"), "before.pcap", "after.pcap"]
    with subprocess.Popen(words, cwd=commands.EXAMPLES, env=environment, stdout=subprocess.DEVNULL) as process:
        started = wait_for(lambda: calls.exists() and len(calls.read_text().split()) == 2)
        end_by(process, signal.SIGTERM)
    tally.same((started, process.returncode), (True, 128 + signal.SIGTERM), "the status of a script after TERM")
    tally.same(list(folder.iterdir()), [], "the folders of a script after TERM")
    left = [int(word) for word in calls.read_text().split()]
    tally.check(wait_for(lambda: not any(map(is_running, left))), "the tshark of a script after TERM")
