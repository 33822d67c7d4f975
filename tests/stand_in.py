"""A toolchain that stands in for the real one: its compiler proves nothing, but takes a while and notes what it was called with.

In the folder `room`: `log` has a line where a proof begins and one where it ends, `words` the words of each call. Proofs stand
still while there is a file `holds`; the crate that the file `refused` names is refused; where there is `short-of-memory` the next
proof is killed, and where there is `edits` each proof changes a source. A check of a copy says what the file `says` has, if there is
one, and then refuses the crate. The crates are in the folder `tree`.
"""

from __future__ import annotations

from collections.abc import Iterable
from pathlib import Path

from checks import put

# `rt` names the toolchain's folder and version.
RT = """#!/bin/sh
room=$(cd "$(dirname "$0")/.." && pwd)
case $1 in
version) cat "$room/version" ;;
doc) echo "$room/kit/START-HERE.md" ;;
*) exit 2 ;;
esac
"""
FLAGS = "--crate-name --extern -L --antt-project --logic-built --incremental --statements --links --jobs --toolchain --backend".split()
# `rattle build` fails where a library isn't there yet.
RATTLE = r"""#!/bin/sh
room=$(cd "$(dirname "$0")/../.." && pwd)
if [ "$2" = --help ]; then
    cat "$room/help"
    exit
fi
command=$1
name=$3
echo "$*" >>"$room/words"
while [ "$#" -gt 0 ]; do
    case $1 in
    --extern) case ${2#*=} in "$room/tree"/*) [ -e "${2#*=}/proved" ] || { echo "no library $2"; exit 2; } ;; esac ;;
    --jobs) jobs=$2 ;;
    -o) made=$2 ;;
    esac
    shift
done
if [ "$command" = check ]; then
    mkdir -p out/incremental
    # what an edit is tried on is a copy of the crate
    case $PWD in *marple-edit-*) ;; *) echo logic=proved; exit 0 ;; esac
    echo "check $name" >>"$room/log"
    while [ -e "$room/holds" ]; do sleep 0.1; done
    [ -e "$room/says" ] || { echo logic=proved; exit 0; }
    cat "$room/says"
    exit 1
fi
echo "begin $name $jobs" >>"$room/log"
if [ -e "$room/short-of-memory" ]; then
    rm "$room/short-of-memory"
    kill -KILL $$
fi
[ ! -e "$room/edits" ] || echo edited >>src/lib.rt
while [ -e "$room/holds" ]; do sleep 0.1; done
if [ "$(cat "$room/refused" 2>/dev/null)" = "$name" ]; then
    printf 'src/lib.rt:1:1: error\nlogic=not-proved\n'
    exit 1
fi
case $made in
*.rlib) mkdir -p "$made" && : >"$made/proved" ;;
*) : >"$made" ;;
esac
echo "end $name" >>"$room/log"
echo logic=proved
"""
LINK = r"""#!/bin/sh
while [ "$1" != -o ]; do shift; done
[ -e "$3" ] || exit 1
printf '#!/bin/sh\necho "started with $*"\n' >"$2"
chmod +x "$2"
"""


def say_flags(room: Path, flags: Iterable[str]) -> None:
    """Has the compiler's help name these flags."""
    put(room / "help", "".join(f"      {it} <WORD>\n" for it in flags))


def make_toolchain(room: Path) -> None:
    """Puts the toolchain into the folder, with `rt` in bin and the rest in kit."""
    put(room / "bin/rt", RT, executable=True)
    put(room / "version", "rattle-kit-13f logic 1\n")
    say_flags(room, FLAGS)
    put(room / "kit/bin/rattle", RATTLE, executable=True)
    put(room / "kit/bin/rattle-link", LINK, executable=True)
