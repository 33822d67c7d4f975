# What the scripts of tests/ share. A script reads it first, by `. "$(dirname "$0")/common.sh"`, and has then
#
#   top        the folder of the repository
#   here       the folder of the script
#   room       an empty folder, removed when the script ends
#   count      counts one check as passed or failed
#   skip       counts one check as skipped
#   finish     prints the counts, the script's last line
#   need_program   finds the program under test
#   need_proved_program   finds the program under test, and not its launcher
#
# shellcheck shell=sh
set -u
here=$(cd "$(dirname "$0")" && pwd) || exit 1
top=${here%/tests*}
room=$(mktemp -d) || exit 1
trap 'rm -rf "$room"' EXIT
trap 'exit 129' HUP
trap 'exit 130' INT
trap 'exit 143' TERM
passed=0
failed=0
skipped=0

# Sets `marple` to the program under test: $MARPLE, or ./marple of the repository. Ends the script where it can't make a
# trace of one packet, as where it is no program, or has no answer without a proof.
need_program() {
    marple=${MARPLE:-$top/marple}
    case $marple in
    /*) ;;
    */*) marple=$PWD/$marple ;;
    esac
    if ! command -v "$marple" >/dev/null; then
        echo "$0: there is no program $marple" >&2
        exit 1
    fi
    "$marple" gen 1 1 >/dev/null
    status=$?
    if [ "$status" -ne 0 ]; then
        echo "$0: $marple gen 1 1 ended with status $status" >&2
        exit 1
    fi
}

# Sets `marple` to the program itself and not to its launcher: $MARPLE, or the proved one of the repository, which must
# be that of its sources.
need_proved_program() {
    if [ -z "${MARPLE:-}" ]; then
        # shellcheck source=tools/building/proved.sh
        . "$top/tools/building/proved.sh"
        if ! is_proved marple; then
            echo "$0: the program isn't proved, or its sources are newer: ./build proves it" >&2
            exit 1
        fi
        MARPLE=$program
    fi
    need_program
}

# Counts a check by the status $1 of what was checked. The words after it name the check where it failed.
count() {
    if [ "$1" -eq 0 ]; then
        passed=$((passed + 1))
        return 0
    fi
    failed=$((failed + 1))
    shift
    echo "$* failed"
    return 1
}

# Counts a check that can't be made without the tool $1, which isn't there. The words after it name the check.
skip() {
    skipped=$((skipped + 1))
    tool=$1
    shift
    echo "skipped for want of $tool: $*"
}

# Ends the script: prints `N passed, M failed`, with `, K skipped` where a tool wasn't there, and has status 0 where nothing
# failed and not each count is 0.
finish() {
    counts="$passed passed, $failed failed"
    [ "$skipped" -eq 0 ] || counts="$counts, $skipped skipped"
    echo "$counts"
    [ "$failed" -eq 0 ] && [ $((passed + skipped)) -gt 0 ]
}
