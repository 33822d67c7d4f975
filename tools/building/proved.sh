# Whether a proved program is there, for scripts that read this with the folder of the repository in $top.
# shellcheck shell=sh
program="${top:?}/crates/marple/out/marple"

# Lists the program $1 and all sources, each with its size, its number and the times of its content and of the file. The latter is
# the time at which the content was put there, whatever time the content is said to be of.
list_files() {
    (cd "$top" && find "$1" crates.txt crates/*/src crates/*/specs crates/*/proofs \
        -printf '%p %s %i %T@ %C@\n' 2>/dev/null)
}

# Is the program of the crate $1 there, and proved of the sources of now? Contents are summed only if a file isn't what it was.
is_proved() {
    made=crates/$1/out/$1
    # what the files were when the program was last found to be proved
    seen=$top/crates/$1/out/proved.seen
    [ -x "$top/$made" ] || return 1
    if [ -s "$seen" ] && list_files "$made" | cmp -s - "$seen"; then
        return 0
    fi
    if ! command -v python3 >/dev/null; then
        echo "marple: python3, which tells whether a program is proved, isn't on this machine's PATH" >&2
        return 1
    fi
    # in a folder of somebody else nothing is kept
    { list_files "$made" >"$seen.$$"; } 2>/dev/null
    if (cd "$top/tools" && exec python3 -B -m building.proved .. "$1"); then
        mv "$seen.$$" "$seen" 2>/dev/null || rm -f "$seen.$$"
        return 0
    fi
    rm -f "$seen.$$"
    return 1
}

# Writes the name of the first program that isn't there or isn't proved, if one isn't.
unproved() {
    for name in marple marple_tools; do
        if ! is_proved "$name"; then
            echo "$name" | tr _ -
            return
        fi
    done
}
