# How a page shows files and commands, for scripts that have read common.sh. A block of a page is lines after four blanks. One after
# a line "`FILE`:" is that file. In a block a line that begins with `$ ` is a command, with the lines after it that begin with a blank
# or with `$ `, and writes the lines up to the next one. A block with a block after it, and only the word "prints" between them, is
# a command that has lines of another form, and writes that block.
# shellcheck shell=sh
: "${room:?}"

# Cuts the page $1 into files, in its order: N.file has the name of a file and N.block what the page shows of it; N.command has
# a command and N.answer what the page says that it prints.
cut_page() {
    rm -f "$room"/*.file "$room"/*.block "$room"/*.command "$room"/*.answer
    awk -v room="$room" '
    function piece() { return sprintf("%03d", ++pieces) }
    function put(name, text) { printf "%s", text >(room "/" name); close(room "/" name) }
    function put_command() {
        if (answer == "") return
        at = piece(); put(at ".command", command); put(at ".answer", answer)
        command = answer = ""
    }
    # Takes the lines of a block that begin with a command.
    function finish_session(lines, number,   i, line) {
        for (i = 1; i < number; i++) {
            line = lines[i]
            if (line ~ /^\$ /) { put_command(); command = command substr(line, 3) "\n" }
            else if (answer == "" && line ~ /^ /) command = command line "\n"
            else if (line != "") answer = answer line "\n"
        }
        put_command()
        command = ""
    }
    function finish(   start, at, lines) {
        if (!open) return
        open = 0
        sub(/\n+$/, "\n", block)
        if (match("\n" block, /\n\$ /)) {
            start = RSTART
            session = substr(block, start)
            block = substr(block, 1, start - 1)
            sub(/\n+$/, "\n", block)
        }
        if (named != "") { at = piece(); put(at ".file", named "\n"); put(at ".block", block) }
        else if (words == "prints") { at = piece(); put(at ".command", last); put(at ".answer", block) }
        if (session != "") finish_session(lines, split(session, lines, "\n"))
        last = block; named = ""; words = ""; block = ""; session = ""
    }
    /^    / { open = 1; block = block substr($0, 5) "\n"; next }
    /^$/ { if (open) block = block "\n"; next }
    { finish(); words = words $0; named = "" }
    /^`[^`]*`:$/ { named = substr($0, 2, length($0) - 3) }
    END { finish() }
    ' "$1"
}

# Whether Python has the module $1.
has_module() {
    python3 -c "import $1" 2>/dev/null
}

# The first tool of the command in the file $1 that isn't there.
missing_tool() {
    for tool in tshark sqlite3 mlr datamash python3; do
        if grep -qE "(^|[| ])$tool " "$1" && ! command -v "$tool" >/dev/null; then
            echo "$tool"
            return
        fi
    done
    if grep -qE 'trace-from-captures? |marple\.report ' "$1" && ! command -v tshark >/dev/null; then
        echo tshark
    elif grep -q 'import pandas' "$1" && ! has_module pandas; then
        echo pandas
    elif grep -qE 'cookbook/draw |marple\.report ' "$1" && ! has_module matplotlib; then
        echo matplotlib
    elif grep -q 'marple\.report ' "$1" && ! has_module jinja2; then
        echo jinja2
    fi
}

# Compares the files $1 and $2, under the name that follows.
compare() {
    one=$1 other=$2
    shift 2
    cmp -s "$one" "$other"
    count $? "$*" || diff "$one" "$other" | head -n 10
}
