# What is installed where, for scripts that read this with the folder of the repository in $top, a folder of their own in $room,
# the version in $version and a function `fail`: below $room/stage is then what goes below a prefix.
# shellcheck shell=sh
: "${top:?}" "${room:?}" "${version:?}"
# The proved programs, a line each: the name in bin, and the file. Each of them may have a manual page docs/NAME.1.
programs='
marple crates/marple/out/marple
marple-tools crates/marple_tools/out/marple_tools
'

# The pages that are about the repository, and aren't installed.
about_repository='ARCHITECTURE|CHANGING|DECISIONS|TESTING'

# Puts the file $1 of the repository at $2 below the stage, with the mode $3.
stage() {
    if ! { mkdir -p "$room/stage/${2%/*}" && cp "$top/$1" "$room/stage/$2" && chmod "$3" "$room/stage/$2"; }; then
        fail "cannot copy $1"
    fi
}

# Puts a link to $1 at $2 below the stage.
stage_link() {
    if ! { mkdir -p "$room/stage/${2%/*}" && ln -s "$1" "$room/stage/$2"; }; then
        fail "cannot make a link"
    fi
}

# Puts the files $3.. of the repository's folder $1, or those that match a pattern there, into the folder $2 below the stage, each
# with the mode that it has.
stage_files() {
    from=$1 to=$2
    shift 2
    for pattern in "$@"; do
        for file in "$top/$from"/$pattern; do
            [ -f "$file" ] || continue
            mode=644
            [ ! -x "$file" ] || mode=755
            stage "$from/${file##*/}" "$to/${file##*/}" "$mode"
        done
    done
}

# Puts the page $1 of the repository at $2 below the stage, with the commands of the installed programs. A link to a page that isn't
# installed becomes its words.
stage_page() {
    mkdir -p "$room/stage/${2%/*}" || fail "cannot make ${2%/*}"
    if ! { sed -E -f "$top/tools/building/installed.sed" "$top/$1" >"$room/page" &&
        sed -zE "s#\[([^]]*)\]\([a-z./]*($about_repository)\.md[^)]*\)#\1#g" "$room/page" >"$room/stage/$2"; }; then
        fail "cannot copy $1"
    fi
}

# Puts a command $1 into bin, which starts the script $2 of share/marple.
stage_command() {
    mkdir -p "$room/stage/bin" || fail "cannot make bin"
    cat >"$room/stage/bin/$1" <<END
#!/bin/sh
exec "\$(dirname -- "\$(readlink -f -- "\$0")")/../share/marple/$2" "\$@"
END
    chmod 755 "$room/stage/bin/$1"
}

# The names of the proved programs.
program_names() {
    printf '%s' "$programs" | sed -n 's/ .*//p'
}

# Puts the programs, the scripts, and what they read.
stage_programs() {
    while read -r name file; do
        [ -z "$name" ] || stage "$file" "bin/$name" 755
    done <<END
$programs
END
    # explain looks for marple and for the remedies where it is itself
    stage explain share/marple/explain 755
    stage_link ../../bin/marple share/marple/marple
    stage_files tools/query_help share/marple/query_help '*.py'
    stage_page docs/ERRORS.md share/marple/docs/ERRORS.md
    stage_command marple-explain explain
    stage_files examples/captures share/marple/captures '*.pcap' '*.csv' '*.txt'
    stage_files tools/captures share/marple/captures 'trace-from-*'
    stage_files tools/captures/marple_captures share/marple/captures/marple_captures '*.py'
    for script in trace-from-captures trace-from-capture; do
        stage_command "marple-$script" "captures/$script"
    done
    stage_files examples/cookbook share/marple/cookbook '*'
    for script in quads sql draw; do
        stage_command "marple-$script" "cookbook/$script"
    done
}

# Makes the wheel of the package for Python in the folder $room/wheel and unpacks it at $room/unpacked. Notes the commands that it
# brings in $room/commands, a line `COMMAND MODULE FUNCTION` each.
make_wheel() {
    command -v python3 >/dev/null || fail "python3 isn't on this machine's PATH"
    mkdir -p "$room/wheel" || fail "cannot make $room/wheel"
    # shellcheck disable=SC2016
    build='import sys, wheel_backend; print(wheel_backend.build_wheel(sys.argv[1]))'
    wheel=$(cd "$top/python" && python3 -B -c "$build" "$room/wheel") || fail "cannot make the wheel"
    python3 -m zipfile -e "$room/wheel/$wheel" "$room/unpacked" || fail "cannot unpack the wheel"
    sed -n 's/^\(marple-[a-z-]*\) *= *\([a-z_.]*\):\([a-z_]*\)$/\1 \2 \3/p' \
        "$room/unpacked/marple-$version.dist-info/entry_points.txt" >"$room/commands"
}

# Puts the package for Python into share/marple/python, and its commands into bin, which run the program beside them.
stage_python() {
    if ! { mkdir -p "$room/stage/share/marple/python" && cp -R "$room/unpacked/marple" "$room/stage/share/marple/python/"; }; then
        fail "cannot copy the package for Python"
    fi
    while read -r command module function; do
        cat >"$room/stage/bin/$command" <<END
#!/usr/bin/env python3
import os
import sys

here = os.path.dirname(os.path.realpath(__file__))
sys.path.insert(0, os.path.join(here, "../share/marple/python"))
os.environ.setdefault("MARPLE", os.path.join(here, "marple"))

from $module import $function

sys.exit($function())
END
        chmod 755 "$room/stage/bin/$command"
    done <"$room/commands"
}

# Puts the pages for those who use the program, and the examples below the paths that the pages have.
stage_pages() {
    doc=share/doc/marple
    stage_page README.md $doc/README.md
    stage_page CHANGES.md $doc/CHANGES.md
    (cd "$top" && find docs -name '*.md' -o -name '*.png' | sort) >"$room/pages"
    grep -vE "^docs/($about_repository)\.md\$" "$room/pages" >"$room/installed-pages"
    while IFS= read -r page; do
        case $page in
        docs/ERRORS.md) stage_link "../../../marple/$page" "$doc/$page" ;;
        *.png) stage "$page" "$doc/$page" 644 ;;
        *) stage_page "$page" "$doc/$page" ;;
        esac
    done <"$room/installed-pages"
    stage_files examples $doc/examples '*.query' '*.csv'
    stage_link ../../../marple/cookbook $doc/examples/cookbook
    stage_link ../../../marple/captures $doc/examples/captures
}

# Puts the manual page of each command that is in bin, and the completions of each.
stage_manuals() {
    stage tools/completions/marple.bash share/bash-completion/completions/marple 644
    stage tools/completions/_marple share/zsh/site-functions/_marple 644
    mkdir -p "$room/stage/share/man/man1" || fail "cannot make share/man/man1"
    for command in "$room/stage/bin"/*; do
        command=${command##*/}
        page=$room/stage/share/man/man1/$command.1
        [ ! -e "$top/docs/$command.1" ] || sed "s/@VERSION@/$version/" "$top/docs/$command.1" >"$page" || fail "cannot write $page"
        if [ "$command" != marple ] && grep -q "^complete -F [a-z_]* $command\$" "$top/tools/completions/marple.bash"; then
            stage_link marple "share/bash-completion/completions/$command"
        fi
    done
}

# Makes all of it, after make_wheel.
stage_all() {
    stage_programs
    stage_python
    stage_pages
    stage_manuals
}
