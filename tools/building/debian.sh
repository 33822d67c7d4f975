# What only a Debian package has, for tools/package, which reads this with $version, $maintainer, $epoch and the folder $room.
# shellcheck shell=sh
: "${room:?}" "${version:?}" "${maintainer:?}" "${epoch:?}"

# Writes the changelog of this version below the folder $1. What each version brought is in the page.
write_changelog() {
    gzip -9n >"$1/changelog.gz" <<END
marple ($version) unstable; urgency=medium

  * What this version brought is in /usr/share/doc/marple/CHANGES.md.

 -- $maintainer  $(date -u -R -d "@$epoch")
END
}

# Puts things below the folder $1 where Debian has them.
follow_debian() {
    mv "$1/usr/share/zsh/site-functions" "$1/usr/share/zsh/vendor-completions" || fail "cannot move zsh's completions"
    sed -i 's|~/\.local/share|/usr/share|' "$1"/usr/share/man/man1/*.1 || fail "cannot change the manual pages"
    gzip -9n "$1"/usr/share/man/man1/*.1 || fail "cannot compress the manual pages"
    write_changelog "$1/usr/share/doc/marple"
    mkdir -p "$1/usr/share/lintian/overrides" || fail "cannot make $1/usr/share/lintian"
    {
        echo "# Each program is the file that the toolchain made when it was proved, byte for byte."
        program_names | sed 's|.*|marple: unstripped-binary-or-object [usr/bin/&]|'
    } >"$1/usr/share/lintian/overrides/marple"
}

# The least version of the C library that the programs in the folder $1 need: the greatest one that a name which they take from there
# has.
least_libc() {
    program_names | while read -r name; do
        grep -aoE 'GLIBC_[0-9]+(\.[0-9]+)+' "$1/$name"
    done | sed 's/^GLIBC_//' | sort -V | tail -n 1
}

# How many KiB the files below the folder $1 take, as dpkg counts them.
installed_size() {
    find "$1" -type f -printf '%s\n' -o -printf '1\n' | awk '{ size += int(($1 + 1023) / 1024) } END { print size }'
}

# Writes what dpkg reads of the package below the folder $1. Bytecode of Python is made and removed as Debian's packages do it.
write_control() {
    (cd "$1" && find usr -type f | sort | xargs md5sum) >"$1/DEBIAN/md5sums" || fail "cannot sum the files"
    cat >"$1/DEBIAN/control" <<END
Package: marple
Version: $version
Architecture: amd64
Maintainer: $maintainer
Installed-Size: $(installed_size "$1/usr")
Depends: libc6 (>= $(least_libc "$1/usr/bin"))
Recommends: python3 (>= 3.10), python3-jinja2, python3-matplotlib, sqlite3, tshark
Suggests: python3-distributed, python3-pandas
Section: net
Priority: optional
Description: queries about queues and flows over packet traces
 marple answers questions about queues and flows in a network: which flow lost
 most packets, which queue was longest and when, how long packets waited, which
 came out of order. A question is a query of a few lines in the Marple language,
 and the packets come from two captures, one taken before a queue and one after
 it.
 .
 The printed tables are proved to be the query's meaning over the whole list of
 packets, for every accepted query and trace.
 .
 Python is needed for captures, pictures, reports and explanations, and tshark
 for captures.
END
    cat >"$1/DEBIAN/postinst" <<'END'
#!/bin/sh
set -e
if command -v py3compile >/dev/null 2>&1; then
    py3compile -p marple
fi
END
    cat >"$1/DEBIAN/prerm" <<'END'
#!/bin/sh
set -e
if command -v py3clean >/dev/null 2>&1; then
    py3clean -p marple
fi
END
    chmod 755 "$1/DEBIAN/postinst" "$1/DEBIAN/prerm"
}
