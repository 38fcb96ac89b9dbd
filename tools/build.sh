#!/usr/bin/env bash
# Builds what is out of date: `tools/build.sh program` (target/bin/plan), `archive` (target/staticlib/libgowashiru.a) or `command`
# (target/command/gowashiru, with the archive). Nothing is built where sources and product are, byte for byte, those of the last
# build. One line a crate that is proved goes to standard error, all else to target/build.log. Exit status 2 if it cannot be built.
set -euo pipefail
cd "$(dirname "${BASH_SOURCE[0]}")/.."
log=target/build.log

fail() {
    printf 'build: %s\n' "$@" >&2
    exit 2
}

# The crates that a crate rests on, itself among them.
crates_of() { # CRATE
    awk -F: -v wanted="$1" '
        { sub(/#.*/, "") }
        NF == 2 { sub(/ .*/, "", $1); rests[$1] = $2 }
        function visit(name, list, count, i) {
            if (!(name in rests) || name in seen) return
            seen[name] = 1
            print name
            count = split(rests[name], list, " ")
            for (i = 1; i <= count; i++) visit(list[i])
        }
        END { visit(wanted) }' crates.txt
}

# What a product is made of.
sources() { # PRODUCT
    local crate=gowashiru
    [ "$1" != program ] || crate=plan
    # A crate's name has no space.
    find $(crates_of "$crate" | sed 's|^|crates/|') \( -name must-fail -o -name out \) -prune -o -type f -print
    echo crates.txt
    echo toolchain.txt
    [ "$1" != command ] || printf '%s\n' include/*.h tools/*.h tools/*.c
}

digest() { # PRODUCT
    sources "$1" | LC_ALL=C sort | tr '\n' '\0' | xargs -0 sha256sum | sha256sum
}

is_built() { # PRODUCT FILE
    [ -f "$2" ] && [ -f "target/built/$1" ] && [ "$(digest "$1" && sha256sum "$2")" = "$(cat "target/built/$1")" ]
}

# Another rt than the one that all was proved with is told, and tried: it proves everything anew, so that nothing unproved is built.
need_toolchain() {
    local wanted found
    wanted="$(cat toolchain.txt)"
    command -v rt >/dev/null || fail "the Rattle toolchain is needed, and there is no rt on the PATH. Wanted: $wanted"
    found="$(rt version)" || fail "rt does not say its version. Wanted: $wanted"
    [ "$found" = "$wanted" ] ||
        printf 'build: %s\n' "this rt is another one than all was proved with, so a proof may fail." "wanted: $wanted" "found:  $found" >&2
}

# Says each crate that rt proves, and how many there are. Those that have not changed are only counted.
tell_crates() { # TOTAL
    local line name="" checked=0 done=0
    while IFS= read -r line; do
        printf '%s\n' "$line" >>"$log"
        if [[ "$line" =~ ^rt:\ chose\ --jobs\ [0-9]+\ for\ ([a-z0-9_]+) ]]; then
            name="${BASH_REMATCH[1]}"
        elif [[ "$line" =~ ^crate\ "$name":.*\ checked=([0-9]+) ]]; then
            checked="${BASH_REMATCH[1]}"
        elif [[ "$line" == logic=proved* ]]; then
            done=$((done + 1))
            [ "$checked" = 0 ] || echo "proved $done of $1: $name" >&2
        elif [[ "$line" == logic=not-proved* ]]; then
            echo "$name is not proved" >&2
        fi
    done
}

# Proves a crate and those below it, lowest first, and makes what it is: a program or a static library, in its folder out/.
make_crate() { # CRATE COMMAND
    (cd "crates/$1" && rt "$2" </dev/null 2>&1) | tell_crates "$(crates_of "$1" | wc -l)" || fail "$1 cannot be built; $PWD/$log says why"
}

# `rt run` also runs the program, once, on no input.
build_program() {
    make_crate plan run
    mkdir -p target/bin
    cp crates/plan/out/plan target/bin/plan
}

build_archive() {
    make_crate gowashiru lib
    mkdir -p target/staticlib
    cp crates/gowashiru/out/libgowashiru.a target/staticlib/libgowashiru.a
}

build_command() {
    build archive target/staticlib/libgowashiru.a
    mkdir -p target/command
    "${CC:-gcc}" -std=c11 -Wall -Wextra -Wpedantic -Wconversion -Wshadow -Werror -O2 -o target/command/gowashiru tools/*.c \
        target/staticlib/libgowashiru.a >>"$log" 2>&1 || fail "the command cannot be compiled; $PWD/$log says why"
}

# The sources' digest is of before, so that a change meanwhile is noticed.
build() { # PRODUCT FILE
    local before
    ! is_built "$1" "$2" || return 0
    if [ "$1" = command ]; then
        echo "building the command" >&2
    else
        need_toolchain
        echo "building the $1: its crates are proved first, from nothing in some minutes (log: $PWD/$log)" >&2
    fi
    before="$(digest "$1")"
    "build_$1"
    { echo "$before" && sha256sum "$2"; } >"target/built/$1"
}

case "$#,${1-}" in
1,program) file=target/bin/plan ;;
1,archive) file=target/staticlib/libgowashiru.a ;;
1,command) file=target/command/gowashiru ;;
*) fail "usage: tools/build.sh program|archive|command" ;;
esac
if is_built "$1" "$file"; then
    exit 0
fi
mkdir -p target/built
# Two builds at once would write the same files.
if command -v flock >/dev/null; then
    exec 9>target/built/lock
    if ! flock --nonblock 9; then
        echo "another build is under way; waiting for it" >&2
        flock 9
    fi
fi
: >"$log"
build "$1" "$file"
