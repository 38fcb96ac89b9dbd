#!/usr/bin/env bash
# Runs every example through the archive and the program and compares every byte of each reply with the one beside it. Both are built before.
set -euo pipefail
cd "$(dirname "${BASH_SOURCE[0]}")/.."
mkdir -p target/tests
gcc -std=c11 -Wall -Wextra -Werror -O2 -o target/tests/reply tests/reply.c target/staticlib/libgowashiru.a
gcc -std=c11 -Wall -Wextra -Wpedantic -Wconversion -Wshadow -Werror -O2 -o target/tests/host examples/host.c target/staticlib/libgowashiru.a
count=0
same() {
    local expected="$1"
    shift
    if ! "$@" | cmp - "$expected"; then
        echo "not the reply in $expected: $*" >&2
        exit 1
    fi
    count=$((count + 1))
}
# Beside a schedule, NAME.live has what live prints, a line a value, and the peak.
live_and_peak() { # SCHEDULE
    target/tests/reply live "$1"
    target/tests/reply live-peak "$1"
}
# The same asked one by one: the count after each line; each value before its own line, before its entry and at it; the number past the last.
asked() { # TABLE
    awk -F '\t' '/^peak/ { print "live-after", NR - 1; print "may-drop", NR - 1, 0; print "may-drop", 0, NR - 1; next }
        { print "live-after", $1 }
        $1 > 0 { print "may-drop", $1, $1 - 1 }
        $2 > $1 { print "may-drop", $1, $2 - 1 }
        { print "may-drop", $1, $2 }' "$1"
}
due() { # TABLE
    awk -F '\t' '/^peak/ { for (i = 0; i < 3; i++) print "refused\t4\t0"; next }
        { print "live\t" $3 }
        $1 > 0 { print "no" }
        $2 > $1 { print "no" }
        { print "yes" }' "$1"
}
ask_each() { # SCHEDULE; on standard input a service and its numbers a line
    while read -ra words; do target/tests/reply "${words[0]}" "$1" "${words[@]:1}"; done
}
try_live() { # SCHEDULE TABLE
    same "$2" live_and_peak "$1"
    same <(due "$2") ask_each "$1" < <(asked "$2")
    # Two replies make the table, and each of these is one.
    count=$((count + $(due "$2" | wc -l)))
}
for circuit in examples/*.circuit; do
    name="${circuit%.circuit}"
    same "$name.plan" target/tests/reply plan "$circuit"
    same "$name.least" target/tests/reply least "$circuit"
    same "$name.quote" target/tests/reply quote "$circuit"
    same "$name.plan" target/bin/plan <"$circuit"
    if ! grep -q '^refused' "$name.plan"; then
        same <(echo passed) target/tests/reply check "$circuit" "$name.plan"
        same "$circuit" target/tests/reply erase "$name.plan"
        try_live "$name.plan" "$name.plan.live"
    fi
done
for schedule in examples/*.schedule; do
    name="${schedule%.schedule}"
    same "$name.check" target/tests/reply check "${name%.*}.circuit" "$schedule"
    same "$name.erasure" target/tests/reply erase "$schedule"
    try_live "$schedule" "$name.live"
done
# What is converted passes against its own erasure, and against the circuit beside it; without a ds it goes back as it came.
result=target/tests/conversion
for listing in examples/*.rising; do
    name="${listing%.rising}"
    same "$name.from_rising" target/tests/reply from-rising "$listing"
    if grep -q '^refused' "$name.from_rising"; then continue; fi
    target/tests/reply from-rising "$listing" >"$result.schedule"
    target/tests/reply erase "$result.schedule" >"$result.circuit"
    same <(echo passed) target/tests/reply check "$result.circuit" "$result.schedule"
    same <(echo passed) target/tests/reply check "${name%.*}.circuit" "$result.schedule"
    if ! grep -q '^ds' "$listing"; then same "$listing" target/tests/reply to-rising "$result.schedule"; fi
done
for listing in examples/*.to_rising; do
    schedule="${listing%.to_rising}.schedule"
    same "$listing" target/tests/reply to-rising "$schedule"
    if ! grep -q '^refused' "$listing"; then same "$schedule" target/tests/reply from-rising "$listing"; fi
done
same examples/host.expected target/tests/host
echo "examples: $count replies as they should be"
