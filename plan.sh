#!/usr/bin/env bash
# Plans the circuit on standard input: prints its schedule, or one line of `refused`, number and place. The program is built first where it is out of date.
# Exit status: 0 a schedule was printed, 1 `refused` was printed, 2 wrong use, or reading, writing or building failed.
set -uo pipefail
root="$(dirname "$(readlink -f "${BASH_SOURCE[0]}")")"
fail() {
    echo "plan.sh: $1" >&2
    exit 2
}
[ -e /dev/fd/2 ] || exec 2>/dev/null
[ $# -eq 0 ] || fail "usage: plan.sh <CIRCUIT (it takes no argument; ./gowashiru takes files by name)"
[ -e /dev/fd/0 ] || fail "standard input is closed"
"$root/tools/build.sh" program </dev/null >&2 || exit 2
if [ -t 0 ]; then
    echo "plan.sh: reading a circuit from the terminal; end it with Ctrl-D" >&2
fi
# A Rattle program has no exit status: it prints nothing where reading fails. The dot keeps the last line feed.
printed="$("$root/target/bin/plan" && echo .)" || fail "the program failed"
printed="${printed%.}"
[ -n "$printed" ] || fail "standard input cannot be read"
# A closed pipe is told by printf.
trap '' PIPE
printf '%s' "$printed" 2>/dev/null || fail "standard output cannot be written"
[[ "$printed" != refused* ]]
