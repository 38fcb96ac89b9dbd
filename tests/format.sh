#!/usr/bin/env bash
# Runs every example of docs/FORMAT.md and README.md on the archive and compares every byte. A block marked `circuit`, `schedule` or `rising` is a file, one
# marked `sh` prints one; `plan`, `check`, `erase`, `least-level`, `quote`, `from-rising`, `to-rising`, `live` and `live-peak` have what is replied on the last
# circuit, schedule or listing, a check on the last circuit and schedule; a file that is replied is the last of its kind. `live-after LINE` and `may-drop VALUE LINE`
# have the numbers that are asked about behind the mark. `c` is a program and `prints` its output; a block marked `console` is not run. The pages' pictures are drawn
# anew. The archive is built before.
set -euo pipefail
cd "$(dirname "${BASH_SOURCE[0]}")/.."
replies_stored=92
folder=target/tests/format
rm -rf "$folder"
mkdir -p "$folder"
gcc -std=c11 -Wall -Wextra -Werror -O2 -o target/tests/reply tests/reply.c target/staticlib/libgowashiru.a
# A block stands in a file that is named by its page and line, in order.
awk -v folder="$folder" '
    /^```/ {
        inside = !inside
        if (inside) {
            page = FILENAME
            sub(/.*\//, "", page)
            file = sprintf("%s/%s:%05d.%s", folder, page, FNR, substr($0, 4))
            printf "" >file
        } else close(file)
        next
    }
    inside { print >file }' docs/FORMAT.md README.md
count=0
fail() {
    echo "format: ${block##*/}: $*" >&2
    exit 1
}
same() {
    if ! "$@" >"$folder/reply" || ! cmp "$folder/reply" "$block"; then fail "not the reply"; fi
    count=$((count + 1))
}
# A later block may be about this file, which is known by its header; a damaged one is a circuit.
take() { # FILE
    case "$(head -n 1 "$1")" in
    refused*) ;;
    schedule*) schedule="$1" ;;
    rising*) listing="$1" ;;
    *) circuit="$1" ;;
    esac
}
# As the command prints it, the number alone.
number() { # REPLY WORDS...
    target/tests/reply "$@" | sed 's/^\(level\|live\|peak\)\t//'
}
for block in "$folder"/*; do
    case "${block##*.}" in
    circuit) circuit="$block" ;;
    schedule) schedule="$block" ;;
    rising) listing="$block" ;;
    sh)
        bash "$block" >"$block.printed"
        take "$block.printed"
        ;;
    plan)
        same target/tests/reply plan "$circuit"
        take "$block"
        ;;
    check) same target/tests/reply check "$circuit" "$schedule" ;;
    erase)
        same target/tests/reply erase "$schedule"
        take "$block"
        ;;
    from-rising)
        same target/tests/reply from-rising "$listing"
        take "$block"
        ;;
    to-rising)
        same target/tests/reply to-rising "$schedule"
        take "$block"
        ;;
    least-level) same number least "$circuit" ;;
    quote) same target/tests/reply quote "$circuit" ;;
    live) same target/tests/reply live "$schedule" ;;
    live-peak) same number live-peak "$schedule" ;;
    live-after\ * | may-drop\ *)
        read -ra words <<<"${block##*.}"
        same number "${words[0]}" "$schedule" "${words[@]:1}"
        ;;
    c)
        gcc -std=c11 -Wall -Wextra -Werror -O2 -Iinclude -x c -o "$folder/program" "$block" -x none target/staticlib/libgowashiru.a
        "$folder/program" >"$folder/printed" || fail "the program fails"
        ;;
    prints) same "$folder/program" ;;
    console) ;;
    *) fail "a block without a mark" ;;
    esac
done
# The pictures of the pages are what the command draws.
plans=("$folder"/FORMAT.md:*.plan)
for picture in "${plans[0]} first_circuit" "examples/listing.plan listing" "examples/cubed_sum.plan cubed_sum"; do
    block="docs/${picture#* }.svg"
    same ./gowashiru picture "${picture% *}"
done
for number in $(seq 14); do
    grep -q "^refused	$number	" "$folder"/FORMAT.md:*.{plan,check,erase,least-level,quote,from-rising,to-rising,prints} || fail "no example of refusal $number"
done
grep -q "^refused	4	0$" "$folder"/FORMAT.md:*.{live-after,may-drop}\ * || fail "no example of a number that a schedule lacks"
[ "$count" = "$replies_stored" ] || fail "$count replies, and $replies_stored are stored in tests/format.sh"
echo "format: $count replies of the pages as they should be, each refusal among them"
