#!/usr/bin/env bash
# Holds the scales and levels that the command works out to the Rust version's, on the examples and on generated schedules; those of listings to those of
# the schedules that they become.
# The archive is built before, and the Rust version by tests/compare.sh or here.
set -euo pipefail
cd "$(dirname "${BASH_SOURCE[0]}")/.."
export GOWASHIRU_LIB="$PWD/target/staticlib"
export CARGO_TARGET_DIR="$PWD/target/tests/cargo"
cargo build --quiet --release --offline --manifest-path tests/reference/Cargo.toml --bin standings
gcc -std=c11 -Wall -Wextra -Wpedantic -Wconversion -Wshadow -Werror -O2 -o target/tests/standings \
    tests/standings.c tools/standings.c tools/lines.c tools/files.c target/staticlib/libgowashiru.a
made=target/tests/schedules
rm -rf "$made"
mkdir -p "$made"
target/tests/cargo/release/standings --make "$made"
mapfile -t schedules < <(ls examples/*.schedule "$made"/*.schedule; grep -L '^refused' examples/*.plan)
target/tests/cargo/release/standings "${schedules[@]}" >"$made/expected"
target/tests/standings "${schedules[@]}" | diff "$made/expected" - || {
    echo "standings: not those of the Rust version" >&2
    exit 1
}
# A run that tried too little fails: each outcome must have come up.
for outcome in passed 'refused 7' 'refused 8' 'refused 9' 'refused 10'; do
    found="$(grep -c "^$outcome\b" "$made/expected")" || true
    [ "$found" -ge 5 ] || {
        echo "standings: only $found schedules that are $outcome" >&2
        exit 1
    }
    counts="${counts-}, $found $outcome"
done
# Each schedule that keeps the rules as a listing, once as it goes out and once with a downscale of its last line, where that is legal.
gcc -std=c11 -Wall -Wextra -Werror -O2 -o target/tests/reply tests/reply.c target/staticlib/libgowashiru.a
for schedule in "${schedules[@]}"; do
    listing="$made/$(basename "$schedule").listing"
    target/tests/reply to-rising "$schedule" >"$listing"
    if grep -q '^refused' "$listing"; then continue; fi
    listings+=("$listing")
    { cat "$listing" && printf 'ds\t%d\n' "$(($(wc -l <"$listing") - 2))"; } >"$listing.ds"
    if ! target/tests/reply from-rising "$listing.ds" | grep -q '^refused'; then listings+=("$listing.ds"); fi
done
for listing in examples/*.rising; do
    if ! grep -q '^refused' "${listing%.rising}.from_rising"; then listings+=("$listing"); fi
done
target/tests/standings --listings "${listings[@]}" >"$made/same" || {
    tail -n 1 "$made/same" >&2
    exit 1
}
downscales="$(grep -c '^same ds' "$made/same")"
[ "$downscales" -ge 20 ] || {
    echo "standings: only $downscales downscales" >&2
    exit 1
}
echo "standings: $(wc -l <"$made/same") lines of ${#listings[@]} listings as in their schedules, $downscales of them downscales"
echo "standings: $(grep -c '^[0-9]' "$made/expected") lines of ${#schedules[@]} schedules as in the Rust version${counts/,/:}"
