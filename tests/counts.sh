#!/usr/bin/env bash
# Compares the number of examples, of must-fail edits and of stored texts with tests/counts.txt: one that is taken away does not go unnoticed.
# `tests/counts.sh --renew` stores the numbers as they are.
set -euo pipefail
cd "$(dirname "${BASH_SOURCE[0]}")/.."
count() {
    printf '%4d %s\n' "$(compgen -G "$1" | wc -l)" "$1"
}
counts() {
    for kind in circuit plan least quote schedule check erasure rising from_rising to_rising live; do
        count "examples/*.$kind"
    done
    for crate in crates/*/; do
        count "${crate}must-fail/*.edit"
    done
    # Each text ends in a byte 28.
    printf '%4d %s\n' "$(tr -dc '\034' <crates/storedtexts/stdin | wc -c)" "texts in crates/storedtexts/stdin"
}
if [ "${1-}" = --renew ]; then
    counts >tests/counts.txt
elif ! diff --unchanged-line-format= --old-line-format='stored: %L' --new-line-format='found:  %L' tests/counts.txt <(counts); then
    echo "counts: not as in tests/counts.txt. If it is meant, run tests/counts.sh --renew and say why in the commit." >&2
    exit 1
else
    echo "counts: $(awk '{ sum += $1 } END { print sum }' tests/counts.txt) examples, edits and texts, as stored"
fi
