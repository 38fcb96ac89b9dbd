#!/usr/bin/env bash
# Every file and name that the documents cite in backticks exists: a file by its path, a definition, theorem, field, function or crate by its name in
# crates/, a name of the header for C or of the command. Prints each that does not, with its place.
set -euo pipefail
cd "$(dirname "${BASH_SOURCE[0]}")/.."
documents=(README.md docs/*.md)
find . \( -path ./target -o -path ./.git -o -path './crates/*/out' \) -prune -o -print | sed 's|^\./||' |
    awk -f tests/names.awk kind=paths - kind=sources $(find crates include tools -path 'crates/*/out' -prune -o \( -name '*.antt' -o -name '*.rt' -o -name '*.[ch]' \) -print) kind=documents "${documents[@]}"
