#!/usr/bin/env bash
# The outside tests, on the archive, the program and the command; before them what can be taken away unseen, and what the documents cite.
set -euo pipefail
cd "$(dirname "${BASH_SOURCE[0]}")/.."
tests/counts.sh
tests/names.sh
tools/build.sh archive
tools/build.sh program
tests/archive.sh
tests/examples.sh
tests/format.sh
tests/command.sh
tests/host.sh
tests/compare.sh
tests/standings.sh
