#!/usr/bin/env bash
# Builds the C host with the archive and runs it: several threads on small stacks, a soak, damaged files, short buffers. Then the stack is measured.
set -euo pipefail
cd "$(dirname "${BASH_SOURCE[0]}")/.."
mkdir -p target/tests
gcc -std=c11 -Wall -Wextra -Wpedantic -Wconversion -Wshadow -Werror -O2 -pthread -Iinclude \
    -o target/tests/soak tests/host/host.c target/staticlib/libgowashiru.a
target/tests/soak -n 1000000 -t 4 examples
gcc -std=c11 -Wall -Wextra -Wpedantic -Wconversion -Wshadow -Werror -O2 -Iinclude \
    -o target/tests/stack tests/host/stack.c target/staticlib/libgowashiru.a
target/tests/stack
