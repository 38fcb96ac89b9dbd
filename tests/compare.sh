#!/usr/bin/env bash
# Compares the archive, the program and the yardstick in C with the Rust version that was written from documents 01 and 02 alone, and makes each call
# of the benchmark a few times.
set -euo pipefail
cd "$(dirname "${BASH_SOURCE[0]}")/.."
export GOWASHIRU_LIB="$PWD/target/staticlib"
export CARGO_TARGET_DIR="$PWD/target/tests/cargo"
cargo test --quiet --release --offline --manifest-path tests/reference/Cargo.toml
cargo build --quiet --release --offline --manifest-path tests/reference/Cargo.toml
cargo build --quiet --release --offline --manifest-path tests/bench/Cargo.toml
target/tests/cargo/release/compare "$@"
tools/build.sh program
target/tests/cargo/release/program target/bin/plan
target/tests/cargo/release/bench --smoke
