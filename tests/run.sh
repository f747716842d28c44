#!/usr/bin/env bash
# Compares the compiled reader with an independent one, written from document 01, and the compiled writer with one from request 2 of document 02.
#
#     bash tests/run.sh [CASES [SEED]]   so many cases from a seed; 200,000 and 1 if nothing else is said
#     bash tests/run.sh memory           6,000 cases under valgrind, over blocks of just the size that is lent
set -euo pipefail
cd "$(dirname "${BASH_SOURCE[0]}")/.."

fail() {
    echo "tests: $*" >&2
    exit 1
}

command -v cargo >/dev/null || fail "cargo is not on the PATH"
bash host/library.sh
CARGO_TARGET_DIR=target/tests cargo build --release --offline --locked --quiet --manifest-path tests/Cargo.toml
program=target/tests/release/rippleshrug-tests

if [ "${1-}" = memory ]; then
    command -v valgrind >/dev/null || fail "valgrind is not on the PATH"
    valgrind --quiet --error-exitcode=1 "$program" 6000 7 memory >/dev/null || fail "valgrind found something, or a case differs, as said above"
    echo "tests: under valgrind nothing is found in 6,000 cases"
else
    "$program" "$@"
fi
