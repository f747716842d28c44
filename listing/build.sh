#!/usr/bin/env bash
# Writes target/bin/listing, the listing program, proved and compiled, unless it is there and no source is newer. The first time it takes some minutes.
set -euo pipefail
cd "$(dirname "${BASH_SOURCE[0]}")/.."

program=target/bin/listing
if [ -x "$program" ] && [ -z "$(find crates crates.txt -name out -prune -o -newer "$program" -print -quit)" ]; then
    exit 0
fi
mkdir -p target/bin
# It is built to be run; over no input it prints "short input".
(cd crates/listing && rt run </dev/null) >target/listing.log 2>&1 || {
    tail -n 20 target/listing.log >&2
    echo "listing: 'rt run' failed in crates/listing" >&2
    exit 1
}
cp crates/listing/out/listing "$program.new"
mv "$program.new" "$program"
