#!/usr/bin/env bash
# Writes target/staticlib/libhost.a, the library that host/rippleshrug.h declares: the crate host_c, proved and compiled. The first time it takes some
# minutes; then a second where nothing has changed.
set -euo pipefail
cd "$(dirname "${BASH_SOURCE[0]}")/.."

mkdir -p target/staticlib
(cd crates/host_c && rt lib) >target/staticlib.log 2>&1 || {
    tail -n 20 target/staticlib.log >&2
    echo "host: 'rt lib' failed in crates/host_c" >&2
    exit 1
}
cmp -s crates/host_c/out/libhost_c.a target/staticlib/libhost.a || cp crates/host_c/out/libhost_c.a target/staticlib/libhost.a
