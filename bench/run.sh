#!/usr/bin/env bash
# Times the proved check, reader and writer beside others, in one run: all three written in Rust, the reader's and the writer's own source compiled by
# rustc, and beside the reader Rust by hand with no description, and GNU poke, Python's construct and a parser made by binpac, where they are
# installed. 'run.sh instructions' counts the instructions of the readers and writers instead, with valgrind.
set -euo pipefail
cd "$(dirname "${BASH_SOURCE[0]}")/.."

fail() {
    echo "bench: $*" >&2
    exit 1
}

out=target/bench

# The source of a proved crate as a module of Rust's: what is left without its contracts.
as_rust() { # CRATE
    mkdir -p "$out/same/$1"
    local file name
    for file in "crates/$1"/src/*.rt; do
        name=$(basename "$file" .rt)
        sed -E \
            -e '/^impl(<.*>)? Model for /,/^\}$/d' \
            -e '/^use std::marker::Model;$/d' \
            -e '/^ *ghost /d' \
            -e '/^ *#!?\[(tactic|cycle)\(/d' \
            -e '/^ *#\[derive\(Drop\)\]$/d' \
            -e '/^ +(requires|ensures)( \w+)? \{.* \}$/d' \
            -e '/^ +(requires|ensures)( \w+)? \{/,/ \}$/d' \
            -e "s/\bcrate::/crate::same::$1::/g" \
            -e 's/(^|[^:[:alnum:]_])(bits|description|writing)::/\1crate::same::\2::/g' \
            "$file" >"$out/same/$1/${name/#lib/mod}.rs"
    done
}

build() {
    command -v rustc >/dev/null || fail "rustc is not on the PATH"
    mkdir -p "$out"
    bash host/library.sh
    local crate program
    for crate in bits description reader writing writer; do
        as_rust "$crate"
    done
    align_library
    # Where rustc compiles a program in several units, the reader's source has 260 or 306 instructions an entry, by which functions fall into one.
    local flags=(-C opt-level=3 -C codegen-units=1 -C llvm-args=-align-all-functions=6)
    for program in "$@"; do
        rustc --edition 2021 "${flags[@]}" -L "$out/aligned" -o "$out/$program" "bench/$program.rs"
    done
}

# A loop takes a tenth longer where its function happens to be linked 16 or 32 bytes off a multiple of 64. So every function of the library begins at
# one, as those in Rust do.
align_library() {
    local section sections=()
    mkdir -p "$out/aligned"
    while read -r section; do
        sections+=(--set-section-alignment "$section=64")
    done < <(objdump -h target/staticlib/libhost.a | awk '$2 ~ /^\.text\./ { print $2 }')
    objcopy "${sections[@]}" target/staticlib/libhost.a "$out/aligned/libhost.a"
}

# The peers, a line for each: its name, how many times over it reads the export, and its command, which is empty where it is not installed.
list_peers() {
    list_poke || printf '(c) GNU poke (Debian: poke)\t0\t\n'
    list_construct || printf '(d) construct (Debian: python3-construct)\t0\t\n'
    list_binpac || printf '(e) binpac (Debian: binpac)\t0\t\n'
}

list_poke() {
    command -v poke >/dev/null || return
    printf '(c) %s\t10\tpoke -L bench/peers/intervals.pk\n' "$(poke --version | head -n 1)"
}

# The first python3 on the PATH may be another than Debian's, which has the package.
list_construct() {
    local python version
    for python in python3 /usr/bin/python3; do
        version=$("$python" -c 'import construct; print(construct.__version__)' 2>/dev/null) || continue
        printf '(d) construct %s\t100\t%s bench/peers/intervals.py\n' "$version" "$python"
        return
    done
    return 1
}

list_binpac() {
    local made=$out/peers
    command -v binpac >/dev/null || return
    mkdir -p "$made"
    cp bench/peers/intervals.pac "$made/"
    (cd "$made" && binpac -q intervals.pac) >"$made/log" 2>&1 || fail "binpac can make no parser of bench/peers/intervals.pac: $(cat "$made/log")"
    g++ -std=c++11 -O3 -I"$made" -Ibench/peers bench/peers/intervals.cc "$made/intervals_pac.cc" -lbinpac -o "$made/intervals"
    printf '(e) a parser by binpac %s\t10000\t%s\n' "$(dpkg-query -W -f '${Version}' binpac)" "$made/intervals"
}

# The instructions of so many calls of one of the readers or writers, and of the program around them.
counted() { # read|write proved|same|rust BYTES TIMES
    # Without the setting, memset clears a table by one instruction that valgrind counts once for each byte.
    GLIBC_TUNABLES=glibc.cpu.x86_rep_stosb_threshold=1073741824 \
        valgrind --tool=callgrind --callgrind-out-file=/dev/null "$out/$1" calls "${@:2}" 2>&1 >"$out/entries" | awk '/Collected/ { print $4 }'
}

instructions() { # read|write BYTES...
    printf '%5s  %5s  %7s  %6s  %21s\n' '' bytes entries '' 'instructions an entry'
    local bytes which once more
    for bytes in "${@:2}"; do
        for which in proved same rust; do
            once=$(counted "$1" "$which" "$bytes" 1)
            more=$(counted "$1" "$which" "$bytes" 11)
            awk -v program="$1" -v bytes="$bytes" -v which="$which" -v calls="$((more - once))" \
                '{ printf "%5s  %5d  %7d  %6s  %21.1f\n", program, bytes, $1, which, calls / 10 / $1 }' "$out/entries"
        done
    done
}

case ${1-} in
'')
    build check read write
    "$out/check"
    list_peers >"$out/peers.list"
    "$out/read" "$out/export" "$out/peers.list"
    "$out/write"
    ;;
instructions)
    command -v valgrind >/dev/null || fail "valgrind is not on the PATH: instructions cannot be counted"
    build read write
    instructions read 80 800 8191
    instructions write 80 800 8188
    ;;
*) fail "use: run.sh, or: run.sh instructions" ;;
esac
