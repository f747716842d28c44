#!/usr/bin/env bash
# Runs the listing program: the examples, the words of document 01 on standard input, and what can go wrong with it and with standard output.
set -euo pipefail
cd "$(dirname "${BASH_SOURCE[0]}")/.."

fail() {
    echo "listing: $*" >&2
    exit 1
}

listing=target/bin/listing
work=$(mktemp -d)
trap 'rm -rf "$work"' EXIT

# Each example, by the command that README gives.
run_examples() {
    local example
    for example in examples/*/; do
        bash listing/read.sh "$example/description.hex" "$example/input.hex" >"$work/printed" || fail "$example cannot be read"
        diff -u "$example/printed" "$work/printed" >&2 || fail "of $example something else is printed"
    done
    echo "listing: the examples print what they should: $(ls examples | grep -vc README)"
}

# Every byte, in hex of either case; and the line of what is no hex.
test_bytes() {
    local byte
    for byte in {0..255}; do printf '%02X ' "$byte"; done >"$work/upper"
    tr A-F a-f <"$work/upper" | tr -d ' ' >"$work/lower"
    for byte in {0..255}; do printf "\\$(printf %03o "$byte")"; done >"$work/all"
    bash listing/bytes.sh "$work/upper" | cmp - "$work/all" || fail "upper case hex gives other bytes"
    bash listing/bytes.sh "$work/lower" | cmp - "$work/all" || fail "lower case hex gives other bytes"
    printf '02 10 # first\n\n02 1 # second\n' >"$work/wrong"
    if bash listing/bytes.sh "$work/wrong" >"$work/out" 2>"$work/said"; then fail "half a byte is taken for hex"; fi
    grep -q "wrong:3: \"1\" is not hex" "$work/said" || fail "the line that is wrong is not told: $(cat "$work/said")"
}

# says WORDS HEX...: what is printed for the bytes on standard input.
says() {
    local words=$1 said
    echo "${*:2}" >"$work/given.hex"
    said=$(bash listing/bytes.sh "$work/given.hex" | "$listing")
    [ "$said" = "$words" ] || fail "for '${*:2}' it says '$said', and not '$words'"
}

# "A stated length of 0 or above 1,024 prints "refused 1 0"; otherwise ... "short input"."
test_lengths() {
    says 'short input'
    says 'short input' 04
    says 'refused 1 0' 04 01
    says 'refused 1 0' FF FF
    says 'refused 1 0' 00 00
    says 'short input' 00 01
    says 'short input' 04 00 00
    says 'short input' 00 17 02 10 02 10
    says 'refused 5 0' 00 02 02 21
    says $'ok 1 0\n0 0 0 0 0 0 0 1' 00 01 00
}

# The smallest description for each refusal of docs/DESCRIBING.md that standard input can provoke, over no input.
test_refusals() {
    says 'refused 2 0' 00 01 0D
    says 'refused 3 0' 00 01 02
    says 'refused 4 64' 00 41 "$(printf '00 %.0s' {0..64})"
    says 'refused 5 0' 00 02 02 00
    says 'refused 6 0' 00 02 0B 00
    says 'refused 7 1' 00 04 00 04 00 00
    says 'refused 8 2' 00 05 00 00 05 00 01
    says 'refused 9 0' 00 02 00 00
    says 'refused 10 0' 00 0D 0A 01 00 01 00 00 00 00 00 00 00 00 00
}

# Case A, which stands beside the program's source, from pieces of one byte.
case_a=crates/listing/stdin
printed_a=crates/listing/stdout
test_pieces() {
    local byte
    while read -r byte; do
        printf "\\$byte"
        sleep 0.002
    done < <(od -An -v -to1 -w1 "$case_a" | tr -d ' ') | "$listing" | diff "$printed_a" - || fail "pieces of one byte are read otherwise"
}

# Long inputs are refused 12 before they end, and after 1 to 10.
test_long() {
    { cat "$case_a"; head -c 8188 /dev/zero; } | "$listing" >"$work/out"
    [ "$(cat "$work/out")" = 'refused 12 0' ] || fail "8,192 bytes of input are not refused 12"
    { cat "$case_a"; head -c 8187 /dev/zero; } | "$listing" | diff "$printed_a" - || fail "8,191 bytes of input are read otherwise"
    { cat "$case_a"; head -c 10000000 /dev/urandom || true; } | "$listing" >"$work/out" || true
    [ "$(cat "$work/out")" = 'refused 12 0' ] || fail "10 MB of rubbish are not refused 12"
    printf '\0\2\2\41' >"$work/wide"
    { cat "$work/wide"; head -c 8192 /dev/zero; } | "$listing" >"$work/out"
    [ "$(cat "$work/out")" = 'refused 5 0' ] || fail "a width of 33 is not refused 5 before the input is refused 12"
    { cat "$case_a"; head -c 9189 /dev/zero; sleep 3; } | timeout 2 "$listing" >"$work/out" || fail "it waits for more input than it needs"
    [ "$(cat "$work/out")" = 'refused 12 0' ] || fail "9,218 bytes in all are not refused 12"
}

# Reads and writes that fail: it ends, and says what failed.
test_faults() {
    [ "$(timeout 10 "$listing" </ 2>"$work/said")" = 'short input' ] || fail "of a directory it does not say 'short input'"
    grep -q '^listing: standard input: ' "$work/said" || fail "it does not say that standard input failed"
    [ "$(timeout 10 "$listing" <&- 2>"$work/said")" = 'short input' ] || fail "of a closed input it does not say 'short input'"
    timeout 10 "$listing" <"$case_a" >/dev/full 2>"$work/said" || fail "it does not end where the output is full"
    grep -q '^listing: standard output: ' "$work/said" || fail "it does not say that standard output failed"
    timeout 10 "$listing" <"$case_a" >&- 2>"$work/said" || fail "it does not end where the output is closed"
    grep -q '^listing: standard output: ' "$work/said" || fail "it does not say that standard output is closed"
    { sleep 0.2; status=0; timeout 10 "$listing" <"$case_a" 2>"$work/said" || status=$?; echo "$status" >"$work/status"; } | true
    [ "$(cat "$work/status")" != 0 ] || grep -q '^listing: standard output: ' "$work/said" || fail "a pipe that nobody reads is no failure"
    if bash listing/read.sh examples/pulse_counter/{description,input}.hex >/dev/full 2>/dev/null; then fail "a failed write has status 0"; fi
    if bash listing/read.sh examples/pulse_counter/{description,input}.hex >&- 2>/dev/null; then fail "a closed output has status 0"; fi
}

# The deepest description, 63 scans in each other, over 8,191 bytes, with no more stack than README says.
test_stack() {
    local node
    { printf '\0\177\0'; for node in {0..62}; do printf "\\014\\$(printf %03o "$node")"; done; head -c 8191 /dev/zero; } >"$work/deep"
    [ "$(ulimit -s 256; "$listing" <"$work/deep" | head -n 1)" = 'ok 64 0' ] || fail "the deepest description is not read with 256 KiB of stack"
}

run_examples
test_bytes
test_lengths
test_refusals
test_pieces
test_long
test_faults
test_stack
echo "listing: lengths, pieces, long inputs, failed reads and writes, and a small stack are as they should be"
