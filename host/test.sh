#!/usr/bin/env bash
# Builds the static library and the C hosts of the check, the reader and the writer, runs them over descriptions and records whose answers are known,
# and compares; the same under valgrind, which watches the library's boundary. Then measures how much stack the reader takes.
set -euo pipefail
cd "$(dirname "${BASH_SOURCE[0]}")/.."

fail() {
    echo "host: $*" >&2
    exit 1
}

out=target/host
library=target/staticlib/libhost.a
strict=(-Wall -Wextra -pedantic -Werror -O2)

build_library() {
    bash host/library.sh
    rm -rf "$out"
    mkdir -p "$out/cases"
}

# The header by itself, as the oldest C and C++ that it is for.
compile_header() {
    echo '#include "rippleshrug.h"' | gcc -std=c99 "${strict[@]}" -Ihost -fsyntax-only -x c - || fail "host/rippleshrug.h is no C99"
    echo '#include "rippleshrug.h"' | g++ -std=c++98 "${strict[@]}" -Ihost -fsyntax-only -x c++ - || fail "host/rippleshrug.h is no C++98"
}

# The library, called from C99 and from C++. The first run leaves the descriptions as files.
run_tests() {
    gcc -std=c99 "${strict[@]}" host/test.c "$library" -o "$out/test" || fail "host/test.c is no C99"
    g++ -std=c++11 "${strict[@]}" -x c++ host/test.c -x none "$library" -o "$out/test++" || fail "host/test.c is no C++"
    "$out/test" "$out/cases" || fail "the check, called from C, gave a wrong answer"
    "$out/test++" || fail "the check, called from C++, gave a wrong answer"
}

# 01's reasons, and request 2's, by number; 11 is never given.
reasons=('' 'description empty or over 1,024 bytes' 'unknown kind' 'body cut short' 'a 65th node begins'
    'width, relation, operator or operand not listed' 'child not smaller than the node' 'child named before, also twice in one node'
    'a number node is wanted' 'a node never named' 'operand names no enclosing bind' '' 'input over 8,191 bytes'
    'entries outnumber the room of the tables' 'the description has both, absorb or scan')

# The program over the same descriptions: its words and its exit status.
run_program() {
    local file refusal node words status said got
    gcc -std=c99 "${strict[@]}" host/check.c "$library" -o "$out/check" || fail "host/check.c is no C99"
    for file in "$out"/cases/*; do
        IFS=- read -r _ refusal node <<<"$(basename "$file")"
        words=accepted status=0 got=0
        [ "$refusal" = 0 ] || words="refused $refusal, node $node: ${reasons[$refusal]}" status=1
        said=$("$out/check" "$file") || got=$?
        [ "$said" = "$words" ] || fail "of $file the program says '$said', and not '$words'"
        [ "$got" = "$status" ] || fail "of $file the program's status is $got, and not $status"
    done
    if "$out/check" "$out/none" 2>"$out/error"; then fail "the program accepts a file that is not there"; fi
    grep -q 'cannot be opened' "$out/error" || fail "the program does not say that a file cannot be opened"
    echo "host: the program's words are as expected for $(ls "$out/cases" | wc -l) files"
}

# The reader, called by its header from C99 and from C++.
run_reader() {
    gcc -std=c99 "${strict[@]}" host/read_test.c "$library" -o "$out/read_test" || fail "host/read_test.c is no C99"
    g++ -std=c++11 "${strict[@]}" -x c++ host/read_test.c -x none "$library" -o "$out/read_test++" || fail "host/read_test.c is no C++"
    "$out/read_test" || fail "the reader, called from C, gave a wrong answer"
    "$out/read_test++" >/dev/null || fail "the reader, called from C++, gave a wrong answer"
}

# The writer, called by its header from C99 and from C++.
run_writer() {
    gcc -std=c99 "${strict[@]}" host/write_test.c "$library" -o "$out/write_test" || fail "host/write_test.c is no C99"
    g++ -std=c++11 "${strict[@]}" -x c++ host/write_test.c -x none "$library" -o "$out/write_test++" || fail "host/write_test.c is no C++"
    "$out/write_test" || fail "the writer, called from C, gave a wrong answer"
    "$out/write_test++" >/dev/null || fail "the writer, called from C++, gave a wrong answer"
}

# The examples as indented text: what the program prints, and its status. The sanitizers watch the program itself, and not the library.
run_entries() {
    local example status wanted
    gcc -std=c99 "${strict[@]}" -fsanitize=address,undefined -fno-sanitize-recover=all host/entries.c "$library" -o "$out/entries" ||
        fail "host/entries.c is no C99"
    for example in examples/*/; do
        bash listing/bytes.sh "$example/description.hex" >"$out/description"
        bash listing/bytes.sh "$example/input.hex" >"$out/input"
        status=0 wanted=0
        "$out/entries" "$out/description" "$out/input" >"$out/printed" || status=$?
        diff -u "$example/entries" "$out/printed" >&2 || fail "of $example the program prints something else"
        sed -n 2p "$example/entries" | grep -q ': ok$' || wanted=1
        [ "$status" = "$wanted" ] || fail "of $example the program's status is $status, and not $wanted"
    done
    printf '\2\41' >"$out/description"
    status=0
    "$out/entries" "$out/description" "$out/input" >"$out/printed" || status=$?
    [ "$status $(cat "$out/printed")" = "2 refused 5, node 0: ${reasons[5]}" ] || fail "of a width of 33 the program says '$(cat "$out/printed")'"
    echo "host: the examples are printed as indented text as they should be: $(ls examples | grep -vc README)"
}

# The files that `correct` is run over stand on a desk, and beside it a copy to compare with when it has run.
desk=$out/desk

# set_desk DESCRIPTION INPUT, in hex.
set_desk() {
    rm -rf "$desk" "$desk.copy"
    mkdir "$desk"
    bash listing/bytes.sh <(echo "$1") >"$desk/description"
    bash listing/bytes.sh <(echo "$2") >"$desk/input"
    cp -a "$desk" "$desk.copy"
}

# set_example NAME: the files of an example.
set_example() {
    set_desk "$(cat "examples/$1/description.hex")" "$(cat "examples/$1/input.hex")"
}

run_correct() {
    corrected_status=0
    "$out/correct" "$desk/description" "$desk/input" "$@" >"$out/said" 2>"$out/error" || corrected_status=$?
}

# keeps STATUS WORDS OUTPUT [CORRECTION]...: it says just that, and nothing on the desk is changed or new.
keeps() {
    local said
    run_correct "$desk/$3" "${@:4}"
    said=$(cat "$out/said" "$out/error")
    [ "$corrected_status" = "$1" ] || fail "of '${*:3}' the status of correct is $corrected_status, and not $1: $said"
    [ "${said//"$desk/"/}" = "$2" ] || fail "of '${*:3}' correct says '$said', and not '$2'"
    diff -r --no-dereference "$desk.copy" "$desk" >&2 || fail "with '${*:3}' correct changed or left a file"
}

# corrects STATUS WORDS HEX [CORRECTION]...: it says that after the first line, and leaves those bytes in a new file, and no other.
corrects() {
    run_correct "$desk/new" "${@:4}"
    [ "$corrected_status" = "$1" ] || fail "of '${*:4}' the status of correct is $corrected_status, and not $1: $(cat "$out/said" "$out/error")"
    [ "$(sed 1d "$out/said")" = "$2" ] || fail "of '${*:4}' correct says '$(sed 1d "$out/said")', and not '$2'"
    bash listing/bytes.sh <(echo "$3") | cmp - "$desk/new" || fail "with '${*:4}' correct writes other bytes"
    rm "$desk/new"
    diff -r "$desk.copy" "$desk" >&2 || fail "with '${*:4}' correct changed or left another file"
}

# The examples that have corrections: what is printed, and what is written. The others that have no errors, written back as they are.
test_corrected_examples() {
    local example
    for example in examples/*/corrections; do
        example=$(basename "$(dirname "$example")")
        set_example "$example"
        # shellcheck disable=SC2046
        corrects 0 "$(sed 1d "examples/$example/correction")" "$(cat "examples/$example/corrected.hex")" $(cat "examples/$example/corrections")
        diff -u "examples/$example/correction" "$out/said" >&2 || fail "of $example correct prints something else"
    done
    for example in pulse_counter counted_list corrected_turn; do
        set_example "$example"
        corrects 0 $'no bit differs\nread again: no errors, and every entry is where it was' "$(cat "examples/$example/input.hex")"
    done
}

same_places='read again: no errors, and every entry is where it was'
errors_left='read again: errors are left, and every entry is where it was'

# Signed numbers, an end within a byte, a number that stays, and a count and a version, which move entries: what follows the root's end is kept.
test_corrections() {
    set_desk '03 10' 'FF CE 7F'
    corrects 0 "entry 0, signed (node 0), bits 0 to 16: -50 becomes -32768
bits that differ: 1 to 10, 12 to 15
$same_places" '80 00 7F' 0=-32768
    corrects 0 "entry 0, signed (node 0), bits 0 to 16: -50 as before
no bit differs
$same_places" 'FF CE 7F' 0=-50
    keeps 1 'not written: 0=32768: entry 0, signed (node 0), bits 0 to 16, takes -32768 to 32767' new 0=32768
    set_desk '02 05 02 08 04 00 01' 'A5 5A 33'
    corrects 0 "entry 2, bits (node 1), bits 5 to 13: 171 becomes 0
entry 1, bits (node 0), bits 0 to 5: 20 becomes 31
bits that differ: 1 to 2, 3 to 6, 7 to 8, 9 to 10, 11 to 13
$same_places" 'F8 02 33' 2=0 1=31
    set_example counted_list
    corrects 4 'entry 4, bits (node 2), bits 8 to 16: 3 becomes 2
bits that differ: 15 to 16
read again: no errors, but the entries have moved, from entry 9 on: there are 9, to bit 48, and there were 11, to bit 64' \
        '4D 02 0014 000A 000F FF FF FF' 4=2
    corrects 4 'entry 4, bits (node 2), bits 8 to 16: 3 becomes 4
bits that differ: 13 to 16
read again: no errors, but the entries have moved, from entry 11 on: there are 13, to bit 80, and there were 11, to bit 64' \
        '4D 04 0014 000A 000F FF FF FF' 4=4
    keeps 1 'not written: when corrected, the record has errors that it did not have; look at entry 1, where (node 1), bits 0 to 8' new 2=78
    set_desk '02 08 08 00 00 00 00 00 00 2A 02 08 08 02 00 00 00 00 00 2B 06 01 03' '2A'
    corrects 4 'entry 2, bits (node 0), bits 0 to 8: 42 becomes 43
bits that differ: 7 to 8
read again: no errors, but the entries have moved, from entry 1 on: there are 3, to bit 8, and there were 3, to bit 8' '2B' 2=43
    set_desk '02 10 02 01 00 01 09 01 02 03 01 00 00 00 00 05 00 04' "00 01 $(printf '00%.0s' {1..8189})"
    keeps 2 "not written: when corrected, the record is refused 13, node 0: ${reasons[13]}" new 1=65000
}

# What cannot be corrected, each told with its entry; and where a number is computed, with those that it comes from: of binds that are around it, and
# not of one that ended before it or that it is bound by.
test_no_corrections() {
    set_example corrected_turn
    keeps 1 'not written: 18=4: the entries are 0 to 17' new 18=4
    keeps 1 'not written: 99999999999999999999=4: the entries are 0 to 17' new 99999999999999999999=4
    keeps 1 'not written: 10=65536: entry 10, bits (node 1), bits 48 to 64, takes 0 to 65535' new 10=65536
    keeps 1 'not written: 10=-1: entry 10, bits (node 1), bits 48 to 64, takes 0 to 65535' new 10=-1
    keeps 1 'not written: 10=99999999999999999999: entry 10, bits (node 1), bits 48 to 64, takes 0 to 65535' new 10=99999999999999999999
    keeps 1 'not written: 0=3: entry 0, sequence (node 7), bits 0 to 96, has no number
not written: 6=0: entry 6, unit (node 5), bits 32 to 32, has no number' new 0=3 10=4 6=0
    keeps 1 'not written: 10=5: entry 10 is corrected twice' new 10=4 10=5
    keeps 1 'not written: 11=9: entry 11, compute (node 2), bits 64 to 64, has no bits of its own: its number is computed from entry 10 and entry 8' \
        new 11=9
    set_desk '02 08 08 00 05 00 00 00 00 00 08 01 05 00 00 00 00 00 0A 08 00 01 00 00 00 00 00 00 00 00 01 05 02 03' '05'
    keeps 1 'not written: 1=6: entry 1, where (node 2), bits 0 to 8, has no bits of its own: its number is that of entry 3' new 1=6
    keeps 1 'not written: 4=6: entry 4, compute (node 3), bits 8 to 8, has no bits of its own: its number is computed from entry 3' new 4=6
    corrects 0 "entry 3, bits (node 0), bits 0 to 8: 5 becomes 7
bits that differ: 6 to 7
$same_places
so entry 1, where (node 2), bits 0 to 8: 5 becomes 7
so entry 2, where (node 1), bits 0 to 8: 5 becomes 7
so entry 4, compute (node 3), bits 8 to 8: 6 becomes 8" '07' 3=7
    set_desk '02 08 02 08 00 05 01 02 0A 08 00 01 00 00 00 00 00 00 00 00 01 00 05 04 05 04 03 06 05 00 07' '05 06'
    keeps 1 'not written: 7=1: entry 7, compute (node 4), bits 16 to 16, has no bits of its own: its number is computed from entry 1' new 7=1
    set_desk '0A 08 00 00 00 00 00 01 00 00 00 00 01' ''
    keeps 1 'not written: 0=6: entry 0, compute (node 0), bits 0 to 0, has no bits of its own: its number is computed' new 0=6
}

# A record with a number that is not as it should be: corrected, left as it is, and with another one spoiled. One with two of them, of which one is
# corrected, and one is exchanged for another.
test_mended() {
    set_example temperatures
    corrects 0 "entry 11, signed (node 0), bits 32 to 48: 32767 becomes 215
bits that differ: 33 to 40, 42 to 43, 44 to 45
$same_places
so entry 9, where (node 2), bits 32 to 48: 32767 becomes 215
so entry 10, where (node 1), bits 32 to 48: 32767 becomes 215" '00D7 FFCE 00D7' 11=215
    [ "$(head -n 1 "$out/said")" = 'read to bit 48 of 48, with errors; look at entry 9, where (node 2), bits 32 to 48' ] ||
        fail "correct says of temperatures '$(head -n 1 "$out/said")'"
    corrects 4 "no bit differs
$errors_left" '00D7 FFCE 7FFF'
    keeps 1 'not written: when corrected, the record has errors that it did not have; look at entry 1, where (node 2), bits 0 to 16' new 3=32767
    keeps 1 'not written: when corrected, the record has errors that it did not have; look at entry 1, where (node 2), bits 0 to 16' new 3=32767 11=215
    set_desk "$(cat examples/temperatures/description.hex)" '7FFF FFCE 7FFF'
    corrects 4 "entry 3, signed (node 0), bits 0 to 16: 32767 becomes 0
bits that differ: 1 to 16
$errors_left
so entry 1, where (node 2), bits 0 to 16: 32767 becomes 0
so entry 2, where (node 1), bits 0 to 16: 32767 becomes 0" '0000 FFCE 7FFF' 3=0
}

# Records that are not written back: those of which a number is cut, and what the reader or the writer refuses.
test_not_written() {
    set_example cut_interval
    keeps 1 'not written: a number of the record is cut, so its entries do not make up its bits; look at entry 16, bits (node 1), bits 80 to 80' new
    set_example lost_bits
    keeps 2 "refused 14, node 0: ${reasons[14]}" new 5=4
    set_desk '02 21' '00'
    keeps 2 "refused 5, node 0: ${reasons[5]}" new
    set_desk '02 08' "$(printf '00%.0s' {1..8192})"
    keeps 2 "refused 12, node 0: ${reasons[12]}" new 0=4
}

# Names that are taken are not written over, whatever has them.
test_names() {
    local name
    set_example corrected_turn
    echo kept >"$desk/other"
    ln -s input "$desk/symbolic"
    ln "$desk/input" "$desk/hard"
    ln -s nowhere "$desk/dangling"
    mkdir "$desk/folder"
    rm -rf "$desk.copy" && cp -a "$desk" "$desk.copy"
    for name in input symbolic hard folder/../input; do keeps 3 "$name: is the input, and no file is written over" "$name" 10=4; done
    for name in other dangling folder; do keeps 3 "$name: is there already, and no file is written over" "$name" 10=4; done
    keeps 3 'description: is the description, and no file is written over' description 10=4
    keeps 3 'other/new: cannot be written: Not a directory' other/new 10=4
    for name in 10 10= =4 x=4 10=4x 10=0x4 +10=4 '10= 4' 10=--4 ''; do
        keeps 3 "$name: is no correction: ENTRY=NUMBER is wanted, both in decimal" new 10=4 "$name"
    done
    [ "$(stat -c %a "$desk/description")" = "$(run_correct "$desk/new" && stat -c %a "$desk/new")" ] || fail "correct gives a new file other rights"
    rm "$desk/new"
}

# A file that gets the name while the report waits for room in its pipe: it is not written over either.
test_taken_meanwhile() {
    local status
    set_example corrected_turn
    {
        head -c 65536 /dev/zero
        status=0
        "$out/correct" "$desk/description" "$desk/input" "$desk/new" 10=4 2>"$out/error" || status=$?
        echo "$status" >"$out/status"
    } | {
        sleep 0.5
        echo kept >"$desk/new"
        cat >/dev/null
    }
    [ "$(cat "$out/status" "$desk/new")" = $'3\nkept' ] || fail "correct writes over a file that was put there meanwhile"
    rm "$desk/new"
    diff -r "$desk.copy" "$desk" >&2 || fail "correct leaves a file where the name was taken meanwhile"
}

# Writes that fail: into a folder that is not there, a file that may not grow, a report that nobody gets. And files that are not there to read.
test_failed_writes() {
    local report said status=0
    set_example corrected_turn
    report=$(cat examples/corrected_turn/correction)
    keeps 3 "$report"$'\nnone/new: cannot be written: No such file or directory' none/new 10=4
    said=$(ulimit -f 0 && "$out/correct" "$desk/description" "$desk/input" "$desk/new" 10=4 2>&1) || status=$?
    [ "$status $said" = "3 $report"$'\n'"$desk/new: cannot be written: File too large" ] || fail "of a file that may not grow correct says '$said'"
    if "$out/correct" "$desk/description" "$desk/input" "$desk/new" 10=4 >/dev/full 2>"$out/error"; then fail "a report that is lost has status 0"; fi
    grep -q '^standard output: cannot be written: ' "$out/error" || fail "correct does not say that standard output is full"
    diff -r "$desk.copy" "$desk" >&2 || fail "a write that failed left a file"
    rm "$desk/input" && rm "$desk.copy/input"
    keeps 3 'input: cannot be opened: No such file or directory' new
    if "$out/correct" "$desk/description" "$desk/input" 2>"$out/error"; then fail "correct takes two names"; fi
    grep -q '^use: ' "$out/error" || fail "correct does not say how it is used"
}

# The program that corrects, watched as the one that prints is.
run_corrections() {
    gcc -std=c99 "${strict[@]}" -fsanitize=address,undefined -fno-sanitize-recover=all host/correct.c "$library" -o "$out/correct" ||
        fail "host/correct.c is no C99"
    test_corrected_examples
    test_corrections
    test_no_corrections
    test_mended
    test_not_written
    test_names
    test_taken_meanwhile
    test_failed_writes
    echo "host: records are corrected and written back as they should be, and nothing is left of those that are not"
}

# The library's own reads and writes, over blocks of just the size that is lent. It is valgrind that watches, since the library is not compiled with
# sanitizers and they would see nothing of it; and it has to find each block that is said to be longer than it is.
run_watched() {
    local watch=(valgrind --quiet --error-exitcode=9) which
    "${watch[@]}" "$out/test" >/dev/null || fail "valgrind found something in the check, as said above"
    "${watch[@]}" "$out/read_test" >/dev/null || fail "valgrind found something in the reader, as said above"
    for which in 0 1 2 3; do
        if "${watch[@]}" "$out/read_test" beside "$which" 2>"$out/watched"; then fail "valgrind does not see what is read or written beside block $which"; fi
        grep -q 'Invalid \(read\|write\)' "$out/watched" || fail "of block $which valgrind says something else: $(cat "$out/watched")"
    done
    "${watch[@]}" "$out/write_test" >/dev/null || fail "valgrind found something in the writer, as said above"
    gcc -std=c99 "${strict[@]}" host/correct.c "$library" -o "$out/correct_watched" || fail "host/correct.c cannot be built without sanitizers"
    set_example corrected_turn
    "${watch[@]}" "$out/correct_watched" "$desk/description" "$desk/input" "$desk/new" 10=4 >/dev/null ||
        fail "valgrind found something in correct, as said above"
    for which in 0 1 2; do
        if "${watch[@]}" "$out/write_test" beside "$which" 2>"$out/watched"; then fail "valgrind sees nothing beside the writer's block $which"; fi
        grep -q 'Invalid \(read\|write\)' "$out/watched" || fail "of the writer's block $which valgrind says something else: $(cat "$out/watched")"
    done
    echo "host: valgrind finds nothing, and finds each of the reader's four blocks and the writer's three when it is shorter than is said"
}

# The deepest descriptions, each on a stack of the size that docs/DECISIONS.md tells a host to give.
measure_stack() {
    gcc -std=c99 "${strict[@]}" host/stack.c "$library" -lpthread -o "$out/stack" || fail "host/stack.c is no C99"
    "$out/stack" || fail "the reader needs more stack than host/stack.c gives it"
}

for tool in gcc g++ valgrind; do
    command -v "$tool" >/dev/null || fail "$tool is not on the PATH"
done
build_library
compile_header
run_tests
run_program
run_reader
run_writer
run_entries
run_corrections
run_watched
measure_stack
