#!/usr/bin/env bash
# Reads one record and prints its listing: bash listing/read.sh DESCRIPTION INPUT
# DESCRIPTION is in commented hex. INPUT is the stored bytes, or commented hex where its name ends in .hex. The listing program is built first,
# which takes some minutes the first time. The status is 0 where the listing was written whole.
set -euo pipefail
root=$(dirname "${BASH_SOURCE[0]}")/..

fail() {
    echo "read: $*" >&2
    exit 1
}

[ $# -eq 2 ] || fail "usage: bash listing/read.sh DESCRIPTION INPUT"
for file in "$@"; do
    [ -r "$file" ] && [ ! -d "$file" ] || fail "$file is no file that can be read"
done
command -v rt >/dev/null || fail "the Rattle kit's command rt is not on the PATH"

work=$(mktemp -d)
trap 'rm -rf "$work"' EXIT
bash "$root/listing/bytes.sh" "$1" >"$work/description"
case $2 in
    *.hex) bash "$root/listing/bytes.sh" "$2" >"$work/input" ;;
    *) head -c 8192 "$2" >"$work/input" ;; # more are refused as 8,192 are
esac
length=$(wc -c <"$work/description")
[ "$length" -le 65535 ] || fail "$1 has $length bytes, which two bytes of length cannot say; a description has at most 1,024"

bash "$root/listing/build.sh"
# shellcheck disable=SC2059
{
    printf "$(printf '\\%03o\\%03o' $((length / 256)) $((length % 256)))"
    cat "$work/description" "$work/input"
} >"$work/given"

# The program's status is 0 whatever happens. That of `cat` is not: it fails where the output does.
"$root/target/bin/listing" <"$work/given" | cat
