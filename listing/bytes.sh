#!/usr/bin/env bash
# Turns commented hex into bytes: bash listing/bytes.sh FILE
# A byte is two hex digits; spaces between bytes are free; # begins a comment that ends with the line. What is neither is told with its line.
set -euo pipefail

[ $# -eq 1 ] || {
    echo "usage: bash listing/bytes.sh FILE" >&2
    exit 2
}

octal=$(awk '
    {
        sub(/#.*/, "")
        gsub(/[ \t\r]+/, " ")
        words = split($0, word, " ")
        for (i = 1; i <= words; i++) {
            if (word[i] !~ /^[0-9A-Fa-f]+$/ || length(word[i]) % 2) {
                printf "%s:%d: \"%s\" is not hex, two digits to a byte\n", FILENAME, FNR, word[i] | "cat >&2"
                exit 1
            }
            for (j = 1; j < length(word[i]); j += 2) {
                high = index("0123456789abcdef", tolower(substr(word[i], j, 1))) - 1
                low = index("0123456789abcdef", tolower(substr(word[i], j + 1, 1))) - 1
                printf "\\%03o", 16 * high + low
            }
        }
    }' "$1")
# The text holds nothing but octal escapes.
# shellcheck disable=SC2059
printf "$octal"
