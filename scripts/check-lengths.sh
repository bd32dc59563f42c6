#!/usr/bin/env bash
# Clauses, definitions and code are at most 100 columns wide. Imports, attributes and lines with a text in them are left out, as the
# formatter leaves them, and so are proofs. Prints each longer line; status 1 where there is one.
set -u
export LC_ALL=C
cd "$(dirname -- "${BASH_SOURCE[0]}")/.." || exit 2

files=0 longer=0
while IFS= read -r -d '' file; do
    files=$((files + 1))
    # A column is a character: its first byte is counted, and the others are not.
    lines="$(tr -d '\200-\277' <"$file" | awk -v file="$file" '
        /^ *(ghost use|pub use|use|unfolding) / || /^ *#!?\[/ || /"/ { next }
        length($0) > 100 { printf "%s:%d: %d columns\n", file, NR, length($0) }')"
    if [ -n "$lines" ]; then
        printf '%s\n' "$lines"
        longer=$((longer + 1))
    fi
done < <(find crates -path '*/out' -prune -o \( -path '*/src/*.rt' -o -path '*/specs/*.antt' \) -type f -print0)
printf '%d files, %d with lines of more than 100 columns\n' "$files" "$longer"
[ "$files" -gt 0 ] && [ "$longer" = 0 ]
