#!/usr/bin/env bash
# By `unsafe` a list could be forgotten with the memory of its links, and no contract would say so. So this looks for the word in the
# code of each crate; `unsafe-inline`, which pages tell a browser, is another. Status 1 where it stands.
set -u
cd "$(dirname -- "${BASH_SOURCE[0]}")/.." || exit 2

files="$(find crates -path '*/out' -prune -o -path '*/src/*.rt' -type f -print)"
if [ -z "$files" ]; then
    printf 'there is no code in crates\n'
    exit 1
fi
if printf '%s\n' "$files" | xargs -d '\n' grep -nE '\bunsafe($|[^-])' --; then
    printf 'no code is to be unsafe\n'
    exit 1
fi
