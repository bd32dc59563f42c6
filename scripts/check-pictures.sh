#!/usr/bin/env bash
# Draws the pictures of docs/pictures again and compares them byte for byte, and holds the picture of each document of examples/,
# and of one of 200 steps, against what `smp_view trace` tells: each bar with its places, each step, each mark, the legend, and that
# nothing is clipped, covers a name or runs into another row. A browser has the same elements of nine of them, and shows each 800 and
# 1600 pixels wide, light and dark; a folder that is named gets what it shows. The browser is Debian's chromium, or the one that the
# variable BROWSER names; where it is not there, that is left out. A line for each thing that differs; the last line is
# `N passed, M failed`, and the status is 1 where one fails. With --write it writes docs/pictures anew first; look at them.
set -u
words=()
for word in "$@"; do
    case "$word" in --*) words+=("$word") ;; *) words+=("$(realpath -m -- "$word")") ;; esac
done
cd "$(dirname -- "${BASH_SOURCE[0]}")/.." || exit 1
viewer="$PWD/crates/smp_view/out/smp_view"
if ! [ -x "$viewer" ]; then
    echo "no program at $viewer: build it first, with (cd crates/smp_view && rt run -- --help)" >&2
    exit 1
fi
exec python3 scripts/pictures.py "$viewer" ${words[@]+"${words[@]}"}
