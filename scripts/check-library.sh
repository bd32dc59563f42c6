#!/usr/bin/env bash
# The examples of docs/LIBRARY.md are pieces of the folder examples of crates/program_tests, whose tests are proved and run: each of
# them, from one blank line of its block to the next, has to stand in one file of the folder, line by line. Status 1 where one does not.
set -u
export LC_ALL=C
cd "$(dirname -- "${BASH_SOURCE[0]}")/.." || exit 2

awk '
    FILENAME != "docs/LIBRARY.md" { source[FILENAME] = source[FILENAME] $0 "\n"; next }
    /^```/ { inside = $0 == "```rust"; check() }
    inside && !/^```/ { if ($0 == "") check(); else item = item $0 "\n" }
    END {
        printf "docs/LIBRARY.md: %d examples, %d strange\n", items, strange
        exit strange > 0 || items == 0
    }
    function check(file, found) {
        if (item == "") return
        items += 1
        for (file in source) if (index("\n" source[file], "\n" item)) found = 1
        if (!found) { strange += 1; printf "not in crates/program_tests/src/examples:\n%s", item }
        item = ""
    }
' crates/program_tests/src/examples/*.rt docs/LIBRARY.md
