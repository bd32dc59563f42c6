#!/usr/bin/env bash
# Holds the schemas of docs/schema/ against the program: 1,000 random documents that it accepts have to be valid, and 600 of wrong
# shape invalid, but for those that a schema can't tell (docs/FORMATS.md, "Schemas"). So have the documents of examples/ and the
# blocks of JSON in docs/. It needs Python's module jsonschema 4.18 or later (Debian's python3-jsonschema) and the built program, and
# takes about a minute. Status 1 where one differs, 2 where something that it needs is not there.
set -u
export LC_ALL=C.UTF-8
cd "$(dirname -- "${BASH_SOURCE[0]}")/.." || exit 2

program="$PWD/crates/smp_bench/out/smp_bench"
if ! [ -x "$program" ]; then
    echo "no program at $program: build it first, with (cd crates/smp_bench && rt run -- --help)" >&2
    exit 2
fi
if ! python3 -c 'import jsonschema, referencing' 2>/dev/null; then
    echo "Python's module jsonschema, 4.18 or later, is not there: install python3-jsonschema" >&2
    exit 2
fi
exec python3 scripts/check_schemas.py "$program"
