#!/usr/bin/env bash
# Runs each check of scripts/README.md in turn. Prints a line for each: its name, status and seconds, and the last line of what it
# printed, all of which goes to FOLDER/NAME.log where a folder is named. A check that needs what is not there is left out, and its line
# says what that is. `try-edits.sh` takes hours, so it comes last. Status 0 where no check failed, 1 where one did, 2 of a bad call.
# It is no part of the gate.
set -u
[ $# -le 1 ] || {
    echo 'usage: check-all.sh [FOLDER]' >&2
    exit 2
}
kept="${1:+$(realpath -m -- "$1")}"
cd "$(dirname -- "${BASH_SOURCE[0]}")/.." || exit 2
logs="${kept:-$(mktemp -d)}"
[ -n "$kept" ] || trap 'rm -rf -- "$logs"' EXIT
mkdir -p -- "$logs" || exit 2

# Whether a built program, a module of Python or a command is there.
is_there() { # NAME
    case "$1" in
        smp_*) [ -x "crates/$1/out/$1" ] ;;
        python3-*) python3 -c "import ${1#python3-}" 2>/dev/null ;;
        *) command -v "$1" >/dev/null ;;
    esac
}

failed=0 left_out=0 passed=0
while read -r name needs; do
    missing=
    for it in $needs; do is_there "$it" || missing="$missing $it"; done
    if [ -n "$missing" ]; then
        left_out=$((left_out + 1))
        printf '%-20s left out, for want of%s\n' "$name" "$missing"
        continue
    fi
    case "$name" in *.py) run=python3 ;; *) run=bash ;; esac
    begin=$SECONDS
    "$run" "scripts/$name" >"$logs/$name.log" 2>&1 </dev/null
    status=$?
    [ "$status" = 0 ] && passed=$((passed + 1)) || failed=$((failed + 1))
    printf '%-20s %d %5d s  %s\n' "$name" "$status" $((SECONDS - begin)) "$(tail -n 1 -- "$logs/$name.log" | cut -c 1-90)"
    grep '^left out, since' "$logs/$name.log" | sed 's/^/    /'
done <<'END'
check-meter.sh
check-unsafe.sh
check-library.sh
check-lengths.sh
check-links.sh
check-colours.py python3
check-conform.py python3
check-examples.sh smp_bench smp_view
check-install.sh smp_bench smp_view python3
check-schemas.sh smp_bench python3-jsonschema python3-referencing
check-settled.py smp_view python3
check-kept.py python3
check-kept-runs.py smp_view python3
check-reports.py smp_view python3
check-advice.py smp_view python3
check-workloads.py smp_view python3
check-pictures.sh smp_view python3
check-page.sh smp_view chromium node
program-statuses.sh smp_bench smp_view prlimit
load.sh smp_bench smp_view /usr/bin/time python3
refuse-memory.sh rt
try-edits.sh rt git
END
printf '%d passed, %d failed, %d left out\n' "$passed" "$failed" "$left_out"
[ "$failed" = 0 ]
