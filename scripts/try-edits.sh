#!/usr/bin/env bash
# Tries the edits that the prover must refuse: those of crates/NAME/must-fail, which rt ci tries too, and those of
# crates/NAME/edits and of the folders in it, which it leaves alone. Words: the crates; none: each crate that has edits. JOBS: how many crates
# are tried side by side, 2 if unset. They are tried in a copy of the work tree, so nothing is changed here.
# Prints rt's line for each edit, and for each crate the processor seconds. The last line counts the edits: refused,
# not refused, and refused only because a proof names what the edit took away. Status 1 where one is not refused.
set -u
export LC_ALL=C
TIMEFORMAT='%U %S'
cd "$(dirname -- "${BASH_SOURCE[0]}")/.." || exit 2

stop() {
    printf '%s\n' "$1" >&2
    exit 2
}

edits_below() { # FOLDER..: the edits in these folders, and in the folders in them
    find "$@" -maxdepth 2 -name '*.edit' -type f 2>/dev/null
}

jobs="${JOBS:-2}"
case "$jobs" in '' | 0* | *[!0-9]*) stop "JOBS=$jobs is no number of crates" ;; esac

crates=("$@")
if [ "$#" = 0 ]; then
    for it in crates/*/; do
        it="$(basename -- "$it")"
        [ -z "$(edits_below "crates/$it/must-fail" "crates/$it/edits")" ] || crates+=("$it")
    done
fi
for it in ${crates[@]+"${crates[@]}"}; do
    [ -d "crates/$it/src" ] || stop "there is no crate crates/$it"
done

folder="$(mktemp -d "${TMPDIR:-/tmp}/try-edits-XXXXXX")" || exit 2
tried=()
leave() {
    [ "${#tried[@]}" = 0 ] || kill "${tried[@]}" 2>/dev/null
    wait
    rm -rf -- "$folder"
}
trap leave EXIT
trap 'exit 130' INT TERM HUP

# What rt leaves where it is stopped goes with the copy.
export TMPDIR="$folder/temporary"
copy="$folder/copy"
mkdir "$TMPDIR" "$copy" "$folder/said" || exit 2
git ls-files -z --cached --others --exclude-standard |
    while IFS= read -r -d '' it; do [ ! -f "$it" ] || printf '%s\0' "$it"; done |
    tar --create --no-recursion --null --files-from=- | tar --extract --directory="$copy" || exit 2

uses() { # CRATE: the libraries on its line of crates.txt
    awk -v crate="$1" '{ sub(/#.*/, ""); rest = $0; sub(/[^:]*:?/, "", rest); sub(/:.*/, "") } $1 == crate { print rest }' crates.txt
}

# The libraries of the repository that a crate uses, lowest first, each once.
declare -A seen=()
libraries=()
add_libraries() { # CRATE
    local it
    for it in $(uses "$1"); do
        if [ -d "crates/$it" ] && [ -z "${seen[$it]:-}" ]; then
            seen[$it]=1
            add_libraries "$it"
            libraries+=("$it")
        fi
    done
}
for it in ${crates[@]+"${crates[@]}"}; do add_libraries "$it"; done

# Built here and once: crates that are tried side by side would each build them, in one folder.
for it in ${libraries[@]+"${libraries[@]}"}; do
    [ ! -d "crates/$it/out" ] || cp -a "crates/$it/out" "$copy/crates/$it/out" || exit 2
    (cd "$copy/crates/$it" && exec rt lib --jobs "$jobs") >"$folder/said/library" 2>&1 || {
        cat "$folder/said/library"
        stop "the library $it does not build, so nothing was tried"
    }
done

for it in ${crates[@]+"${crates[@]}"}; do
    mkdir -p "$copy/crates/$it/must-fail"
    edits_below "$copy/crates/$it/edits" | while IFS= read -r edit; do
        to="$copy/crates/$it/must-fail/$(basename -- "$edit")"
        [ ! -e "$to" ] || stop "crates/$it has two edits $(basename -- "$edit")"
        mv -- "$edit" "$to"
    done || exit 2
done

try_crate() { # CRATE: its lines go to a file, and to standard output once they are whole
    local said="$folder/said/$1" rt='' count
    trap '[ -z "$rt" ] || kill "$rt" 2>/dev/null; exit 130' TERM
    count="$(edits_below "$copy/crates/$1/must-fail" | wc -l)"
    {
        time {
            (cd "$copy" && exec rt must-fail "$1") >"$said" 2>&1 &
            rt=$!
            wait "$rt"
        }
    } 2>"$said.time"
    printf '%s: %d edits, %.0f processor seconds\n' "$1" "$count" \
        "$(awk '{ print $1 + $2 }' "$said.time")" >>"$said"
    cat "$said"
}

running=0
for it in ${crates[@]+"${crates[@]}"}; do
    if [ "$running" -ge "$jobs" ]; then
        wait -n
        running=$((running - 1))
    fi
    try_crate "$it" &
    tried+=("$!")
    running=$((running + 1))
done
wait

all=0 refused=0 named=0
for it in ${crates[@]+"${crates[@]}"}; do
    said="$folder/said/$it"
    all=$((all + $(edits_below "$copy/crates/$it/must-fail" | wc -l)))
    refused=$((refused + $(grep -c ': refused, as it must be' "$said")))
    named=$((named + $(grep -c ': refused, as it must be (only because' "$said")))
done
# Each edit without a line of its own, as where rt stopped, counts as not refused.
printf '%d refused, %d not refused, %d only by a proof'"'"'s name\n' \
    "$((refused - named))" "$((all - refused))" "$named"
[ "$refused" = "$all" ]
