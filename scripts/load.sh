#!/usr/bin/env bash
# Runs the built programs at the limits, from file to file, and prints tables of what came of each run, the time and the peak memory.
#
#     load.sh [texts|views]
#
# `texts` has `smp_bench` read texts of the greatest length, 268,435,456 bytes, of every shape that was found to be dear. It is an error
# where one took more than 20 s or 9 GB, or got another answer than it should. `views` has each command of `smp_view` show a run of
# nearly 1,000,000 steps, of 8 cores and 64 tasks and of 32 cores and 512 tasks. It is an error where one has another status than it
# should. Without a word both are made. Status 1 an error, 2 a bad call.
#
# It is no part of the gate. It takes some minutes, and needs 400 MB of room for files, GNU time and python3.
set -u
export LC_ALL=C
cd "$(dirname -- "${BASH_SOURCE[0]}")/.." || exit 1

what="${1:-both}"
case "$what" in texts | views | both) ;; *)
    echo 'usage: load.sh [texts|views]' >&2
    exit 2
    ;;
esac
program="$PWD/crates/smp_bench/out/smp_bench"
view="$PWD/crates/smp_view/out/smp_view"
for built in "$program" "$view"; do
    if ! [ -x "$built" ]; then
        echo "no program at $built: build it first, by 'rt run -- --help' in crates/$(basename -- "$built")" >&2
        exit 1
    fi
done
length=268435456
most_seconds=20
most_kilobytes=9000000
folder="$(mktemp -d)"
trap 'rm -rf -- "$folder"' EXIT
bad=0

# The members of a session up to its steps.
head='{"format":1,"cores":2,"priorities":5,"slicing":false,"tick":0,"mutexes":0,"tasks":[{"name":"A","priority":2,"mask":3}],"steps":['
rig='{"session":{"format":1,"cores":2,"priorities":5,"slicing":false,"tick":0,"mutexes":0,"tasks":[{"name":"A","priority":2,"mask":3}],"steps":[]},"limit":1000000,"scripts":[['

again() { # TIMES TEXT: the text so many times
    [ "$1" = 0 ] || yes "$2" | head -n "$1" | tr -d '\n'
}

spaces() { # COUNT
    head -c "$1" /dev/zero | tr '\0' ' '
}

# The text that begins and ends so, with as many of the items as fit between, or as many as are said, and spaces before its end.
text() { # BEGIN ITEM END [TIMES]
    local times="${4:-$(((length - ${#1} - ${#3}) / ${#2}))}"
    printf '%s' "$1"
    again "$times" "$2"
    spaces $((length - ${#1} - ${#3} - times * ${#2}))
    printf '%s' "$3"
}

# The same with members whose names differ.
members() { # TIMES END
    printf '{'
    seq -f '"m%08.0f":1,' 1 "$1" | tr -d '\n'
    spaces $((length - 1 - 14 * $1 - ${#2}))
    printf '%s' "$2"
}

run() { # SHAPE FIRST-LINE STATUS WORD..: a run over the file `in`
    local shape="$1" line="$2" want="$3" status said elapsed kilobytes verdict=''
    shift 3
    [ "$(stat -c %s "$folder/in")" = "$length" ] || verdict=' NOT OF THAT LENGTH'
    /usr/bin/time -f '%e %M' -o "$folder/time" "$program" "$@" <"$folder/in" >"$folder/out" 2>"$folder/err"
    status=$?
    read -r elapsed kilobytes < <(tail -n 1 "$folder/time")
    said="$(head -n 1 "$folder/out" | head -c 40)"
    [ "$status" = "$want" ] && [ "$said" = "$line" ] || verdict="$verdict WRONG: status $status, $said"
    awk -v e="$elapsed" -v m="$most_seconds" 'BEGIN { exit !(e > m) }' && verdict="$verdict TOO LONG"
    [ "$kilobytes" -le "$most_kilobytes" ] || verdict="$verdict TOO MUCH MEMORY"
    [ -z "$verdict" ] || bad=$((bad + 1))
    awk -v s="$shape" -v l="$line" -v e="$elapsed" -v k="$kilobytes" -v v="$verdict" \
        'BEGIN { printf "| %s | `%s` | %.1f s | %.2f GB |%s\n", s, l, e, k / 1000000, v }'
}

texts() {
    echo '| text | first line | elapsed | peak memory |'
    echo '|---|---|---|---|'
    text '"' a '"' >"$folder/in"
    run 'one string' 'refused H2 top' 1 replay
    text '"' '\u0061' '"' >"$folder/in"
    run 'one string of escapes' 'refused H2 top' 1 replay
    text '' '[' '' >"$folder/in"
    run 'brackets that open' 'refused H1' 1 replay
    text '[' '[],' '[]]' >"$folder/in"
    run 'brackets that open and close' 'refused H2 top' 1 replay
    text "$head" "$(again 124 '[')$(again 124 ']')," '[]]}' >"$folder/in"
    run 'steps that are brackets, 124 deep' 'refused H2 steps[0]' 1 replay
    text '[' '{},' '{}]' >"$folder/in"
    run 'braces that open and close' 'refused H2 top' 1 replay
    text '[' '1,' '1]' >"$folder/in"
    run 'numbers' 'refused H2 top' 1 replay
    text '[' '1.7976931348623157e308,' '1]' >"$folder/in"
    run 'long numbers' 'refused H2 top' 1 replay
    text '[' '"a",' '1]' >"$folder/in"
    run 'short strings' 'refused H2 top' 1 replay
    text "$head" '{"a":1},' '{"do":"tick"}]}' 1000000 >"$folder/in"
    run 'a million steps that are small objects' 'refused H2 steps[0].do' 1 replay
    text "$head" '{"a":1},' '{"do":"tick"}]}' >"$folder/in"
    run 'as many of these as there is room for' 'refused H2 steps[0].do' 1 replay
    text "$head" '{"a":1},' '' >"$folder/in"
    run 'the same without an end' 'refused H1' 1 replay
    members 1000000 '"m":1}' >"$folder/in"
    run 'an object of a million members' 'refused H2 format' 1 replay
    members 19170000 '"m":1}' >"$folder/in"
    run 'an object of nineteen million members' 'refused H2 format' 1 replay
    text '{' '"a":1,' '"a":1}' >"$folder/in"
    run 'one member again and again' 'refused H2 format' 1 replay
    text "$head" '{"do":"tick"},' '{"do":"tick"}]}' >"$folder/in"
    run 'more ticks than a session has' 'refused J2' 1 replay
    text "$head" "{\"do\":\"tick\"$(spaces 250)}," '{"do":"tick"}]}' 999999 >"$folder/in"
    run 'a session of 1,000,000 steps, padded with spaces' 'start A IDLE0' 0 replay
    run 'the same with tallies' 'start A IDLE0' 0 replay --tally
    text "$rig" '{"do":"tick"},' '{"do":"tick"}],[]]}' >"$folder/in"
    run 'a script of nineteen million ticks, with room for 1,000,000' "$(printf '{"cores":2,"format":1,"mutexes":0,"prior')" 0 record
    text "$rig" '{"a":1},' '{"do":"tick"}],[]]}' >"$folder/in"
    run 'actions that are small objects' 'refused H2 scripts[0][0].do' 1 record
}

show() { # SIZE FILE WORD..: a command of smp_view over the file
    local size="$1" file="$2" status elapsed kilobytes verdict=''
    shift 2
    /usr/bin/time -f '%e %M' -o "$folder/time" "$view" "$@" "$folder/$file" >"$folder/out" 2>"$folder/err"
    status=$?
    read -r elapsed kilobytes < <(tail -n 1 "$folder/time")
    [ "$status" = 0 ] || verdict=" WRONG: status $status"
    [ -z "$verdict" ] || bad=$((bad + 1))
    awk -v s="$size" -v w="$*" -v e="$elapsed" -v k="$kilobytes" -v b="$(stat -c %s "$folder/out")" -v v="$verdict" \
        'BEGIN { printf "| %s | `%s` | %.1f s | %.2f GB | %.1f MB |%s\n", s, w, e, k / 1000000, b / 1000000, v }'
}

# Each command, with the words that it takes; pictures, traces and pages are of the places from 50,000 to this one.
show_each() { # SIZE LAST FILE WORD..
    local size="$1" places=(--from 50000 --to "$2") file="$3"
    shift 3
    show "$size" "$file" trace "$@" "${places[@]}"
    show "$size" "$file" compare "$@"
    show "$size" "$file" timeline "$@" "${places[@]}"
    show "$size" "$file" report "$@"
    show "$size" "$file" check "$@" --at-most t0.ready=4294967295
    show "$size" "$file" page "$@" "${places[@]}"
}

# A session of so many cores, tasks and events, settled, and its settled run as it stands; with two edits of either.
views_of() { # CORES TASKS EVENTS
    local size="$1 cores, $2 tasks" edits='[{"edit":"remove","at":1},{"edit":"insert","at":2,"step":{"do":"tick"}}]'
    python3 scripts/load_sessions.py "$1" "$2" "$3" >"$folder/events"
    show "$size" events settle
    { printf '{"session":' && cat "$folder/out" && printf ',"edits":%s}' "$edits"; } >"$folder/steps"
    { printf '{"session":' && cat "$folder/events" && printf ',"edits":%s}' "$edits"; } >"$folder/edited"
    show_each "$size" 53999 steps
    # Where steps of either run stand alone a picture has more columns than places.
    show_each "$size" 52499 edited --settle
}

views() {
    echo '| session | command of `smp_view` | elapsed | peak memory | output |'
    echo '|---|---|---|---|---|'
    views_of 8 64 240000
    views_of 32 512 74000
}

[ "$what" = views ] || texts
[ "$what" = texts ] || views
if [ "$bad" -gt 0 ]; then
    echo "$bad wrong" >&2
    exit 1
fi
