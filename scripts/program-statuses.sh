#!/usr/bin/env bash
# Runs the built programs, smp_bench and then smp_view, over every kind of command line, input and device, and compares their exit
# status, their whole standard output and the first words of their standard error. One line a case, then a total; status 1 where one
# differs.
set -u
export LC_ALL=C
cd "$(dirname -- "${BASH_SOURCE[0]}")/.." || exit 1

for name in smp_view smp_bench; do
    program="$PWD/crates/$name/out/$name"
    if ! [ -x "$program" ]; then
        echo "no program at $program: build it first, with (cd crates/$name && rt run -- --help)" >&2
        exit 1
    fi
done

folder="$(mktemp -d)"
trap 'rm -rf -- "$folder"' EXIT
good=0
bad=0

# Takes the run's status from `status`, and its output from the files `out` and `err`.
compare() { # NAME STATUS OUT ERR: ERR is how standard error begins, and is empty where nothing is to be there
    local out err
    out="$(cat "$folder/out" && echo .)"
    err="$(cat "$folder/err" && echo .)"
    if [ "$status" = "$2" ] && [ "$out" = "$3." ] &&
        if [ -z "$4" ]; then [ "$err" = . ]; else [ "${err#"$4"}" != "$err" ]; fi; then
        good=$((good + 1))
        printf 'ok    %d  %s\n' "$2" "$1"
    else
        bad=$((bad + 1))
        printf 'WRONG %s (wanted %d)  %s\n' "$status" "$2" "$1"
        head -c 300 "$folder/out" "$folder/err" | sed 's/^/      /'
    fi
}

# A run whose input is the file `in`.
run() { # NAME STATUS OUT ERR WORD..
    local name="$1" want="$2" out="$3" err="$4"
    shift 4
    "$program" "$@" <"$folder/in" >"$folder/out" 2>"$folder/err"
    status=$?
    compare "$name" "$want" "$out" "$err"
}

session() { # FROM TO: the example as input, with the first FROM replaced by TO
    local text
    text="$(cat examples/first-run.json)"
    printf '%s\n' "${text/"$1"/"$2"}" >"$folder/in"
}

lines='start A B
0 blocked A B
1 done C B
2 done C B
3 done C B
4 done C B
'

# ---- sessions

session '' ''
run 'replay' 0 "$lines" '' replay
run 'replay, with the end of the options marked' 0 "$lines" '' replay --
run 'the least span' 0 "$lines" '' replay --span 1
run 'the usual span, behind an equals sign' 0 "$lines" '' replay --span=64
run 'the greatest span, and the end of the options' 0 "$lines" '' replay --span 1000 --
run 'a span with a sign and zeros' 0 "$lines" '' replay --span +007
tallies='task IDLE0 run 0 0 wait 1 inverted 0 in 0 displaced 0 timeouts 0 top 0
task IDLE1 run 0 0 wait 1 inverted 0 in 0 displaced 0 timeouts 0 top 0
task A run 0 0 wait 0 inverted 0 in 0 displaced 0 timeouts 0 top 2
task B run 0 1 wait 0 inverted 0 in 0 displaced 0 timeouts 0 top 1
task C run 1 0 wait 0 inverted 0 in 1 displaced 0 timeouts 0 top 1
'
run 'tallies' 0 "$lines$tallies" '' replay --tally
run 'tallies, then a span' 0 "$lines$tallies" '' replay --tally --span 7
run 'a span, then tallies' 0 "$lines$tallies" '' replay --span=7 --tally --
session '"steps": [' '"steps": [{"do": "switch", "core": 0}, {"do": "finish", "core": 1, "by": "B"},'
run 'replay of steps that the kernel refuses' 0 "start A B
0 refused E10 A B
1 refused E5 A B
2 blocked A B
3 done C B
4 done C B
5 done C B
6 done C B
" '' replay

session '"core": 0' '"core": 7, "core": 0'
core_twice=$'the member "core" stands twice, and the last one counts: line 14, column 32\n'
run 'replay of a session with a member twice' 0 "$lines" "$core_twice" replay
run 'whatif of one' 0 '' "${core_twice}no edits: nothing was tried" whatif
printf '{"format": 1, "format": 1}' >"$folder/in"
format_twice=$'the member "format" stands twice, and the last one counts: line 1, column 15\n'
no_cores=$'cores: this member is missing (line 1, column 1)\n'
run 'a refused session with a member twice' 1 $'refused H2 cores\n' "$format_twice$no_cores" replay
printf '{"format": 1, "format": 1' >"$folder/in"
run 'the same, cut off' 1 $'refused H1\n' $'not JSON: line 1, column 25\n' replay

cp examples/another-call.json "$folder/in"
edited='edit 0 from 0 met 5 replayed 5
edit 1 refused J1
start A B
0 done A B
1 done A B
2 done A B
3 refused E2 A B
4 refused E10 A B
'
no_place=$'edit 1 refused J1: the session has 5 steps\n'
run 'replay of an edited session' 0 "$edited" "$no_place" replay
run 'replay of an edited session, with a span' 0 "$edited" "$no_place" replay --span 2
run 'replay of an edited session, with tallies' 0 "${edited}task IDLE0 run 0 0 wait 1 inverted 0 in 0 displaced 0 timeouts 0 top 0
task IDLE1 run 0 0 wait 1 inverted 0 in 0 displaced 0 timeouts 0 top 0
task A run 1 0 wait 0 inverted 0 in 0 displaced 0 timeouts 0 top 2
task B run 0 1 wait 0 inverted 0 in 0 displaced 0 timeouts 0 top 1
task C run 0 0 wait 1 inverted 0 in 0 displaced 1 timeouts 0 top 1
" "$no_place" replay --tally

# ---- trials of edits

tried='edit 0 from 0 met 5 replayed 5
task IDLE0 run 0 0 wait 1 inverted 0 in 0 displaced 0 timeouts 0 top 0
task IDLE1 run 0 0 wait 1 inverted 0 in 0 displaced 0 timeouts 0 top 0
task A run 1 0 wait 0 inverted 0 in 0 displaced 0 timeouts 0 top 2
task B run 0 1 wait 0 inverted 0 in 0 displaced 0 timeouts 0 top 1
task C run 0 0 wait 1 inverted 0 in 0 displaced 1 timeouts 0 top 1
edit 1 refused J1
'
run 'whatif' 0 "$tried" "$no_place" whatif
run 'whatif, with the end of the options marked' 0 "$tried" "$no_place" whatif --
run 'whatif, with a span' 0 "$tried" "$no_place" whatif --span 2
run 'whatif, with a span behind an equals sign' 0 "$tried" "$no_place" whatif --span=+007 --
session '' ''
run 'whatif of a session, which has no edits' 0 '' $'no edits: nothing was tried\n' whatif

# What one run prints, whatever the number of parts: of documents with edits, refused ones, and one with none.
in_parts() { # NAME WORD..: the document is the file `in`
    local name="$1" parts whole want told
    shift
    "$program" whatif "$@" <"$folder/in" >"$folder/whole" 2>"$folder/told"
    want=$?
    told="$(cat "$folder/told")"
    whole="$(cat "$folder/whole" && echo .)"
    whole="${whole%.}"
    for parts in 1 3 8; do
        bash scripts/whatif-many.sh "$@" "$folder/in" "$parts" >"$folder/out" 2>"$folder/err"
        status=$?
        compare "$name, in $parts parts" "$want" "$whole" "$told"
    done
}
if command -v parallel >/dev/null && command -v jq >/dev/null; then
    cp examples/what-if/ends-an-inversion.json "$folder/in"
    in_parts 'trials of an inversion'
    in_parts 'trials of an inversion, with a span' --span 2
    cp examples/another-call.json "$folder/in"
    in_parts 'trials of two edits'
    ticks="$(printf '%0100d' 0 | sed 's/0/{"edit": "insert", "at": 3, "step": {"do": "tick"}}, /g')"
    sed "s/\"edits\": \[/&$ticks/" examples/rigs/slower-device.json >"$folder/in"
    in_parts 'trials of 102 edits'
    sed -i 's/"at": 3}/"at": 3e0}/' "$folder/in"
    in_parts 'a refused document'
    session '' ''
    in_parts 'trials of no edits'
else
    printf 'left out, since parallel or jq is not here: scripts/whatif-many.sh\n'
fi

# ---- rigs

# Only one core has a script, so the recording is the same each time.
rig='{"session": {"format": 1, "cores": 2, "priorities": 5, "slicing": false, "tick": 0, "mutexes": 0,
  "tasks": [{"name": "A", "priority": 2, "mask": 1}, {"name": "B", "priority": 1, "mask": 2}], "steps": []},
 "limit": 9, "scripts": [[{"do": "hold_open"}, {"do": "tick"}, {"do": "hold_close"}, {"do": "delay", "ticks": 1},
  {"do": "switch"}, {"do": "yield"}, {"do": "hold_open"}, {"do": "tick"}, {"do": "switch"}, {"do": "finish"}, {"do": "hold_open"}], []]}'
recorded='{"cores":2,"format":1,"mutexes":0,"priorities":5,"slicing":false,"steps":[{"by":"A","core":0,"do":"hold_open"},{"do":"tick"},{"by":"A","core":0,"do":"hold_close"},{"by":"A","core":0,"do":"delay","ticks":1},{"core":0,"do":"switch"},{"do":"tick"},{"core":0,"do":"switch"},{"by":"A","core":0,"do":"finish"}],"tasks":[{"mask":1,"name":"A","priority":2},{"mask":2,"name":"B","priority":1}],"tick":0}
'
with() { printf '%s' "${rig/"$1"/"$2"}" >"$folder/in"; } # FROM TO: the rig with the first FROM replaced by TO
with '' ''
run 'record: no room for a last hold' 0 "$recorded" '' record
run 'record, with the end of the options marked' 0 "$recorded" '' record --
printf '%s' "$recorded" >"$folder/in"
run 'replay of a recording' 0 'start A B
0 done A B
1 done A B
2 done A B
3 blocked A B
4 done IDLE0 B
5 done IDLE0 B
6 done A B
7 done A B
' '' replay
with '"limit": 9' '"limit": 3, "limit": 9'
run 'record: a rig with a member twice' 0 "$recorded" $'the member "limit" stands twice, and the last one counts: line 3, column 14\n' record
with '"limit": 9' '"limit": 1000000'
run 'record: a hold that is open at the end is closed' 0 "${recorded/'"do":"finish"}'/'"do":"finish"},{"by":"A","core":0,"do":"hold_open"},{"by":"A","core":0,"do":"hold_close"}'}" '' record
with '"limit": 9' '"limit": 0'
run 'record with room for nothing' 0 "$(printf '%s' "$recorded" | sed 's/"steps":\[.*\],"tasks"/"steps":[],"tasks"/')
" '' record

# ---- the examples, and what the documents show of them

if bash scripts/check-examples.sh >"$folder/examples" 2>&1; then
    good=$((good + 1))
    printf 'ok    0  the examples: %s\n' "$(tail -n 1 "$folder/examples")"
else
    bad=$((bad + 1))
    printf 'WRONG 1 (wanted 0)  the examples\n'
    sed 's/^/      /' "$folder/examples"
fi

# ---- refused input

: >"$folder/in"
run 'no input' 1 $'refused H1\n' 'not JSON: line 1, column 0' replay
printf '{' >"$folder/in"
run 'a text that is not JSON' 1 $'refused H1\n' 'not JSON: line 1, column 1' replay
printf '"\377"' >"$folder/in"
run 'a text that is not UTF-8' 1 $'refused H1\n' 'not JSON: not UTF-8' replay
printf '\357\273\277{}' >"$folder/in"
run 'a byte order mark' 1 $'refused H1\n' 'not JSON: the text begins with a byte order mark' replay
printf '{}' >"$folder/in"
run 'a missing member' 1 $'refused H2 format\n' 'format: this member is missing (line 1, column 1)' replay
session '"core": 0' '"core": "0"'
run 'an ill-typed member' 1 $'refused H2 steps[0].core\n' 'steps[0].core: expected a whole number from 0 to 4294967295, found a text (line 14, column 29)' replay
session '"core": 0' '"core": 4294967296'
run 'a number that is too great' 1 $'refused H2 steps[0].core\n' 'steps[0].core: expected a whole number from 0 to 4294967295, found a greater one (line 14, column 29)' replay
session '"steps": [' '"notes": 1, "steps": ['
run 'an unknown member' 1 $'refused H2 top\n' 'top: there is no member "notes"; the nearest is "cores"; these may stand here: format, cores, priorities' replay
session '"format": 1' '"format": 4'
run 'another format' 1 $'refused H2 format\n' 'format: expected 1, 2 or 3 (line 2, column 13)' replay
sed 's/"edit": "replace"/"edit": "add"/' examples/another-call.json >"$folder/in"
run 'an unknown word' 1 $'refused H2 edits[0].edit\n' 'edits[0].edit: "add" is no word that stands here; the nearest is "change"; these are: insert, remove, replace, change (line 23, column 14)' replay
head -c 268435456 /dev/zero | tr '\0' ' ' >"$folder/in"
run 'the longest input' 1 $'refused H1\n' 'not JSON' replay
printf ' ' >>"$folder/in"
run 'an input one byte longer' 1 $'refused H3\n' 'the input has more than 268435456 bytes' replay
session '"cores": 2' '"cores": 1'
run 'a header that is outside its limits' 1 $'refused F1\n' 'header: cores is 1, and may be 2 to 32 (line 3, column 12)' replay
session '"core": 0' '"core": 2'
run 'no such core' 1 $'refused F2 steps[0]\n' 'steps[0]: core 2 is none of the cores 0 to 1 (line 14, column 5)' replay
session '"by": "C"' '"by": "D"'
run 'no such task' 1 $'refused F3 steps[3]\n' 'steps[3]: no user task is named "D"; the nearest name is "A" (line 17, column 5)' replay
sed 's/"by": "A"}}/"by": "D"}}/' examples/another-call.json >"$folder/in"
run 'no such task in an edit' 1 $'refused F3 edits[0]\n' 'edits[0]: no user task is named "D"; the nearest name is "A" (line 23, column 5)' replay
sed 's/"at": 6, //' examples/another-call.json >"$folder/in"
run 'an edit at no place' 1 $'refused H2 edits[1].at\n' 'edits[1].at: this member is missing (line 24, column 5)' replay
ticks="$(printf '%01000001d' 0 | sed 's/0/{"do":"tick"},/g')"
session '"steps": [' "\"steps\": [$ticks"
run 'more steps than a session may have' 1 $'refused J2\n' 'the session has more than 1000000 steps' replay
sed -i '14s/"core": 0/"core": 7, "core": 0/' "$folder/in"
run 'the same, with a member twice' 1 $'refused J2\n' "${core_twice}the session has more than 1000000 steps" replay

: >"$folder/in"
run 'no document' 1 $'refused H1\n' 'not JSON: line 1, column 0' whatif
run 'no rig' 1 $'refused H1\n' 'not JSON: line 1, column 0' record
session '' ''
run 'a session in place of a rig' 1 $'refused H2 session\n' 'session: this member is missing (line 1, column 1)' record
with '"steps": []' '"steps": [{"do": "tick"}]'
run 'a rig whose session has steps' 1 $'refused H2 session.steps\n' 'session.steps: the session of a rig has no steps (line 2, column 105)' record
with ', []]}' ']}'
run 'a core without a script' 1 $'refused H2 scripts\n' 'scripts: expected an array for each core, 2 of them (line 3, column 25)' record
with '"cores": 2' '"cores": 1'
run 'more scripts than cores' 1 $'refused H2 scripts\n' 'scripts: expected an array for each core, 1 of them (line 3, column 25)' record
with '"priorities": 5' '"priorities": 2'
run 'a rig with a header outside its limits' 1 $'refused F1\n' 'header: tasks[0].priority has to be below 2 (line 2, column 39)' record
with '"limit": 9' '"limit": 1000001'
run 'a limit above the greatest' 1 $'refused F5 limit\n' 'limit: limit is 1000001, and may be 0 to 1000000 (line 3, column 11)' record
with ', []]}' ', [{"do": "tick"}]]}'
run 'a tick on another core than 0' 1 $'refused F2 scripts[1][0]\n' 'scripts[1][0]: only core 0 has ticks (line 4, column 134)' record
head -c 268435457 /dev/zero | tr '\0' ' ' >"$folder/in"
run 'a rig one byte longer than the longest input' 1 $'refused H3\n' 'the input has more than 268435456 bytes' record
with '' ''
run 'a rig in place of a session' 1 $'refused H2 edits\n' 'edits: this member is missing (line 1, column 1)' replay

# ---- help

session '' ''
help='Records and replays FreeRTOS SMP scheduling sessions

Usage: smp_bench <COMMAND>

Commands:
  replay  Replays the session on standard input, and prints the tasks that run after each step
  whatif  Tries each edit of the document on standard input alone, and prints what it would change
  record  Plays the scripts of the rig on standard input, one thread a core, and prints the session

Options:
  -h, --help  Print help

Documents, each a JSON text on standard input:
  session         the cores, priorities and tasks, and the steps of a run
  bench document  a session, and edits of it
  rig             a session without steps, and a script of actions for each core

Exit status:
  0  all went well
  1  the input is refused: standard output has the code, standard error says why
  2  a bad command line
  3  memory was refused, or a read or a write failed

Example: smp_bench replay < examples/first-run.json
'
what_if_help='Tries each edit of the document on standard input alone, and prints what it would change

Usage: smp_bench whatif [OPTIONS]

Options:
      --span <STEPS>  Steps from one checkpoint to the next, 1 to 1000, or 64 if left out
  -h, --help          Print help

It reads a bench document: {"session": SESSION, "edits": [EDIT, ..]}
Each edit is made alone, of the session as it is read:
  {"edit": "insert", "at": INDEX, "step": STEP}
  {"edit": "remove", "at": INDEX}
  {"edit": "replace", "at": INDEX, "step": STEP}
  {"edit": "change", "task": NAME, "priority": NUMBER, "mask": NUMBER}

Example: smp_bench whatif < examples/what-if/ends-an-inversion.json
'
record_help='Plays the scripts of the rig on standard input, one thread a core, and prints the session

Usage: smp_bench record

Options:
  -h, --help  Print help

It reads a rig: {"session": SESSION, "limit": ENTRIES, "scripts": [[ACTION, ..], ..]}
The session has no steps, and each core has a script. An action is a step without core and task.

Example: smp_bench record < examples/rigs/interrupt-driven-driver.json
'
replay_help='Replays the session on standard input, and prints the tasks that run after each step

Usage: smp_bench replay [OPTIONS]

Options:
      --span <STEPS>  Steps from one checkpoint to the next, 1 to 1000, or 64 if left out
      --tally         Prints how each task fared, after the steps
  -h, --help          Print help

It reads a session, or a bench document: {"session": SESSION, "edits": [EDIT, ..]}
The edits are made one after another, before the replay:
  {"edit": "insert", "at": INDEX, "step": STEP}
  {"edit": "remove", "at": INDEX}
  {"edit": "replace", "at": INDEX, "step": STEP}
  {"edit": "change", "task": NAME, "priority": NUMBER, "mask": NUMBER}

Example: smp_bench replay --tally < examples/another-call.json
'
run '--help' 0 "$help" '' --help
run '-h' 0 "$help" '' -h
run '--help, then more words' 0 "$help" '' --help replay
run '-h with more letters' 0 "$help" '' -hx
run 'replay --help' 0 "$replay_help" '' replay --help
run 'replay -h' 0 "$replay_help" '' replay -h
run 'replay --help, then more words' 0 "$replay_help" '' replay --help again
run 'replay with a span, then --help' 0 "$replay_help" '' replay --span 5 --help
run 'whatif --help' 0 "$what_if_help" '' whatif --help
run 'whatif with a span, then -h' 0 "$what_if_help" '' whatif --span 5 -h again
run 'record --help' 0 "$record_help" '' record --help
run 'record -h, then more words' 0 "$record_help" '' record -h again

# ---- bad command lines

run 'no command' 2 '' "error: 'smp_bench' requires a subcommand but one was not provided"
run 'an unknown command' 2 '' "error: unrecognized subcommand 'run'" run
run 'a command in capitals' 2 '' "error: unrecognized subcommand 'REPLAY'" REPLAY
run 'a command cut short' 2 '' "error: unrecognized subcommand 'repla'" repla
run 'an empty word' 2 '' "error: unrecognized subcommand ''" ''
run 'help, which is no command' 2 '' "error: unrecognized subcommand 'help'" help
run 'help of a command' 2 '' "error: unrecognized subcommand 'help'" help replay
run 'an unknown option' 2 '' "error: unexpected argument '--tallies' found" --tallies
run 'tallies before the command' 2 '' "error: unexpected argument '--tally' found" --tally replay
run 'an unknown letter' 2 '' "error: unexpected argument '-x' found" -x
run 'an unknown letter before -h' 2 '' "error: unexpected argument '-x' found" -xh
run 'no version' 2 '' "error: unexpected argument '--version' found" --version
run '--help with a value' 2 '' "error: unexpected value '1' for '--help' found" --help=1
run 'a hyphen' 2 '' "error: unrecognized subcommand '-'" -
run 'the end of the options before the command' 2 '' "error: " -- replay
run 'replay with an unknown option' 2 '' "error: unexpected argument '--tallies' found" replay --tallies
run 'a span of 0' 2 '' "error: invalid value '0' for '--span <STEPS>'" replay --span 0
run 'a span of 1001' 2 '' "error: invalid value '1001' for '--span <STEPS>'" replay --span 1001
run 'a span of -1' 2 '' "error: unexpected argument '-1' found" replay --span -1
run 'a span that is no number' 2 '' "error: invalid value 'x' for '--span <STEPS>'" replay --span x
run 'an empty span' 2 '' "error: invalid value '' for '--span <STEPS>'" replay --span=
run 'a span that is left out' 2 '' "error: a value is required for '--span <STEPS>'" replay --span
run 'tallies twice' 2 '' "error: the argument '--tally' cannot be used multiple times" replay --tally --span 5 --tally
run 'tallies with a value' 2 '' "error: unexpected value 'yes' for '--tally' found" replay --tally=yes
run 'two spans' 2 '' "error: the argument '--span <STEPS>' cannot be used multiple times" replay --span 5 --span 5
run 'a bad span before --help' 2 '' "error: invalid value '0' for '--span <STEPS>'" replay --span 0 --help
run 'a span before the command' 2 '' "error: unexpected argument '--span' found" --span 5 replay
run 'replay with a word' 2 '' "error: unexpected argument 'again' found" replay again
run 'replay twice' 2 '' "error: unexpected argument 'replay' found" replay replay
run 'replay, the end of the options, and a word' 2 '' "error: unexpected argument 'again' found" replay -- again
run 'whatif with tallies' 2 '' "error: unexpected argument '--tally' found" whatif --tally
run 'whatif with a span of 0' 2 '' "error: invalid value '0' for '--span <STEPS>'" whatif --span 0
run 'whatif with a word' 2 '' "error: unexpected argument 'again' found" whatif again
run 'whatif, then replay' 2 '' "error: unexpected argument 'replay' found" whatif replay
run 'record with tallies' 2 '' "error: unexpected argument '--tally' found" record --tally
run 'record with a span' 2 '' "error: unexpected argument '--span' found" record --span 5
run 'record with a word' 2 '' "error: unexpected argument 'again' found" record again
run 'record, then replay' 2 '' "error: unexpected argument 'replay' found" record replay
run 'replay, then record' 2 '' "error: unexpected argument 'record' found" replay record
run 'a word that is not UTF-8' 2 '' 'error: invalid UTF-8 was detected in one or more arguments' $'\377'
run 'replay and a word that is not UTF-8' 2 '' 'error: invalid UTF-8 was detected in one or more arguments' replay $'re\300'

# The command line is read before the input: what is left of that is the whole session.
for words in '' --help 'replay again' 'whatif again' 'record again'; do
    # shellcheck disable=SC2086
    { "$program" $words >/dev/null 2>&1; cat >"$folder/out"; } <examples/first-run.json
    status=0
    : >"$folder/err"
    compare "nothing is read with the words '$words'" 0 "$(cat examples/first-run.json)
" ''
done

# ---- devices that fail

: >"$folder/out"
"$program" replay </ >"$folder/out" 2>"$folder/err"
status=$?
compare 'a folder as input' 3 '' $'fault read\n'
: >"$folder/out"
"$program" record </ >"$folder/out" 2>"$folder/err"
status=$?
compare 'record of a folder' 3 '' $'fault read\n'
"$program" whatif </ >"$folder/out" 2>"$folder/err"
status=$?
compare 'whatif of a folder' 3 '' $'fault read\n'
"$program" replay <&- >"$folder/out" 2>"$folder/err"
status=$?
compare 'closed input' 3 '' $'fault read\n'

: >"$folder/out"
"$program" replay <"$folder/in" >/dev/full 2>"$folder/err"
status=$?
compare 'a full device as output' 3 '' $'fault write\n'
printf '%s' "$rig" | "$program" record >/dev/full 2>"$folder/err"
status=$?
compare 'record to a full device' 3 '' $'fault write\n'
"$program" whatif <examples/another-call.json >/dev/full 2>"$folder/err"
status=$?
compare 'whatif to a full device' 3 '' $'fault write\n'
"$program" --help >/dev/full 2>"$folder/err"
status=$?
compare '--help to a full device' 3 '' $'fault write\n'
"$program" replay <"$folder/in" >&- 2>"$folder/err"
status=$?
compare 'closed output' 3 '' $'fault write\n'

# A pipe whose reading end is closed before the program starts.
mkfifo "$folder/pipe"
exec 3<>"$folder/pipe" 4>"$folder/pipe" 3<&-
"$program" replay <"$folder/in" >&4 2>"$folder/err"
status=$?
exec 4>&-
compare 'a closed pipe as output' 141 '' ''
exec 3<>"$folder/pipe" 4>"$folder/pipe" 3<&-
printf '%s' "$rig" | "$program" record >&4 2>"$folder/err"
status=$?
exec 4>&-
compare 'record to a closed pipe' 141 '' ''
exec 3<>"$folder/pipe" 4>"$folder/pipe" 3<&-
"$program" whatif <examples/another-call.json >&4 2>"$folder/err"
status=$?
exec 4>&-
compare 'whatif to a closed pipe' 141 '' ''
exec 3<>"$folder/pipe" 4>"$folder/pipe" 3<&-
"$program" --help >&4 2>"$folder/err"
status=$?
exec 4>&-
compare '--help to a closed pipe' 141 '' ''

"$program" replay again 2>/dev/full >"$folder/out"
status=$?
: >"$folder/err"
compare 'a bad command line, with a full device for standard error' 2 '' ''

# ---- what a user does to a run

# A session whose output is longer than what a pipe holds.
ticks="$(printf '%020000d' 0 | sed 's/0/{"do":"tick"},/g')"
session '"steps": [' "\"steps\": [$ticks"
"$program" replay <"$folder/in" >"$folder/whole" 2>"$folder/err"

# Asks of a run that was cut off that its status is not 0, and that it wrote some first bytes of the whole output, not all of it.
cut_off() { # NAME STATUS
    local size
    size="$(stat -c %s "$folder/out")"
    if [ "$status" = "$2" ] && [ "$status" != 0 ] && [ "$size" -lt "$(stat -c %s "$folder/whole")" ] &&
        cmp -s -n "$size" "$folder/out" "$folder/whole"; then
        good=$((good + 1))
        printf 'ok    %d  %s: %d bytes\n' "$2" "$1" "$size"
    else
        bad=$((bad + 1))
        printf 'WRONG %s (wanted %d)  %s: %d bytes\n' "$status" "$2" "$1" "$size"
    fi
}

for bytes in 0 1 4096 65536 100000 200000; do
    { "$program" replay <"$folder/in" 2>"$folder/err"; echo $? >"$folder/status"; } | head -c "$bytes" >"$folder/out"
    status="$(cat "$folder/status")"
    cut_off "a pipe that is closed after $bytes bytes" 141
    : >"$folder/out"
    compare 'and nothing is told of that' 141 '' ''
done

half() { # SECONDS: the beginning of the input, and after so long the rest
    head -c 1000 "$folder/in"
    sleep "$1"
    tail -c +1001 "$folder/in"
}

# The names of signals with the statuses that a shell gives them.
for signal in HUP:129 INT:130 KILL:137 TERM:143; do
    for command in replay record; do
        timeout --preserve-status -s "${signal%:*}" 0.1 "$program" "$command" < <(half 0.4 2>/dev/null) >"$folder/out" 2>"$folder/err"
        status=$?
        cut_off "$command, stopped in mid-read by ${signal%:*}" "${signal#*:}"
    done
    {
        timeout --preserve-status -s "${signal%:*}" 0.2 "$program" replay <"$folder/in" 2>"$folder/err"
        echo $? >"$folder/status"
    } | { sleep 0.4; cat; } >"$folder/out"
    status="$(cat "$folder/status")"
    cut_off "replay, stopped in mid-write by ${signal%:*}" "${signal#*:}"
done 2>/dev/null
timeout 0.1 "$program" replay < <(half 0.4 2>/dev/null) >"$folder/out" 2>"$folder/err"
status=$?
cut_off 'an input that does not come in time' 124

"$program" replay < <(half 0.2) >"$folder/out" 2>"$folder/err" &
halted=$!
sleep 0.1
kill -STOP "$halted"
sleep 0.2
kill -CONT "$halted"
wait "$halted"
status=$?
compare 'a run that is halted in mid-read and goes on' 0 "$(cat "$folder/whole")
" ''

{
    (
        ulimit -f 100
        exec "$program" replay <"$folder/in" >"$folder/out" 2>"$folder/err"
    )
    status=$?
} 2>/dev/null
cut_off 'a file that may not grow' 153

# With little memory, either the whole output and status 0, or no output and another status.
little() { # NAME WORD..: with each of these amounts of memory
    local name="$1" memory wholes=0 none=0 wrong=0
    shift
    for ((memory = 1000000; memory < 32000000; memory += 500000)); do
        prlimit --as="$memory" "$program" "$@" <"$folder/in" >"$folder/out" 2>/dev/null
        status=$?
        if [ "$status" = 0 ] && cmp -s "$folder/out" "$folder/whole"; then
            wholes=$((wholes + 1))
        elif [ "$status" != 0 ] && ! [ -s "$folder/out" ]; then
            none=$((none + 1))
        else
            wrong=$((wrong + 1))
        fi
    done
    if [ "$wrong" = 0 ] && [ "$wholes" -gt 0 ] && [ "$none" -gt 0 ]; then
        good=$((good + 1))
        printf 'ok    %s: %d times the whole output, %d times none\n' "$name" "$wholes" "$none"
    else
        bad=$((bad + 1))
        printf 'WRONG %s: %d times the whole output, %d times none, %d times neither\n' "$name" "$wholes" "$none" "$wrong"
    fi
}
little 'replay with little memory' replay
printf '%s' "$rig" >"$folder/in"
"$program" record <"$folder/in" >"$folder/whole"
little 'record with little memory' record

# ---- want of memory

{
    printf '['
    head -c 40000000 /dev/zero | tr '\0' ' '
    printf ']'
} >"$folder/in"
run 'a long input, with memory' 1 $'refused H2 top\n' 'top: expected an object, found an array (line 1, column 1)' replay
(
    ulimit -v 40000
    exec "$program" replay <"$folder/in" >"$folder/out" 2>"$folder/err"
)
status=$?
compare 'a long input, with 40 MB of memory' 3 '' $'fault memory\n'

# Words of a megabyte, with the least memory in which the program starts at all (what does not start it is 127 or more).
words=()
long="$(head -c 100000 /dev/zero | tr '\0' a)"
for _ in {1..11}; do words+=("$long"); done
for ((memory = 2000000; memory < 20000000; memory += 100000)); do
    prlimit --as="$memory" "$program" "${words[@]}" <"$folder/in" >"$folder/out" 2>"$folder/err"
    status=$?
    [ "$status" -ge 126 ] || break
done
compare 'long words, with little memory' 3 '' $'fault memory\n'
run 'long words, with memory' 2 '' "error: unrecognized subcommand 'aaa" "${words[@]}"

# ==== the program that shows a run

program="$PWD/crates/smp_view/out/smp_view"
first=examples/first-run.json
traced="$(cat examples/first-run.trace)
"

# The output is to be the file WANTED.
run_to() { # NAME WANTED WORD..
    local name="$1" wanted
    wanted="$(cat "$2" && echo .)"
    shift 2
    run "$name" 0 "${wanted%.}" '' "$@"
}

# ---- views

session '"core": 0' '"core": 7, "core": 0'
run 'a trace of a session with a member twice' 0 "$traced" "$core_twice" trace
printf '{"format": 1, "format": 1}' >"$folder/in"
run 'a trace of a refused session with a member twice' 1 '' "${format_twice}refused H2 cores
$no_cores" trace
printf '{"format": 1, "format": 1' >"$folder/in"
run 'the same, cut off' 1 '' $'refused H1\nnot JSON: line 1, column 25\n' trace
session '' ''
run 'a trace' 0 "$traced" '' trace
run 'a trace of two places' 0 'place 2, tick 0; core 0 C; core 1 B
step 2: tick
  done: the step was made
  tick 0 to 1
place 3, tick 1; core 0 C; core 1 B
' '' trace --from 2 --to 3
run 'a trace of the last place, with a sign and zeros' 0 'place 5, tick 1; core 0 C; core 1 B
' '' trace --to +0005 --from 5
run 'a trace after the last place' 0 '' '' trace --from 6
run 'a trace from a place after its last one' 0 '' '' trace --from 3 --to 2
run 'a trace of the greatest place' 0 "$traced" '' trace --to 4294967295
run 'a trace of a task' 0 'place 1, tick 0; core 0 A, due by pend; core 1 B
step 1: switch core 0
  done: the step was made
  core 0 current A to C
  core 0 pend cleared
place 3, tick 1; core 0 C; core 1 B
step 3: yield core 0 by C
  done: the step was made
  core 0 pend set
place 5, tick 1; core 0 C; core 1 B
' '' trace --task C
run 'a trace of places behind equals signs' 0 'place 5, tick 1; core 0 C; core 1 B
' '' trace --from=5 --to=7
run 'a trace of a core of which no step is' 0 'place 5, tick 1; core 0 C; core 1 B
' '' trace --core 1
run 'a trace of all tasks and cores' 0 'place 0, tick 0; core 0 A; core 1 B
step 0: delay core 0 by A ticks 2
  blocked: the call was made, and its task waits
  core 0 pend set
  A blocked until tick 2
  A call begun
place 1, tick 0; core 0 A, due by pend; core 1 B
' '' trace --task B --core 1 --task A --core 0 --to 1
run 'a session' 0 '{"cores":2,"format":1,"mutexes":0,"priorities":5,"slicing":false,"steps":[{"by":"A","core":0,"do":"delay","ticks":2},{"core":0,"do":"switch"},{"do":"tick"},{"by":"C","core":0,"do":"yield"},{"core":0,"do":"switch"}],"tasks":[{"mask":3,"name":"A","priority":2},{"mask":3,"name":"B","priority":1},{"mask":3,"name":"C","priority":1}],"tick":0}
' '' session
"$program" session <"$folder/in" >"$folder/kept"
run_to 'a session in a file, which is written as it was' "$folder/kept" session "$folder/kept"
run 'a comparison without edits' 0 '  0 0 delay core 0 by A ticks 2: blocked; A B
  1 1 switch core 0: done; C B
  2 2 tick: done; C B
  3 3 yield core 0 by C: done; C B
  4 4 switch core 0: done; C B
no step differs
' '' compare
awk '/^```$/ { inside = !inside; next } inside' docs/VIEW.md >"$folder/compared"
cp examples/compare/shared-mutex.json "$folder/in"
run_to 'the comparison of VIEW.md' "$folder/compared" compare
cp examples/questions/shared-mutex.json "$folder/in"
run_to 'a picture' docs/pictures/shared-mutex.svg timeline
cp examples/priority-inversion-ended.json "$folder/in"
run_to 'a picture before edits and after them' docs/pictures/priority-inversion-ended.svg timeline
cp examples/held-kernel.json "$folder/in"
run_to 'a picture of settled runs' docs/pictures/shorter-timeout.svg timeline --settle examples/settled/shorter-timeout.json
run_to 'a picture with a hold' docs/pictures/held-kernel.svg timeline --to 4294967295 --from 0
"$program" settle <"$folder/in" >"$folder/settled" 2>"$folder/err"
status=$?
: >"$folder/out"
compare 'the calls that were not made' 0 '' $'not made: log 1\n'
"$program" trace <"$folder/settled" >"$folder/settled-trace"
cp "$folder/settled" "$folder/in"
run_to 'a settled run, which is settled' "$folder/settled" settle
run_to 'the trace of a settled run' "$folder/settled-trace" trace --settle

# ---- refused edits and steps

cp examples/another-call.json "$folder/in"
run 'an edit that is refused' 0 'place 5, tick 1; core 0 A; core 1 B
' "$no_place" trace --from 5
run 'an edit that is refused, which counts' 1 'place 5, tick 1; core 0 A; core 1 B
' "$no_place" trace --from 5 --strict
jq -c '.edits |= .[1:]' examples/another-call.json >"$folder/in"
run 'a comparison after an edit that is refused' 0 '  0 0 delay core 0 by A ticks 2: blocked; A B
  1 1 switch core 0: done; C B
  2 2 tick: done; C B
  3 3 yield core 0 by C: done; C B
  4 4 switch core 0: done; C B
no step differs; refused and not made: edit 0
' $'edit 0 refused J1: the session has 5 steps\n' compare
jq -c '.edits |= .[:1]' examples/another-call.json >"$folder/in"
run 'steps that are refused' 0 'place 5, tick 1; core 0 A; core 1 B
' '' trace --from 5
run 'steps that are refused, which count' 1 'place 5, tick 1; core 0 A; core 1 B
' '' trace --from 5 --strict
run 'a settled run in which none is refused' 0 '' '' check --strict --settle --at-least A.run=0
session '' ''
run 'nothing that is refused' 0 '' '' check --strict --at-least A.run=0
session '"steps": [' '"steps": [{"do": "hold_close", "core": 0, "by": "A"},'
run 'a settled run in which a step is refused' 1 '' '' check --strict --settle --at-least A.run=0

# ---- files

: >"$folder/in"
run 'a trace of a file' 0 "$traced" '' trace "$first"
run 'a trace of places of a file' 0 'place 5, tick 1; core 0 C; core 1 B
' '' trace --from 5 "$first"
run 'a file before an option' 0 'place 5, tick 1; core 0 C; core 1 B
' '' trace "$first" --from 5
run 'a file behind the end of the options' 0 "$traced" '' trace -- "$first"
run_to 'the comparison of a file' "$folder/compared" compare examples/compare/shared-mutex.json
run_to 'a picture of a file' docs/pictures/held-kernel.svg timeline examples/held-kernel.json
run 'a report of a file' 0 '     value number
         1 A.blocked.delay
         1 A.blocked.delay.longest from place 2
         2 A.top_priority
         1 A.unfinished
         1 A.calls.delay
         1 A.calls.delay.total
         1 A.calls.delay.longest from place 2
         1 A.jobs
         1 B.run
         1 B.run.longest from place 2
         1 B.run.1
         1 B.run.1.longest from place 2
         1 B.top_priority
         1 B.jobs
         1 B.response.total
         1 B.response.longest from place 0
         1 C.run
         1 C.run.longest from place 2
         1 C.run.0
         1 C.run.0.longest from place 2
         1 C.switches
         1 C.top_priority
         1 C.jobs
         1 C.response.total
         1 C.response.longest from place 0
         1 core.0.user
         1 core.0.user.longest from place 2
         1 core.0.switches
         1 core.1.user
         1 core.1.user.longest from place 2
         1 run.time
         5 run.steps

    core 0     core 1        all load
      0.0%       0.0%       0.0% A
      0.0%     100.0%     100.0% B
    100.0%       0.0%     100.0% C
      0.0%       0.0%       0.0% idle
' '' report "$first"
run 'limits that are kept' 0 '' '' check --at-most A.run=0 --at-least=C.run=1 "$first"
run 'limits that are not kept' 1 'A.blocked.delay is 1, at most 0; the longest stretch begins at place 2
core.0.due is 0, at least 1
C.run.longest is 1, at least 2; the longest stretch begins at place 2
' '' check --at-least core.0.due=1 --at-most A.blocked.delay=0 --at-most C.switches=1 --at-least C.run.longest=2 "$first"
run 'limits of a settled run after edits' 1 'control.timeouts is 1, at most 0
control.run is 1, at least 2; the longest stretch begins at place 26
' '' check --settle --at-least control.run=2 --at-most control.timeouts=0 --at-most control.blocked.mutex=1 examples/settled/shorter-timeout.json
jq .session examples/what-if/ends-an-inversion.json >"$folder/in"
run 'advice' 0 'control.ready is 3; 20 changes tried
1. priority of logger 4, was 1: 0 (-3)
   control.run 3 (+3)
   control.ready.inverted 0 (-3)
   network.run 0 (-3)
   network.ready 3 (+3)
   network.not_made 1 (+1)
2. mask of logger 1, was 3: 0 (-3)
   control.ready.inverted 0 (-3)
   logger.run 0 (-3)
   logger.ready 3 (+3)
   logger.not_made 2 (+2)
' '' advise --settle --task control --less ready --best 2
run 'advice on masks alone' 0 'control.ready.inverted is 3; 6 changes tried
1. mask of logger 1, was 3: 0 (-3)
   control.ready 0 (-3)
   logger.run 0 (-3)
   logger.ready 3 (+3)
   logger.not_made 2 (+2)
' '' advise --settle --task=control --less=ready.inverted --over=mask --best=1
run 'advice on a task that the session has not' 2 '' $'no number is called nobody.run; these are:\ncontrol.run\n' advise --task nobody --less run
run 'a number that has no such name' 2 '' $'no number is called D.run; these are:\nA.run\n' check --at-most D.run=0 --at-most A.run=0 "$first"
run 'a file whose document is refused' 1 '' $'refused H2 edits\nedits: ' trace examples/rigs/interrupt-driven-driver.json
run 'a file that is not there' 3 '' "fault open $folder/none
" trace "$folder/none"
run 'a file without a name' 3 '' $'fault open \n' session ''
run 'a file in a folder that is none' 3 '' "fault open $first/run.json
" compare "$first/run.json"
run 'a file with a long name' 3 '' 'fault open aaa' timeline "$(head -c 5000 /dev/zero | tr '\0' a)"
run 'a folder in place of a file' 3 '' $'fault read\n' trace examples
cp "$first" "$folder/-run.json"
(
    cd "$folder" || exit 126
    exec "$program" trace ./-run.json <in >out 2>err
)
status=$?
compare 'a file whose name begins with a hyphen, by its path' 0 "$traced" ''
(
    cd "$folder" || exit 126
    exec "$program" trace -- -run.json <in >out 2>err
)
status=$?
compare 'a file whose name begins with a hyphen, behind the end of the options' 0 "$traced" ''
cp "$first" "$folder/in"
run 'a hyphen in place of a file' 0 "$traced" '' trace -
run 'a hyphen, then an option' 0 'place 5, tick 1; core 0 C; core 1 B
' '' trace - --from 5
run_to 'a settled trace, --settle behind a file' "$folder/settled-trace" trace --from 0 "$folder/settled" --settle
: >"$folder/in"
if [ "$(id -u)" != 0 ]; then
    cp "$first" "$folder/closed.json"
    chmod 0 "$folder/closed.json"
    run 'a file that may not be read' 3 '' "fault open $folder/closed.json
" trace "$folder/closed.json"
fi
{ "$program" trace "$first" >/dev/null 2>&1; cat >"$folder/out"; } <examples/another-call.json
status=$?
: >"$folder/err"
compare 'nothing is read of standard input where a file is named' 0 "$(cat examples/another-call.json)
" ''
"$program" trace "$first" <&- >"$folder/out" 2>"$folder/err"
status=$?
compare 'a file, with closed input' 0 "$traced" ''
"$program" trace "$first" >&- 2>"$folder/err"
status=$?
: >"$folder/out"
compare 'a file, with closed output' 3 '' $'fault write\n'
"$program" trace "$folder/none" 2>/dev/full >"$folder/out"
status=$?
: >"$folder/err"
compare 'a file that is not there, with a full device for standard error' 3 '' ''

# ---- progress

# A tick of so many tasks of one priority, of which T0 and T1 run.
crowd() { # TASKS
    local task tasks=''
    for ((task = 0; task < $1; task++)); do
        tasks+="${tasks:+,}{\"name\":\"T$task\",\"priority\":1,\"mask\":3}"
    done
    printf '{"format":1,"cores":2,"priorities":5,"slicing":false,"tick":0,"mutexes":0,"tasks":[%s],"steps":[{"do":"tick"}]}\n' \
        "$tasks" >"$folder/in"
}

# Advice on the four other priorities of each task, with a terminal for standard error. It is told how much of all is done, each part
# once, and then stands what is printed. A terminal ends a line by two characters.
on_terminal() { # NAME TASKS TOLD OUT
    crowd "$2"
    script -qec "'$program' advise --task T0 --less run --over priority --best 0 <'$folder/in' >'$folder/printed'" /dev/null \
        </dev/null >"$folder/out" 2>"$folder/err"
    status=$?
    cat "$folder/printed" >>"$folder/out"
    compare "$1" 0 "$3$4" ''
}
on_terminal 'progress of 4 changes' 1 $'\r4 of 4 tried\r\n' $'T0.run is 1; 4 changes tried\n'
on_terminal 'progress of 64 changes' 16 $'\r64 of 64 tried\r\n' $'T0.run is 1; 64 changes tried\n'
on_terminal 'progress of 80 changes' 20 $'\r64 of 80 tried\r80 of 80 tried\r\n' $'T0.run is 1; 80 changes tried\n'
told=''
for done in 64 128 192 256 320 384 448 504; do told+=$'\r'"$done of 504 tried"; done
on_terminal 'progress of 504 changes' 126 "$told"$'\r\n' $'T0.run is 1; 504 changes tried\n'
run 'no progress in a file' 0 $'T0.run is 1; 504 changes tried\n' '' advise --task T0 --less run --over priority --best 0

# A report on so many ticks of one task, with a terminal for standard error, which is told the parts of a long command alone.
parts_on_terminal() { # NAME TICKS TOLD
    {
        printf '{"format":1,"cores":2,"priorities":5,"slicing":false,"tick":0,"mutexes":0,'
        printf '"tasks":[{"name":"T0","priority":1,"mask":1}],"steps":['
        yes '{"do":"tick"}' | head -n "$2" | paste -sd,
        printf ']}\n'
    } >"$folder/in"
    script -qec "'$program' report --settle <'$folder/in' >'$folder/printed'" /dev/null \
        </dev/null >"$folder/out" 2>"$folder/err"
    status=$?
    compare "$1" 0 "$3" ''
}
parts_on_terminal 'no parts of a short report' 99999 ''
parts_on_terminal 'the parts of a long report' 100000 $'part 1 of 2: settling\r\npart 2 of 2: measuring\r\n'

# ---- refused input

: >"$folder/in"
run 'no document' 1 '' $'refused H1\nnot JSON: line ' trace
printf '{' >"$folder/in"
run 'a text that is not JSON' 1 '' $'refused H1\nnot JSON: line 1, column ' session
printf '{}' >"$folder/in"
run 'a missing member' 1 '' $'refused H2 format\nformat: ' compare
head -c 268435457 /dev/zero | tr '\0' ' ' >"$folder/in"
run 'an input one byte longer than the longest' 1 '' $'refused H3\nthe input has more than 268435456 bytes\n' timeline
session '"cores": 2' '"cores": 1'
run 'a header that is outside its limits' 1 '' $'refused F1\nheader: cores is 1, and may be 2 to 32 (line 3, column 12)\n' trace
session '"core": 0' '"core": 2'
run 'no such core' 1 '' $'refused F2 steps[0]\nsteps[0]: ' session
sed 's/"by": "A"}}/"by": "D"}}/' examples/another-call.json >"$folder/in"
run 'no such task in an edit' 1 '' $'refused F3 edits[0]\nedits[0]: ' compare
ticks="$(printf '%01000001d' 0 | sed 's/0/{"do":"tick"},/g')"
session '"steps": [' "\"steps\": [$ticks"
run 'more steps than a session may have' 1 '' $'refused J2\nthe session has more than 1000000 steps\n' timeline
sed -i '14s/"core": 0/"core": 7, "core": 0/' "$folder/in"
run 'the same, with a member twice' 1 '' "${core_twice}refused J2
the session has more than 1000000 steps
" timeline
session '' ''
run 'a task that the session has not' 1 '' $'refused task D\n' trace --task A --task D --task E
run 'an idle task' 1 '' $'refused task IDLE0\n' trace --task IDLE0
run 'a task without a name' 1 '' $'refused task \n' trace --task ''
run 'a core that the session has not' 1 '' $'refused core 2\n' trace --core 1 --core 2 --core 3
run 'a task before a core' 1 '' $'refused task D\n' trace --core 2 --task D
ticks="$(printf '%03995d' 0 | sed 's/0/{"do":"tick"},/g')"
session '"steps": [' "\"steps\": [$ticks"
range=': name fewer by --from and --to'
run 'a picture of a place too many' 1 '' "refused range of 4001 places, and a picture shows at most 4000$range
" timeline
for words in '--from 1' '--to 3999'; do
    # shellcheck disable=SC2086
    "$program" timeline $words <"$folder/in" >"$folder/picture" 2>"$folder/err"
    status=$?
    tail -n 1 "$folder/picture" >"$folder/out"
    compare "a picture of 4,000 places, $words" 0 '</svg>
' ''
done
"$program" timeline --axis tick --to 3999 <"$folder/in" >"$folder/picture" 2>"$folder/err"
status=$?
grep -c "^<path class='g'" "$folder/picture" >"$folder/out"
compare 'a rule for each tick' 0 $'3997\n' ''
run 'a page of a place too many' 1 '' "refused range of 4001 places, and a picture shows at most 4000$range
" page
"$program" page --to 3999 <"$folder/in" >"$folder/page" 2>"$folder/err"
status=$?
grep -c "^<li id='place-" "$folder/page" >"$folder/out"
compare 'a page of 4,000 places' 0 $'4000\n' ''

# ---- help

session '' ''
view_help='Shows what a run of a scheduling session does, and why

Usage: smp_view <COMMAND>

Commands:
  trace     Prints each place of a run, and each step with all that it changed
  session   Prints the session with its edits made, as a document
  settle    Prints the settled run of the session with its edits made, as a document
  compare   Shows the runs before and after the edits, and what each task gained and lost
  timeline  Draws the runs before and after the edits, as an SVG picture
  report    Prints the numbers of the run, or of the runs before and after the edits
  check     Says whether numbers of the run after the edits keep limits
  advise    Tries changes of the tasks, and prints those that make a number lowest
  page      Writes one HTML file of the runs: picture, trace, comparison and report
  simulate  Prints the run of a workload, as the document of a session

Options:
  -h, --help     Print help
  -V, --version  Print version

Documents, each a JSON text, in FILE or on standard input:
  session         the cores, priorities and tasks, and the steps of a run
  bench document  a session, and edits of it: they are made one after another, and those that are
                  refused are passed over
  workload        what each task does, and the interrupts that come; edits of it may stand beside
                  it: its run is shown, or those before and after the edits

Exit status:
  0  it was shown
  1  the document or a run made of it is refused, or has no such task or core, or its picture has
     more than 4000 places, or a limit is not kept; with --strict also where an edit is refused,
     or a step of the run after the edits
  2  a bad command line, or a number that has no such name
  3  memory was refused, a read or a write failed, or the file can'\''t be opened

Standard error says why nothing is shown, and which edits are refused.

Example: smp_view trace --from 2 --to 3 examples/first-run.json
'
trace_help='Prints each place of a run, and each step with all that it changed

Usage: smp_view trace [OPTIONS] [FILE]

Arguments:
  [FILE]  The file of the document; standard input if it is - or left out

Options:
      --settle        Shows settled runs: what a target makes of the calls, ticks and interrupts
      --keep-work     Shows runs that keep work: a call comes when its task worked as long as before
      --ties <WHICH>  Which of several calls at one time is first: oldest, also if left out, or core
      --from <PLACE>  The first place that is shown, or 0 if left out
      --to <PLACE>    The last place that is shown, or the last of the run if left out
      --task <NAME>   Shows the steps that concern this task; may stand several times
      --core <CORE>   Shows the steps that concern this core; may stand several times
      --strict        Ends with status 1 where an edit or a step of the run is refused
  -h, --help          Print help

Without a task or a core that is named, each step is shown.
A name that begins with a hyphen stands behind an equals sign: --task=-x

Example: smp_view trace --from 2 --to 3 examples/first-run.json
'
session_help='Prints the session with its edits made, as a document

Usage: smp_view session [OPTIONS] [FILE]

Arguments:
  [FILE]  The file of the document; standard input if it is - or left out

Options:
      --strict  Ends with status 1 where an edit or a step of the run is refused
  -h, --help    Print help

The edits are made one after another, and those that are refused are passed over.

Example: smp_view session examples/another-call.json
'
settle_help='Prints the settled run of the session with its edits made, as a document

Usage: smp_view settle [OPTIONS] [FILE]

Arguments:
  [FILE]  The file of the document; standard input if it is - or left out

Options:
      --keep-work     Shows runs that keep work: a call comes when its task worked as long as before
      --ties <WHICH>  Which of several calls at one time is first: oldest, also if left out, or core
      --strict        Ends with status 1 where an edit or a step of the run is refused
  -h, --help          Print help

A settled run is what a target makes of the calls, ticks and interrupts of a session: each switch
and each return from a call is made by itself. Standard error says how many calls of which tasks
were not made. With --keep-work the run that keeps work is printed in its place.

Example: smp_view settle examples/held-kernel.json
'
compare_help='Shows the runs before and after the edits, and what each task gained and lost

Usage: smp_view compare [OPTIONS] [FILE]

Arguments:
  [FILE]  The file of the document; standard input if it is - or left out

Options:
      --settle        Shows settled runs: what a target makes of the calls, ticks and interrupts
      --keep-work     Shows runs that keep work: a call comes when its task worked as long as before
      --ties <WHICH>  Which of several calls at one time is first: oldest, also if left out, or core
      --strict        Ends with status 1 where an edit or a step of the run is refused
  -h, --help          Print help

With --settle or --keep-work it also says which calls were not made.

Example: smp_view compare --settle examples/settled/shorter-timeout.json
'
timeline_help='Draws the runs before and after the edits, as an SVG picture

Usage: smp_view timeline [OPTIONS] [FILE]

Arguments:
  [FILE]  The file of the document; standard input if it is - or left out

Options:
      --settle        Shows settled runs: what a target makes of the calls, ticks and interrupts
      --keep-work     Shows runs that keep work: a call comes when its task worked as long as before
      --ties <WHICH>  Which of several calls at one time is first: oldest, also if left out, or core
      --axis <AXIS>   What a column is of: place, also if left out, tick or time
      --from <PLACE>  The first place that is shown, or 0 if left out
      --to <PLACE>    The last place that is shown, or the last of the run if left out
      --strict        Ends with status 1 where an edit or a step of the run is refused
  -h, --help          Print help

A picture shows at most 4000 places. With --axis tick each tick is ruled, and has as many columns
as the run with more places in it needs, so that two runs stand tick by tick. With --axis time a
place is as wide as the time until the next one, and one column at least.

Example: smp_view timeline examples/questions/shared-mutex.json
'
report_help='Prints the numbers of the run, or of the runs before and after the edits

Usage: smp_view report [OPTIONS] [FILE]

Arguments:
  [FILE]  The file of the document; standard input if it is - or left out

Options:
      --settle        Shows settled runs: what a target makes of the calls, ticks and interrupts
      --keep-work     Shows runs that keep work: a call comes when its task worked as long as before
      --ties <WHICH>  Which of several calls at one time is first: oldest, also if left out, or core
      --json          Prints one JSON object
      --strict        Ends with status 1 where an edit or a step of the run is refused
  -h, --help          Print help

Time in each condition with the longest stretch of it, switches, refusals and the like, of
each task, core and mutex. The table leaves out what is 0; the JSON object has everything.

Example: smp_view report --settle examples/settled/shorter-timeout.json
'
check_help='Says whether numbers of the run after the edits keep limits

Usage: smp_view check [OPTIONS] [FILE]

Arguments:
  [FILE]  The file of the document; standard input if it is - or left out

Options:
      --settle             Shows settled runs: what a target makes of the calls, ticks and interrupts
      --keep-work          Shows runs that keep work: a call comes when its task worked as long as before
      --ties <WHICH>       Which of several calls at one time is first: oldest, also if left out, or core
      --at-most <NAME=N>   The number of this name is to be N or less; may stand several times
      --at-least <NAME=N>  The number of this name is to be N or more; may stand several times
      --strict             Ends with status 1 where an edit or a step of the run is refused
  -h, --help               Print help

The names are those that `report` prints. Each limit that is not kept is printed, a line each. The
exit status is 0 where all are kept, 1 where not, and 2 where a name is none.

Example: smp_view check --settle --at-most control.blocked.mutex=3 examples/settled/shorter-timeout.json
'
advise_help='Tries changes of the tasks, and prints those that make a number lowest

Usage: smp_view advise [OPTIONS] --task <NAME> --less <NUMBER> [FILE]

Arguments:
  [FILE]  The file of the document; standard input if it is - or left out

Options:
      --settle          Shows settled runs: what a target makes of the calls, ticks and interrupts
      --keep-work       Shows runs that keep work: a call comes when its task worked as long as before
      --ties <WHICH>    Which of several calls at one time is first: oldest, also if left out, or core
      --task <NAME>     The task that is to have less of a number
      --less <NUMBER>   The number of the task, as `report` names it: blocked.mutex, ready.longest, ..
      --over <CHANGES>  Which changes are tried, with commas between them, or priority,mask,order if left out
      --best <COUNT>    How many of the best are printed, or 10 if left out
      --strict          Ends with status 1 where an edit or a step of the run is refused
  -h, --help            Print help

It tries each change of one task'\''s priority (priority) and mask (mask: of at most 4 cores all masks, of
more each core alone and all cores; pin: each core alone), and of a session each exchange of two
neighbouring calls of different tasks (order), each alone, and prints the best: the least number
first, of equals the smaller change, with what it costs the other tasks. A workload is simulated
with each change.

Example: smp_view advise --settle --task control --less blocked.mutex --over priority examples/settled/mutex-events.json
'
page_help='Writes one HTML file of the runs: picture, trace, comparison and report

Usage: smp_view page [OPTIONS] [FILE]

Arguments:
  [FILE]  The file of the document; standard input if it is - or left out

Options:
      --settle        Shows settled runs: what a target makes of the calls, ticks and interrupts
      --keep-work     Shows runs that keep work: a call comes when its task worked as long as before
      --ties <WHICH>  Which of several calls at one time is first: oldest, also if left out, or core
      --axis <AXIS>   What a column is of: place, also if left out, tick or time
      --from <PLACE>  The first place that is shown, or 0 if left out
      --to <PLACE>    The last place that is shown, or the last of the run if left out
      --strict        Ends with status 1 where an edit or a step of the run is refused
  -h, --help          Print help

The page has the picture and the trace of the run, with edits the comparison, and the report. It
needs nothing from elsewhere, and shows at most 4000 places. Its picture is that of `timeline`.

Example: smp_view page examples/questions/shared-mutex.json > page.html
'
simulate_help='Prints the run of a workload, as the document of a session

Usage: smp_view simulate [OPTIONS] [FILE]

Arguments:
  [FILE]  The file of the document; standard input if it is - or left out

Options:
      --ticks <TICKS>  How many ticks the workload goes on for, 0 to 1000000, or as it says if left out
      --strict         Ends with status 1 where an edit or a step of the run is refused
  -h, --help           Print help

A workload says what each task does, which interrupts come, and for how many ticks. Its run is
settled. With edits it is the run after them. Every other command shows a workload by its run, too.

Example: smp_view simulate --ticks 100 examples/workloads/two-periods.json
'
run '--help' 0 "$view_help" '' --help
run '-h' 0 "$view_help" '' -h
run '--help, then more words' 0 "$view_help" '' --help trace
run 'trace --help' 0 "$trace_help" '' trace --help
run '--version' 0 $'smp_view 0.1.0\n' '' --version
run '-V, then a command' 0 $'smp_view 0.1.0\n' '' -V trace
run 'trace -h, then more words' 0 "$trace_help" '' trace -h again
run 'a file, then --help' 0 "$trace_help" '' trace "$folder/none" --help
run 'options, then --help' 0 "$trace_help" '' trace --settle --task A --from=3 --help
run 'session --help' 0 "$session_help" '' session --help
run 'settle -h' 0 "$settle_help" '' settle -h
run 'compare --help' 0 "$compare_help" '' compare --help
run 'timeline --help' 0 "$timeline_help" '' timeline --help
run 'report --help' 0 "$report_help" '' report --help
run 'check --help' 0 "$check_help" '' check --help
run 'advise --help' 0 "$advise_help" '' advise --help
run 'page --help' 0 "$page_help" '' page --help
run 'simulate --help' 0 "$simulate_help" '' simulate --help

# ---- bad command lines

bad_line() { # NAME TEXT WORD..: TEXT is how clap's text begins, behind its first word
    local name="$1" text="$2"
    shift 2
    run "$name" 2 '' "error: $text" "$@"
}
bad_line 'no command' "'smp_view' requires a subcommand but one was not provided"
bad_line 'an unknown command' "unrecognized subcommand 'replay'" replay
bad_line 'a misspelt command' "unrecognized subcommand 'tracee'

  tip: a similar subcommand exists: 'trace'
" tracee
bad_line 'a command in capitals' "unrecognized subcommand 'TRACE'" TRACE
bad_line 'help, which is no command' "unrecognized subcommand 'help'" help trace
bad_line 'an empty word' "unrecognized subcommand ''" ''
bad_line 'a file before the command' "unrecognized subcommand '$first'" "$first" trace
bad_line 'an option before the command' "unexpected argument '--from' found" --from 3 trace
bad_line '--help behind what is no command' "unexpected argument '--to' found" --to 3 --help
bad_line '--version of a command' "unexpected argument '--version' found" trace --version
bad_line 'an unknown option' "unexpected argument '--until' found" trace --until 3
bad_line 'a misspelt option' "unexpected argument '--setle' found

  tip: a similar argument exists: '--settle'
" trace --setle
bad_line 'an option without its value' "a value is required for '--from <PLACE>' but none was supplied" trace --from
bad_line 'an option in place of a value' "a value is required for '--from <PLACE>' but none was supplied" trace --from --help
bad_line 'a task without its name' "a value is required for '--task <NAME>' but none was supplied" trace --from 3 --task
bad_line 'a place that is no number' "invalid value 'x' for '--from <PLACE>'" trace --from x
bad_line 'a negative place' "unexpected argument '-1' found" trace --from -1
bad_line 'a negative place behind an equals sign' "invalid value '-1' for '--from <PLACE>'" trace --from=-1
bad_line 'a place that is too great' "invalid value '4294967296' for '--to <PLACE>'" trace --to 4294967296
bad_line 'a core that is no number' "invalid value 'x' for '--core <CORE>'" trace --core 1 --core x
bad_line 'two first places' "the argument '--from <PLACE>' cannot be used multiple times" trace --from 3 --from=3
bad_line 'two files' "unexpected argument '$first' found" trace "$first" "$first"
bad_line 'a file behind a hyphen' "unexpected argument '$first' found" trace - "$first"
bad_line 'a file whose name begins with a hyphen' "unexpected argument '-r' found" trace -run.json
bad_line '--strict twice' "the argument '--strict' cannot be used multiple times" session --strict --strict
bad_line '--settle twice' "the argument '--settle' cannot be used multiple times" trace --settle --settle
bad_line '--settle with a value' "unexpected value 'x' for '--settle' found" trace --settle=x
bad_line 'a session from a place' "unexpected argument '--from' found" session --from 3
bad_line 'a settled run from a place' "unexpected argument '--from' found" settle --from 3
bad_line 'a settled run that is settled' "unexpected argument '--settle' found" settle --settle
two_ways="error: --settle and --keep-work are two ways to make runs: take one

For more information, try '--help'.
"
run 'settled runs that keep work' 2 '' "$two_ways" compare --settle --keep-work
lone_ties="error: --ties is for --keep-work

For more information, try '--help'.
"
run 'ties without runs that keep work' 2 '' "$lone_ties" settle --ties core
no_order="error: --ties takes oldest or core

For more information, try '--help'.
"
run 'an unknown order of calls' 2 '' "$no_order" compare --keep-work --ties cores
bad_line 'ties without a word' "a value is required for '--ties <WHICH>' but none was supplied" compare --keep-work --ties
bad_line '--keep-work twice' "the argument '--keep-work' cannot be used multiple times" trace --keep-work --keep-work
bad_line 'a session that keeps work' "unexpected argument '--keep-work' found" session --keep-work
bad_line 'a session of two files' "unexpected argument '$first' found" session "$first" "$first"
bad_line 'a comparison of a task' "unexpected argument '--task' found" compare --task A
bad_line 'a comparison with an unknown option' "unexpected argument '-x' found" compare -x
no_axis="error: --axis takes place, tick or time

For more information, try '--help'.
"
run 'a picture along an unknown axis' 2 '' "$no_axis" timeline --axis core
run 'a page along an unknown axis' 2 '' "$no_axis" page --axis ticks
bad_line 'an axis without a word' "a value is required for '--axis <AXIS>' but none was supplied" timeline --axis
bad_line '--axis twice' "the argument '--axis <AXIS>' cannot be used multiple times" timeline --axis tick --axis tick
bad_line 'a picture of a task' "unexpected argument '--task' found" timeline --task A
bad_line 'a picture of a core' "unexpected argument '--core' found" timeline --from 3 --core 0
bad_line 'a page of a task' "unexpected argument '--task' found" page --task A
bad_line 'a report of a task' "unexpected argument '--task' found" report --task A
bad_line 'a check without limits' 'check takes limits, each a name and a whole number' check "$first"
bad_line 'a limit without a number' 'check takes limits, each a name and a whole number' check --at-most A.run
bad_line 'a limit that is no number' 'check takes limits, each a name and a whole number' check --at-least A.run=1 --at-most A.run=x
bad_line 'an option in place of a limit' "a value is required for '--at-most <NAME=N>' but none was supplied" check --at-most --settle
bad_line 'advice without a task and a number' 'the following required arguments were not provided:
  --task <NAME>
  --less <NUMBER>
' advise "$first"
bad_line 'advice on changes of no such name' '--over takes priority, mask, pin and order, with commas between them' advise --task A --less run --over priority,masks
bad_line 'advice on no changes' '--over takes priority, mask, pin and order, with commas between them' advise --task A --less run --over=
bad_line 'advice with a count that is no number' "invalid value 'x' for '--best <COUNT>'" advise --task A --less run --best x
bad_line '--json twice' "the argument '--json' cannot be used multiple times" report --json --json
bad_line 'a settled picture of a task' "unexpected argument '--task' found" timeline --settle --task A
bad_line 'a run of too many ticks' "invalid value '1000001' for '--ticks <TICKS>'" simulate --ticks 1000001
bad_line 'a word that is not UTF-8' 'invalid UTF-8 was detected in one or more arguments' $'\377'
bad_line 'a file whose name is not UTF-8' 'invalid UTF-8 was detected in one or more arguments' trace $'run\300'
for words in '' --help 'trace --from' 'session a b'; do
    # shellcheck disable=SC2086
    { "$program" $words >/dev/null 2>&1; cat >"$folder/out"; } <"$first"
    status=0
    : >"$folder/err"
    compare "nothing is read with the words '$words'" 0 "$(cat "$first")
" ''
done

# ---- devices that fail

for command in trace session settle simulate compare timeline page report 'check --at-least A.run=1' 'advise --task A --less run'; do
    read -ra words <<<"$command"
    document="$first"
    [ "$command" != simulate ] || document=examples/workloads/two-periods.json
    : >"$folder/out"
    "$program" "${words[@]}" </ >"$folder/out" 2>"$folder/err"
    status=$?
    compare "$command of a folder" 3 '' $'fault read\n'
    "$program" "${words[@]}" <&- >"$folder/out" 2>"$folder/err"
    status=$?
    compare "$command with closed input" 3 '' $'fault read\n'
    : >"$folder/out"
    "$program" "${words[@]}" <"$document" >/dev/full 2>"$folder/err"
    status=$?
    compare "$command to a full device" 3 '' $'fault write\n'
    "$program" "${words[@]}" <"$document" >&- 2>"$folder/err"
    status=$?
    compare "$command with closed output" 3 '' $'fault write\n'
done
"$program" --help >/dev/full 2>"$folder/err"
status=$?
compare '--help to a full device' 3 '' $'fault write\n'
"$program" trace --task D <"$first" >/dev/full 2>"$folder/err"
status=$?
compare 'a refusal, with a full device for standard output' 1 '' $'refused task D\n'
exec 3<>"$folder/pipe" 4>"$folder/pipe" 3<&-
"$program" trace <"$first" >&4 2>"$folder/err"
status=$?
exec 4>&-
compare 'a closed pipe as output' 141 '' ''
"$program" trace -x 2>/dev/full >"$folder/out"
status=$?
: >"$folder/err"
compare 'a bad command line, with a full device for standard error' 2 '' ''
"$program" trace "$folder/none" 2>&- >"$folder/out"
status=$?
: >"$folder/err"
compare 'a file that is not there, with closed standard error' 3 '' ''

# ---- what a user does to a run

ticks="$(printf '%02000d' 0 | sed 's/0/{"do":"tick"},/g')"
session '"steps": [' "\"steps\": [$ticks"
"$program" trace <"$folder/in" >"$folder/whole" 2>"$folder/err"
for bytes in 0 1 4096 65536; do
    { "$program" trace <"$folder/in" 2>"$folder/err"; echo $? >"$folder/status"; } | head -c "$bytes" >"$folder/out"
    status="$(cat "$folder/status")"
    cut_off "a trace to a pipe that is closed after $bytes bytes" 141
    : >"$folder/out"
    compare 'and nothing is told of that' 141 '' ''
done
little 'a trace with little memory' trace
"$program" timeline <"$folder/in" >"$folder/whole" 2>"$folder/err"
little 'a picture with little memory' timeline

# ---- what is installed

bash scripts/install.sh "$folder/usr" >/dev/null 2>"$folder/err"
status=$?
(cd "$folder/usr" && find . -type f | sort) >"$folder/out"
compare 'both programs, with man pages and completions, are installed' 0 './bin/smp_bench
./bin/smp_view
./share/bash-completion/completions/smp_bench
./share/bash-completion/completions/smp_view
./share/man/man1/smp_bench.1
./share/man/man1/smp_view.1
./share/zsh/site-functions/_smp_bench
./share/zsh/site-functions/_smp_view
' ''

printf '%d passed, %d failed\n' "$good" "$bad"
[ "$bad" = 0 ]
