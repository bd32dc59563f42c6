#!/usr/bin/env bash
# Runs the built program over every document of examples/ and compares its whole output with the file beside it: NAME.out for
# `replay`, NAME.tally, where there is one, for `replay --tally`, and NAME.whatif, NAME.settled, NAME.compare and NAME.run, which may
# stand alone, for `whatif`, for `smp_view settle` and a replay of what it writes, for `smp_view compare --settle`, and for `smp_view
# simulate`. Beside a workload stands its page, NAME.html. A rig document is recorded, and the recording replayed. Then it
# looks at what README.md and docs/ show of these documents and outputs, and at the texts and refusals of docs/FORMATS.md. One line where something differs, then a total;
# status 1 where something does.
# With --write it writes the outputs anew instead; look at what `git diff` shows before you keep them.
set -u
export LC_ALL=C
cd "$(dirname -- "${BASH_SOURCE[0]}")/.." || exit 1

program="$PWD/crates/smp_bench/out/smp_bench"
if ! [ -x "$program" ]; then
    echo "no program at $program: build it first, with (cd crates/smp_bench && rt run -- --help)" >&2
    exit 1
fi
viewer="$PWD/crates/smp_view/out/smp_view"
if ! [ -x "$viewer" ]; then
    echo "no program at $viewer: build it first, with (cd crates/smp_view && rt run -- --help)" >&2
    exit 1
fi
write=no
case "$*" in
    '') ;;
    --write) write=yes ;;
    *)
        echo "usage: check-examples.sh [--write]" >&2
        exit 2
        ;;
esac

folder="$(mktemp -d)"
trap 'rm -rf -- "$folder"' EXIT
good=0
bad=0

wrong() { # TEXT
    bad=$((bad + 1))
    printf 'WRONG %s\n' "$1"
}

# Input that is refused has an output that begins with `refused`, a line on standard error, and status 1; all other outputs go with
# status 0, and with a line there for each edit that is refused.
hold() { # DOCUMENT FILE WORD..
    local document="$1" file="$2" want=0 lines
    shift 2
    "$program" "$@" <"$document" >"$folder/out" 2>"$folder/err"
    status=$?
    ! grep -q '^refused ' "$folder/out" || want=1
    lines="$((want + $(grep -c '^edit [0-9]* refused ' "$folder/out")))"
    if [ "$status" != "$want" ] || [ "$(wc -l <"$folder/err")" != "$lines" ]; then
        wrong "$document: status $status, $(head -c 200 "$folder/err")"
    elif [ "$write" = yes ]; then
        cmp -s "$folder/out" "$file" || printf 'wrote %s\n' "$file"
        cp -- "$folder/out" "$file"
    elif diff -- "$file" "$folder/out" >"$folder/difference" 2>&1; then
        good=$((good + 1))
    else
        wrong "$document"
        head -n 5 "$folder/difference" | sed 's/^/      /'
    fi
}

# What both programs make of a document, which goes with status 0.
hold_view() { # DOCUMENT FILE COMMAND
    local document="$1" file="$2"
    if ! "$3" <"$document" >"$folder/out" 2>"$folder/err"; then
        wrong "$document: $(head -c 200 "$folder/err")"
    elif [ "$write" = yes ]; then
        cmp -s "$folder/out" "$file" || printf 'wrote %s\n' "$file"
        cp -- "$folder/out" "$file"
    elif diff -- "$file" "$folder/out" >"$folder/difference" 2>&1; then
        good=$((good + 1))
    else
        wrong "$document"
        head -n 5 "$folder/difference" | sed 's/^/      /'
    fi
}
settled() {
    "$viewer" settle >"$folder/run" && "$program" replay <"$folder/run"
}
compared() {
    "$viewer" compare --settle
}
simulated() {
    "$viewer" simulate
}
paged() {
    "$viewer" page --axis time --to 60
}

# The kinds of steps or actions, one a line, as they stand.
kinds() {
    grep -o '"do": *"[a-z_]*"' | tr -d ' '
}

# The threads of a rig may meet otherwise each time. Of the rigs in examples/ no action is ever passed over: so the steps of each core
# are its script, none is refused for a hold of another core, and a replay of them ends well.
hold_rig() { # DOCUMENT
    local document="$1" run core
    kinds <"$document" >"$folder/scripts"
    for run in {1..20}; do
        "$program" record <"$document" >"$folder/out" 2>"$folder/err" && ! [ -s "$folder/err" ] &&
            "$program" replay <"$folder/out" >"$folder/replayed" 2>"$folder/err" && ! [ -s "$folder/err" ] &&
            ! grep -q ' refused E1 ' "$folder/replayed" || {
            wrong "$document: run $run, $(head -c 200 "$folder/err")"
            return
        }
        sed 's/},{/}\n{/g' "$folder/out" >"$folder/steps"
        {
            grep -e '"core":0' -e '"do":"tick"' "$folder/steps"
            for core in {1..7}; do grep "\"core\":$core" "$folder/steps"; done
        } | kinds >"$folder/by_core"
        cmp -s "$folder/by_core" "$folder/scripts" || {
            wrong "$document: run $run recorded other steps than its scripts have"
            return
        }
    done
    good=$((good + 1))
}

while IFS= read -r -d '' document; do
    if grep -q '"scripts"' "$document"; then
        hold_rig "$document"
        continue
    fi
    # Workloads are held by check-workloads.py, and here where their run stands beside them.
    alone=no
    [ "${document%/*}" != examples/workloads ] || alone=yes
    for kind in whatif settled compare; do
        ! [ -e "${document%.json}.$kind" ] || alone=yes
    done
    if [ -e "${document%.json}.out" ] || [ "$alone" = no ]; then
        hold "$document" "${document%.json}.out" replay
    fi
    ! [ -e "${document%.json}.settled" ] || hold_view "$document" "${document%.json}.settled" settled
    ! [ -e "${document%.json}.compare" ] || hold_view "$document" "${document%.json}.compare" compared
    ! [ -e "${document%.json}.run" ] || hold_view "$document" "${document%.json}.run" simulated
    if [ "${document%/*}" = examples/workloads ]; then
        hold_view "$document" "${document%.json}.html" paged
    fi
    ! [ -e "${document%.json}.tally" ] || hold "$document" "${document%.json}.tally" replay --tally
    ! [ -e "${document%.json}.whatif" ] || hold "$document" "${document%.json}.whatif" whatif
done < <(find examples -name '*.json' -print0 | sort -z)

while IFS= read -r -d '' file; do
    [ -e "${file%.*}.json" ] || wrong "$file: no such document"
done < <(find examples \( -name '*.out' -o -name '*.tally' -o -name '*.whatif' -o -name '*.settled' -o -name '*.compare' -o -name '*.run' -o -name '*.html' \) -print0 | sort -z)

# A table of a folder names each document in it.
while IFS= read -r -d '' document; do
    table="$(dirname -- "$document")/README.md"
    name="$(basename -- "$document" .json)"
    grep -q "^| \`$name\` |" "$table" || wrong "$table: nothing of $name"
done < <(find examples -mindepth 2 -name '*.json' -print0 | sort -z)

# In README.md and docs/, what is shown belongs to the document that is named last before it. Lines of a block of JSON, and indented
# lines that begin with a brace, are lines of it, but for spaces in front and a comma at the end. Indented lines of output are lines
# of its output, one after the other; two spaces begin a remark, and `..` stands for lines that are left out. Lines with a mark and two
# places, and gains, are lines of its comparison, without remarks. A block with the
# title `as it was` has two columns, the outputs of the two documents that are named last.
mapfile -d '' files < <(find examples \( -name '*.json' -o -name '*.out' -o -name '*.tally' -o -name '*.whatif' -o -name '*.settled' -o -name '*.compare' \) -print0 | sort -z)
awk '
    function bare(line) {
        sub(/^ +/, "", line)
        sub(/,$/, "", line)
        return line
    }
    function cut(line) {
        sub(/  .*/, "", line)
        return line
    }
    function strange(line) {
        printf "WRONG %s:%d: not in %s: %s\n", FILENAME, FNR, in_file, line
        wrong += 1
    }
    # Whether the line is the next one of the file or, where lines may be left out, one of those after it.
    function stands(file, line, any, i) {
        in_file = file
        for (i = place[file] + 1; i <= lines[file]; i++) {
            if (text[file, i] == line) { place[file] = i; return 1 }
            if (!any) return 0
        }
        return 0
    }
    function output(name) {
        return (name ".tally") in lines ? name ".tally" : (name ".out") in lines ? name ".out" : \
            (name ".settled") in lines ? name ".settled" : name ".whatif"
    }
    function look(file, line) {
        held += 1
        if (!stands(file, line, first || gap)) strange(line)
    }
    FNR == 1 { named = before = "" }
    FILENAME ~ /^examples\// {
        lines[FILENAME] += 1
        text[FILENAME, lines[FILENAME]] = FILENAME ~ /json$/ ? bare($0) : $0
        next
    }
    /^```/ {
        inside = $0 == "```json"
        place[named ".json"] = 0
        next
    }
    inside {
        first = 1
        gap = 0
        look(named ".json", bare($0))
        next
    }
    !/^    / {
        rest = $0
        while (match(rest, /examples\/[a-zA-Z0-9_\/-]+\.json/)) {
            before = named
            named = substr(rest, RSTART, RLENGTH - 5)
            rest = substr(rest, RSTART + RLENGTH)
        }
        block = 0
        next
    }
    !block {
        block = 1
        first = 1
        gap = 0
        columns = index($0, "as it was") == 5 ? index($0, "with the edit") : 0
        place[output(named)] = place[output(before)] = place[named ".json"] = place[named ".compare"] = 0
        if (columns) { first_left = 1; next }
    }
    columns {
        first = first_left
        gap = 0
        look(output(before), cut(substr($0, 5, columns - 5)))
        look(output(named), cut(substr($0, columns)))
        first_left = 0
        next
    }
    /^    \{/ {
        first = 1
        look(named ".json", bare($0))
        next
    }
    /^    \.\./ { gap = 1; next }
    (named ".compare") in lines && (/^    [-+| ] ([0-9]+|-) ([0-9]+|-) / || /^    (task [^ ]+ .*[-+][0-9]|not made )/) {
        look(named ".compare", substr($0, 5))
        first = gap = 0
        next
    }
    /^    (start |edit [0-9]+ |[0-9]+ (done|blocked|true|false|value|waited|until|isr|refused) |task [^ ]+ run )/ {
        look(output(named), cut(substr($0, 5)))
        first = gap = 0
    }
    END {
        printf "%d lines of them are shown in README.md and docs/, and %d of these are strange\n", held, wrong
        exit wrong > 0 || held == 0
    }
' "${files[@]}" README.md docs/*.md || bad=$((bad + 1))

# The texts of the tables of docs/FORMATS.md, "Paths". A row is named by its first cell.
held=0
command=replay
row() { # CELL TEXT..: each text gets the refusal of that row
    local cell="$1" want got text
    shift
    want="$(grep -F -- "| $cell | \`refused " docs/FORMATS.md | sed 's/.* | `\(.*\)` |$/\1/')"
    held=$((held + 1))
    for text in "$@"; do
        got="$(printf '%s' "$text" | "$program" "$command" 2>/dev/null)"
        [ "$got" = "$want" ] || wrong "docs/FORMATS.md: $cell: '$got' and not '$want'"
    done
}
with() { sed "$1" examples/first-run.json; } # SCRIPT OF SED: the example with this change
first() { with "s/{\"do\": \"delay\".*}/$1/"; }
second() { with "0,/{\"do\": \"switch\", \"core\": 0}/s//$1/"; }
edits() { printf '{"session": %s, "edits": [%s]}' "$(cat examples/first-run.json)" "$1"; }

row '`[]`' '[]'
row '`{}`' '{}'
row 'the example with `"cores": "2"`, or without `cores`' "$(with 's/"cores": 2/"cores": "2"/')" "$(with '/"cores"/d')"
row 'with `"tasks": {}`' "$(with '/"tasks"/,/\]/c"tasks": {},')"
row 'with `7` as the second task' "$(with 's/{"name": "B".*}/7/')"
row 'with `"mask": null` in the first task' "$(with '/"name": "A"/s/"mask": 3/"mask": null/')"
row 'with a member `core` in the first task' "$(with '/"name": "A"/s/}/, "core": 0}/')"
row 'with `{"do": "sleep"}` or `{}` as the second step' "$(second '{"do": "sleep"}')" "$(second '{}')"
row 'with `{"do": "switch"}` as the second step' "$(second '{"do": "switch"}')"
row 'with `{"do": "tick", "core": 0}` as the third step' "$(with 's/{"do": "tick"}/{"do": "tick", "core": 0}/')"
isr='{"do": "isr_notify", "core": 0, "to": "A", "action":'
row "with \`$isr \"add\", \"value\": 1}\` as the first step" "$(first "$isr \"add\", \"value\": 1}")"
row 'the same with `"action": "set"` and no `value`' "$(first "$isr \"set\"}")"
row 'the same with `"action": "increment"` and a `value`' "$(first "$isr \"increment\", \"value\": 1}")"
until='{"do": "delay_until", "core": 0, "by": "A", "inc": 10, "ticks": 10}'
row "with \`$until\` as the first step" "$(first "$until")"
row 'with a member `note` beside `steps`' "$(with 's/"steps"/"note": 0, &/')"
row 'with `"notes": 2` beside `steps`' "$(with 's/"steps"/"notes": 2, &/')"
row 'with `"format": 2`' "$(with 's/"format": 1/"format": 2/')"
row 'with `"format": 2`, `"notes": 2` and `"units": 1`' "$(with 's/"format": 1/"format": 2, "notes": 2, "units": 1/')"
index='{"do": "isr_notify", "core": 0, "to": "A", "action": "none", "index": "1"}'
row "with \`\"format\": 2\`, \`\"notes\": 2\` and \`$index\` as the first step" \
    "$(with "s/{\"do\": \"delay\".*}/$index/; s/\"format\": 1/\"format\": 2, \"notes\": 2/")"
row '`{"session": {}, "edits": []}`' '{"session": {}, "edits": []}'
row 'the example as `session`, and no `edits`' "$(edits '' | sed 's/, "edits": \[\]//')"
row 'with `{"edit": "remove"}` as the only edit' "$(edits '{"edit": "remove"}')"
row 'with an `insert` whose step is `{"do": "switch"}`' "$(edits '{"edit": "insert", "at": 0, "step": {"do": "switch"}}')"
both='{"edit": "remove", "at": 0, "step": {"do": "tick"}}'
row "with \`$both\`" "$(edits "$both")"
row 'with a member `format` beside `session` and `edits`' "$(edits '' | sed 's/{"session"/{"format": 1, "session"/')"
command=record
rig() { sed "$1" examples/rigs/interrupt-driven-driver.json; } # SCRIPT OF SED: the rig with this change
there() { rig "s/{\"do\": \"isr_notify\".*}/$1/"; }
row 'with `"cores": "2"`' "$(rig 's/"cores": 2/"cores": "2"/')"
row 'with `"steps": [{"do": "tick"}]`' "$(rig 's/"steps": \[\]/"steps": [{"do": "tick"}]/')"
row 'without `limit`' "$(rig '/"limit"/d')"
row 'with a third script, or with `"scripts": [[], 7]`' "$(rig 's/"scripts": \[/&[], /')" "$(rig '/"scripts"/,$c"scripts": [[], 7]}')"
row 'with `{"do": "sleep"}` as the first action of the second script' "$(there '{"do": "sleep"}')"
row 'with `{"do": "switch", "core": 1}` there' "$(there '{"do": "switch", "core": 1}')"
row 'with a member `edits` beside `limit`' "$(rig 's/"limit"/"edits": [], &/')"
row 'with `"limit": 1000001`' "$(rig 's/"limit": 100/"limit": 1000001/')"
row 'with `{"do": "tick"}` as the first action of the second script' "$(there '{"do": "tick"}')"
row 'in format 3, with `{"do": "pass", "units": 1}` there' \
    "$(there '{"do": "pass", "units": 1}' | sed 's/"format": 1/"format": 3, "notes": 1, "queues": []/')"
rows="$(sed -n '/^## Paths/,/^## Order of checks/p' docs/FORMATS.md | grep -c '| `refused ')"
[ "$held" = "$rows" ] || wrong "docs/FORMATS.md: $rows texts with their refusals, of which $held are tried"
printf '%d texts with their refusals are tried of docs/FORMATS.md\n' "$held"

printf '%d passed, %d failed\n' "$good" "$bad"
[ "$bad" = 0 ]
