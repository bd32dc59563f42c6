#!/usr/bin/env bash
# Refuses memory to each call that takes it: each growth of the call once, by `rt try --fail-alloc N` over the unproved program
# `refused_memory`, which says what came of the call and looks at what it left. It prints a table: the call; how many growths were
# refused elsewhere, before the call or beside it; in how many cases the call said that memory was refused, all was as before, and
# the call made again gave its answer; in how many it gave its answer all the same; and how many came out otherwise. Status 1 where one
# did, or where no growth of a call was refused. It is no part of the gate, and takes ten minutes.
set -u
export LC_ALL=C
cd "$(dirname -- "${BASH_SOURCE[0]}")/../crates/refused_memory" || exit 1

# The command that tries a program, if not `rt`.
rt="${RT:-rt}"
folder="$(mktemp -d)"
trap 'rm -rf -- "$folder"' EXIT
mkdir "$folder/whole" "$folder/refused"

# The calls, by the names that the program prints without input. A call that is new in `Call::ALL` has its row by that.
mapfile -t calls < <(sed -n 's/^ *Call::[A-Za-z]* => "\(.*\)",$/\1/p' src/call.rt)

# With a growth refused that no call comes to, it is said how many there were; of threads only those before they are started.
for index in "${!calls[@]}"; do
    printf '%s 0\n' "${calls[index]}" >"$folder/whole/$index"
done
"$rt" try --cases "$folder/whole" --fail-alloc 1000000 >"$folder/out" 2>&1
most=0
for index in "${!calls[@]}"; do
    growths="$(sed -n "/^== $index\$/,/^case=/s/^allocations: //p" "$folder/out")"
    if [ -z "$growths" ] || ! grep -q "^${calls[index]}: answered\$" "$folder/out"; then
        echo "${calls[index]} gives no answer with ample memory:" >&2
        sed -n "/^== $index\$/,/^case=/p" "$folder/out" >&2
        tail -n 3 "$folder/out" >&2
        exit 1
    fi
    case "$growths" in
        'at least '*) tries[index]=$((${growths#at least } + 100)) ;;
        *) tries[index]="$growths" ;;
    esac
    [ "${tries[index]}" -le "$most" ] || most="${tries[index]}"
done

# Each growth once: before the call so many blocks are taken that it is the one which is refused. `--steps 1` leaves it to the built
# program, and has nothing interpreted beside it.
for index in "${!calls[@]}"; do
    for ((growth = 1; growth <= tries[index]; growth++)); do
        printf '%s %d\n' "${calls[index]}" "$((most - growth))" >"$folder/refused/$index-$growth"
    done
done
"$rt" try --cases "$folder/refused" --fail-alloc "$most" --steps 1 >"$folder/out" 2>&1

# Of each case the index of its call, the growth, and what came of it.
awk '/^== / { split($2, at, "-"); said = "nothing" }
    /: (not made|answered|refused, all as before, then answered)$/ { said = $0; sub(/^[^ ]*: /, "", said) }
    /^case=/ { print at[1], at[2], ($3 == "status=0" ? said : "nothing") }' "$folder/out" >"$folder/cases"
printf '%-16s %9s %8s %9s %6s\n' call elsewhere refused answered wrong
for index in "${!calls[@]}"; do
    awk -v call="${calls[index]}" -v index_="$index" -v tries="${tries[index]}" '
        $1 == index_ { said[$2] = $3; if ($3 == "refused,") last = $2 + 0 > last ? $2 + 0 : last }
        END {
            for (growth = 1; growth <= tries; growth++) {
                if (said[growth] == "not") elsewhere++
                else if (said[growth] == "refused,") refused++
                else if (said[growth] != "answered") wrong++
                else if (growth < last || !last) answered++
            }
            printf "%-16s %9d %8d %9d %6d\n", call, elsewhere, refused, answered, wrong
            exit wrong > 0 || refused + answered == 0
        }' "$folder/cases" || bad=1
done
if [ -n "${bad:-}" ]; then
    awk '/^== / { all = "" } { all = all $0 "\n" } /^case=/ && (all ~ /WRONG/ || $3 != "status=0") { printf "%s", all }' \
        "$folder/out" | head -n 60 >&2
    exit 1
fi
