#!/usr/bin/env bash
# Tries the edits of a bench document in JOBS parts, each by a run of `smp_bench whatif` of its own, and prints what one run over
# the whole document prints, with its exit status. GNU parallel makes the runs, on this machine or, with its `--sshlogin`, on others;
# words after JOBS are options of it. There the program has to be found by the same path, or by the one that SMP_BENCH names.
# `jq` takes the edits apart. docs/WHATIF.md says why the parts give the same as the whole.
# The status is 4 where the runs did not come to an end, and else the program's.
set -u
export LC_ALL=C

usage() {
    echo "usage: whatif-many.sh [--span N] DOC JOBS [OPTION OF PARALLEL..]" >&2
    exit 2
}

span=()
if [ "${1-}" = --span ] && [ $# -ge 2 ]; then
    span=(--span "$2")
    shift 2
fi
[ $# -ge 2 ] && [[ "$2" =~ ^[1-9][0-9]{0,5}$ ]] || usage
document="$1"
jobs="$2"
shift 2
[ -r "$document" ] && ! [ -d "$document" ] || {
    echo "whatif-many.sh: no document $document" >&2
    exit 2
}
program="${SMP_BENCH:-$(cd "$(dirname -- "${BASH_SOURCE[0]}")/.." && pwd)/crates/smp_bench/out/smp_bench}"

folder="$(mktemp -d)"
trap 'rm -rf -- "$folder"' EXIT

whole() {
    "$program" whatif "${span[@]}" <"$document"
    exit
}

# A longer document is refused for its length, which a part of it does not have.
[ "$(wc -c <"$document")" -le 268435456 ] || whole

# The document on one line. Where jq changed anything but the space in it (a number such as 1e0, a member that is there twice, an
# escape), or found more values than one, a part could be read otherwise than the whole: then the whole is run at once.
close_up() { tr -d ' \t\n\r' <"$1"; }
jq -c . -- "$document" >"$folder/document" 2>/dev/null || whole
[ "$(wc -l <"$folder/document")" = 1 ] && cmp -s <(close_up "$document") <(close_up "$folder/document") || whole

count="$(jq 'if type == "object" and has("session") and (.edits | type) == "array" then .edits | length else 0 end' "$folder/document")"
[ "$count" -gt 0 ] || whole
parts="$((jobs < count ? jobs : count))"

# One part a line, each the document with some of its edits, in their order.
jq -c --argjson parts "$parts" '
    .edits as $edits | ($edits | length) as $count | range($parts) as $part
    | .edits = $edits[$part * $count / $parts | floor : ($part + 1) * $count / $parts | floor]
' "$folder/document" >"$folder/parts"

parallel --will-cite --pipe -N1 --block "$(wc -c <"$folder/document")" --keep-order --halt now,fail=1 -j "$parts" "$@" -q \
    "$program" whatif "${span[@]}" <"$folder/parts" >"$folder/lines" 2>"$folder/messages"
status=$?

# What is refused, or no command line, is told before any edit is tried: so the whole document has its line at once.
case "$status" in
    0) ;;
    1 | 2) whole ;;
    *)
        cat -- "$folder/messages" >&2
        [ "$status" = 3 ] || status=4
        exit "$status"
        ;;
esac

# Each part counted its edits from 0.
if ! awk -v count="$count" '/^edit / { $2 = edits++ } { print } END { exit edits != count }' "$folder/lines" >"$folder/out"; then
    echo "whatif-many.sh: the runs told of fewer edits than $count" >&2
    exit 4
fi
# So standard error did: it has a line for each edit that is refused, in their order.
awk 'FNR == NR { if (/^edit [0-9]+ refused /) places[refused++] = $2; next } /^edit [0-9]+ refused / { $2 = places[told++] } { print }' \
    "$folder/out" "$folder/messages" >&2
cat -- "$folder/out" || exit 3
