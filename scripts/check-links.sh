#!/usr/bin/env bash
# Looks whether what the documents name is there: README.md, CONTRIBUTING.md, CHANGELOG.md, docs/*.md, scripts/README.md and each
# README.md below examples/. Of the repository each path has to exist that stands in a link, between backticks or in a block of code;
# and each name of at least four letters that stands between backticks, as `Kernel::step` or `laws_of_steps`, has to be a word of
# crates/, crates.txt, hooks/, scripts/, examples/ or docs/schema/, documents apart, or the name of a file there. So has each clause that
# docs/PROVED.md names beside a function, by check-clauses.sh. It is called without words, from any folder. It prints each that is not
# there, with its document, and then `N names, M missing`. Status 1 where one is missing, 2 of a bad call.
set -u
export LC_ALL=C
cd "$(dirname -- "${BASH_SOURCE[0]}")/.." || exit 2
[ $# = 0 ] || {
    echo 'usage: check-links.sh' >&2
    exit 2
}

# Words of other programs, which the code has not.
others=(
    # FreeRTOS: settings of FreeRTOSConfig.h
    configIDLE_SHOULD_YIELD configRUN_MULTIPLE_PRIORITIES configTICK_TYPE_WIDTH_IN_BITS configUSE_CORE_AFFINITY
    configUSE_COUNTING_SEMAPHORES configUSE_MUTEXES configUSE_PREEMPTION configUSE_TASK_NOTIFICATIONS configUSE_TASK_PREEMPTION_DISABLE
    INCLUDE_vTaskDelay INCLUDE_vTaskPrioritySet INCLUDE_vTaskSuspend INCLUDE_xTaskDelayUntil INCLUDE_xTaskResumeFromISR
    # FreeRTOS: functions, fields and types of task.h, tasks.c, queue.c and list.c
    eTaskGetState prvCreateIdleTasks prvGetDisinheritPriorityAfterTimeout pxDelayedTaskList taskTASK_SCHEDULED_TO_YIELD TickType_t
    ulTaskGenericNotifyValueClear vListInsert vTaskResume vTaskSuspend vTaskSuspendAll xMutexHolder xQueueGenericSendFromISR
    xQueueGiveFromISR xQueueOverwrite xQueuePeek xQueueReset xQueueSemaphoreTake xQueueSendToBack xQueueSendToFront
    xSemaphoreCreateBinary xSemaphoreGiveFromISR xSemaphoreTakeFromISR xShouldDelay xSuspendedTaskList xTaskAbortDelay
    listGET_OWNER_OF_NEXT_ENTRY vListInsertEnd xQueueGenericReceive xTaskCheckForTimeOut
    xTaskGenericNotifyFromISR xTaskGenericNotifyStateClear xTaskNotifyIndexedFromISR xTaskResumeAll xTickCount xTicksToWait
    portGET_CORE_ID
    # zsh; `rt plant`; a tool; a source package of Debian; a word for the title of an issue
    fpath proves valgrind micropython security
)

documents=()
for file in README.md CONTRIBUTING.md CHANGELOG.md scripts/README.md docs/*.md; do
    [ -f "$file" ] && documents+=("$file")
done
while IFS= read -r -d '' file; do documents+=("$file"); done < <(find examples -name README.md -print0 | sort -z)

folder="$(mktemp -d)"
trap 'rm -rf -- "$folder"' EXIT

# Every word of the repository but those of documents, of what is built and of this script.
find crates crates.txt hooks scripts examples docs/schema -name out -prune -o -type f ! -name '*.md' ! -path scripts/check-links.sh -print0 |
    xargs -0 grep -hoaE '[A-Za-z0-9_]+' | sort -u >"$folder/words"
# A folder and a file, without what stands behind its point, have names too.
find crates hooks scripts examples docs/schema -name out -prune -o -print | sed 's|.*/||; s/\..*//' | sort -u >"$folder/stems"
printf '%s\n' "${others[@]}" | sort -u >"$folder/others"
find . -name .git -prune -o -name out -prune -o -type f -print | sed 's|.*/||' | sort -u >"$folder/files"
ls crates >"$folder/crates"

# A line for each path (P) and each name (N) of a document. What stands between backticks may go on in the next line.
awk -v crates="$folder/crates" '
    function put(kind, word) { if (word != "") printf "%s\t%s\t%s\n", kind, document, word }
    function is_path(word, first) {
        if (word ~ /^[\/~$]/ || word ~ /[][*{}$<>|]|\.\.|NAME|PREFIX|(^|\/)out(\/|$)/ || word ~ /:\/\// || word ~ /^\.[a-z]+$/) return 0
        if (word ~ /\.(md|sh|py|rt|antt|edit|svg)$/) return 1
        first = word
        sub(/\/.*/, "", first)
        return word ~ /\// && (first in tops)
    }
    function in_span(span, count, parts, i) {
        count = split(span, parts, / +/)
        for (i = 1; i <= count; i++) {
            sub(/[,;:.]+$/, "", parts[i])
            if (is_path(parts[i])) put("P", parts[i])
        }
        sub(/\(\)$/, "", span)
        if (span !~ /^[A-Za-z][A-Za-z0-9_]*(::[A-Za-z_][A-Za-z0-9_]*)*$/) return
        count = split(span, parts, /::/)
        for (i = 1; i <= count; i++)
            if (length(parts[i]) >= 4 && parts[i] ~ /[a-z]/) put("N", parts[i])
    }
    function in_text(text, rest, path) {
        rest = text
        while (match(rest, /`[^`]*`/)) {
            in_span(substr(rest, RSTART + 1, RLENGTH - 2))
            rest = substr(rest, 1, RSTART - 1) " " substr(rest, RSTART + RLENGTH)
        }
        while (match(rest, /\]\([^)]*\)/)) {
            path = substr(rest, RSTART + 2, RLENGTH - 3)
            if (path !~ /^[a-z]+:/) put("P", path)
            rest = substr(rest, RSTART + RLENGTH)
        }
    }
    function in_code(line, count, parts, i) {
        count = split(line, parts, /[][ "(),;<>|=\047]+/)
        for (i = 1; i <= count; i++)
            if (parts[i] ~ /^(crates|docs|examples|hooks|scripts|\.ci)\// && is_path(parts[i])) put("P", parts[i])
    }
    function flush() { in_text(text); text = "" }
    BEGIN {
        while ((getline crate <crates) > 0) tops[crate] = 1
        split("crates docs examples hooks scripts .ci specs src proofs edits must-fail pictures schema", some, " ")
        for (i in some) tops[some[i]] = 1
    }
    FNR == 1 { flush(); fenced = 0; document = FILENAME }
    /^ *```/ { flush(); fenced = !fenced; next }
    fenced || /^    / { flush(); in_code($0); next }
    /^ *$/ { flush(); next }
    /^\|/ { flush(); in_text($0); next }
    { text = text " " $0 }
    END { flush() }
' "${documents[@]}" | sort -u >"$folder/named"

# A path is one from the top, from the document, from docs/, from crates/ or from a crate; a name of a file alone stands anywhere.
there() { # DOCUMENT PATH
    local path="${2%%#*}" base
    case "$path" in
        '') return 0 ;;
        */*) ;;
        *) grep -qxF -- "$path" "$folder/files" && return 0 ;;
    esac
    for base in . "$(dirname -- "$1")" docs crates crates/*; do
        [ -e "$base/$path" ] && return 0
    done
    return 1
}

sort -u "$folder/words" "$folder/stems" "$folder/others" >"$folder/known"
missing=0
while IFS=$'\t' read -r document path; do
    there "$document" "$path" || {
        printf '%s: no file %s\n' "$document" "$path"
        missing=$((missing + 1))
    }
done < <(sed -n 's/^P\t//p' "$folder/named")
while IFS=$'\t' read -r word document; do
    printf '%s: no name %s\n' "$document" "$word"
    missing=$((missing + 1))
done < <(awk -F '\t' '$1 == "N" { print $3 "\t" $2 }' "$folder/named" | sort |
    join -t $'\t' -v 1 - "$folder/known")
printf '%d names, %d missing\n' "$(wc -l <"$folder/named")" "$missing"
bash scripts/check-clauses.sh && [ -s "$folder/named" ] && [ "$missing" = 0 ]
