#!/usr/bin/env bash
# Holds a FreeRTOS kernel V9 to the rules, on random runs, and looks whether the hooks compile for V9 and for V11.
#
#     against-kernel.sh FOLDER [COUNT [FIRST]]
#     against-kernel.sh --uncut FOLDER [COUNT [FIRST]]
#     against-kernel.sh --v11
#
# FOLDER has the source of the kernel: tasks.c, queue.c, list.c and include/. It is built with the hooks of hooks/freertos/ over a port of
# coroutines, in scripts/against_kernel/, and scripts/against_runs.py runs COUNT random workloads on it, 5,000 where none is given, of
# which FIRST is the number of the first. With --uncut workloads run in which V9 departs from the rules, and it is told how many of
# these runs differ. docs/TARGET.md says where the source is to be had, and how V9 departs.
#
# V11 is not run. The hooks are compiled for one core and for two against declarations of ours, in scripts/against_kernel/v11/: functions
# that have the names and the trace macros of V11's and nothing else in them. These are called, and the log is compared with calls.log
# there. With --v11 that is all that is done.
#
# What is built stands in a folder for the time, or in the one that KEEP names. Status 0 all is right, 1 a run differs or something does
# not compile, 2 a bad call, or no kernel V9.
set -u
export LC_ALL=C
cd "$(dirname -- "${BASH_SOURCE[0]}")/.." || exit 2

usage() {
    echo 'usage: against-kernel.sh [--uncut] FOLDER [COUNT [FIRST]], or against-kernel.sh --v11' >&2
    exit 2
}

uncut=()
kernel=''
case "${1:-}" in
--v11) [ $# = 1 ] || usage ;;
--uncut) uncut=(--uncut) && shift ;;
esac
if [ "${1:-}" != --v11 ]; then
    if [ $# -lt 1 ] || [ $# -gt 3 ]; then usage; fi
    kernel="$1"
    shift
    for word in "$@"; do [[ $word =~ ^[0-9]+$ ]] || usage; done
    for file in tasks.c queue.c list.c include/FreeRTOS.h include/task.h; do
        [ -f "$kernel/$file" ] || { echo "no $file in $kernel" >&2 && exit 2; }
    done
    version="$(sed -n 's/^#define tskKERNEL_VERSION_MAJOR[ \t]*\([0-9]*\).*/\1/p' "$kernel/include/task.h")"
    [ "$version" = 9 ] || { echo "a kernel V${version:-?}: only V9 is run" >&2 && exit 2; }
fi

if [ -n "${KEEP:-}" ]; then
    folder="$KEEP"
    mkdir -p "$folder" || exit 2
else
    folder="$(mktemp -d)"
    trap 'rm -rf -- "$folder"' EXIT
fi
port=scripts/against_kernel
hooks=hooks/freertos
strict=(-std=gnu11 -O1 -g -Wall -Wextra -Werror)

v11=scripts/against_kernel/v11
for cores in 1 2; do
    flags=(-DCORES="$cores" -DMUVEHYI_RECORDS=32u -I"$v11" -I"$hooks")
    for file in "$hooks/muvehyi_trace.c" "$v11/tasks.c" "$v11/queue.c"; do
        gcc "${strict[@]}" "${flags[@]}" -c -o "$folder/$(basename -- "$file" .c).o" "$file" || exit 1
    done
    echo "the hooks compile against declarations of V11, cores: $cores; V11 is not run"
done
gcc "${strict[@]}" "${flags[@]}" -o "$folder/calls" "$v11/calls.c" "$folder"/{queue,muvehyi_trace}.o || exit 1
"$folder/calls" >"$folder/calls.log"
cmp "$folder/calls.log" "$v11/calls.log" || exit 1
echo "calls of these declarations on two cores are printed as $v11/calls.log has them"
[ -n "$kernel" ] || exit 0

# A timer of 16 bits goes with a ring that is so short that it is gone round many times.
for slicing in 0 1; do
    for bits in 32 16; do
        [ "$bits" = 16 ] && records=256u || records=4096u
        flags=(-DconfigUSE_TIME_SLICING="$slicing" -DMUVEHYI_TIME_BITS="$bits" -DMUVEHYI_RECORDS="$records"
            -I"$port" -I"$hooks" -I"$kernel/include")
        for file in "$port/port.c" "$port/driver.c" "$hooks/muvehyi_trace.c" "$kernel/tasks.c" "$kernel/queue.c" "$kernel/list.c"; do
            gcc "${strict[@]}" "${flags[@]}" -c -o "$folder/$(basename -- "$file" .c).o" "$file" || exit 1
        done
        gcc -o "$folder/driver$slicing-$bits" "$folder"/{port,driver,muvehyi_trace,tasks,queue,list}.o || exit 1
    done
done
echo "the hooks compile against $(sed -n 's/^#define tskKERNEL_VERSION_NUMBER[ \t]*"\(.*\)".*/\1/p' "$kernel/include/task.h")"
python3 scripts/against_runs.py "${uncut[@]}" "$folder" "$@"
