#!/usr/bin/env bash
# Opens pages of `smp_view page` in a browser: eight of examples/, one whose task has a name that is markup, and one of two runs, of which
# the lower is longer. Each opens without an error and without a request, its trace is that of `smp_view trace` place by place and with its
# indents, its links lead to what is in it, and clicks, also in the upper run, and the keys left and right, but with no other key held, go
# where they should. The open place is seen, with a ground of its own, and in the picture its mark, in a narrow window too. Without its
# script the page reads from top to bottom. It needs Debian's chromium and nodejs, 18 or later, and the built program.
# A folder that is named gets what the browser shows, 800 and 1600 pixels wide, light and dark. The variables BROWSER and SMP_VIEW name
# other programs. Status 1 where one is wrong, 2 where something that it needs is not there.
set -u
export LC_ALL=C.UTF-8
shots=${1:+$(realpath -m -- "$1")}
cd "$(dirname -- "${BASH_SOURCE[0]}")/.." || exit 2

program=${SMP_VIEW:-$PWD/crates/smp_view/out/smp_view}
browser=${BROWSER:-chromium}
if ! [ -x "$program" ]; then
    echo "no program at $program: build it first, with (cd crates/smp_view && rt run -- --help)" >&2
    exit 2
fi
for needed in "$browser" node; do
    if ! command -v "$needed" >/dev/null; then
        echo "$needed is not there: install chromium and nodejs" >&2
        exit 2
    fi
done
exec node scripts/check_page.mjs "$browser" "$program" examples ${shots:+"$shots"}
