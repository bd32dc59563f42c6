#!/usr/bin/env bash
# Installs the built programs, smp_bench and smp_view: both to PREFIX/bin, and to PREFIX/share a man page of each and completions for
# bash and zsh, which are written from the programs' help. It is called as `scripts/install.sh PREFIX`, from any folder. Where DESTDIR
# is set, it stands before every path. It builds nothing. It prints a line for each file. The status is 1 where a program is missing or
# a file can't be written, and 2 of a bad call.
set -euo pipefail
export LC_ALL=C

usage() {
    cat <<'END'
usage: install.sh PREFIX

Installs smp_bench and smp_view, which have to be built before:
  PREFIX/bin                                the programs
  PREFIX/share/man/man1                     their man pages
  PREFIX/share/bash-completion/completions  their completions for bash
  PREFIX/share/zsh/site-functions           their completions for zsh

Where the variable DESTDIR is set, it stands before every path.
END
}

case "$#:${1-}" in
    1:-h | 1:--help)
        usage
        exit 0
        ;;
    1:-* | 1:)
        usage >&2
        exit 2
        ;;
    1:/*) prefix="$1" ;;
    1:*) prefix="$PWD/$1" ;;
    *)
        usage >&2
        exit 2
        ;;
esac
target="${DESTDIR-}${prefix%/}"
top="$(CDPATH='' cd -- "$(dirname -- "${BASH_SOURCE[0]}")/.." && pwd)"
names=(smp_bench smp_view)

program() { # NAME: where the built program stands
    printf '%s\n' "$top/crates/$1/out/$1"
}

missing=0
for name in "${names[@]}"; do
    if ! [ -f "$(program "$name")" ] || ! [ -x "$(program "$name")" ]; then
        echo "no program at $(program "$name"): build it first, with (cd crates/$name && rt run --jobs 4 -- --help)" >&2
        missing=1
    fi
done
[ "$missing" = 0 ] || exit 1

# All that is written is written here first, so that nothing is installed where something fails.
folder="$(mktemp -d)"
trap 'rm -rf -- "$folder"' EXIT
for name in "${names[@]}"; do
    python3 "$top/scripts/man-page.py" "$(program "$name")" >"$folder/$name.1"
    python3 "$top/scripts/completions.py" bash "$(program "$name")" >"$folder/$name.bash"
    python3 "$top/scripts/completions.py" zsh "$(program "$name")" >"$folder/$name.zsh"
done

put() { # MODE FROM PATH: installs the file FROM as PATH below the prefix
    install -D -T -m "$1" -- "$2" "$target/$3"
    printf 'installed %s\n' "$target/$3"
}
for name in "${names[@]}"; do
    put 755 "$(program "$name")" "bin/$name"
    put 644 "$folder/$name.1" "share/man/man1/$name.1"
    put 644 "$folder/$name.bash" "share/bash-completion/completions/$name"
    put 644 "$folder/$name.zsh" "share/zsh/site-functions/_$name"
done
