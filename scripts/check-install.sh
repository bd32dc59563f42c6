#!/usr/bin/env bash
# Installs the built programs by scripts/install.sh into a folder of its own, and looks at what is there: that the programs run, that
# man and groff take the man pages without a word, that all that the help says stands in them, and each command and option in the
# completions for bash and zsh, and what bash completes. Then it installs stand-ins whose help has new commands and every sign that
# roff and the shells read otherwise. It is called without words, from any folder. One line a case, then a total; status 1 where one
# is wrong.
set -u
export LC_ALL=C
cd "$(dirname -- "${BASH_SOURCE[0]}")/.." || exit 1

for name in smp_view smp_bench; do
    program="$PWD/crates/$name/out/$name"
    if ! [ -x "$program" ]; then
        echo "no program at $program: build it first, with (cd crates/$name && rt run -- --help)" >&2
        exit 1
    fi
done

folder="$(mktemp -d)"
trap 'rm -rf -- "$folder"' EXIT
good=0
bad=0

# A case goes well where nothing was found that is wrong.
judge() { # NAME FOUND
    if [ -z "$2" ]; then
        good=$((good + 1))
        printf 'ok    %s\n' "$1"
    else
        bad=$((bad + 1))
        printf 'WRONG %s\n' "$1"
        printf '%s\n' "$2" | head -n 20 | sed 's/^/      /'
    fi
}
same() { # NAME WANTED GOT
    local found=''
    [ "$2" = "$3" ] || found="wanted '$2', got '$3'"
    judge "$1" "$found"
}

# ---- what a help has

# The first words of the rows below a heading, which is Commands or Options.
commands_in() { # FILE OF A HELP
    awk '$0 == "" { on = 0 } on { print $1 } $0 == "Commands:" { on = 1 }' "$1"
}
options_in() { # FILE OF A HELP
    awk '$0 == "" { on = 0 } on { print } $0 == "Options:" { on = 1 }' "$1" | grep -oE '^ +-[^ ]+( --[^ <]+)?' | tr -d ',' |
        tr -s ' ' '\n' | grep . | sort
}

# The lines of a help that do not stand in the text, but for headings, which a page has in its own way. Spaces and ends of lines may
# differ.
not_in() { # FILE OF A HELP, FILE OF A TEXT
    local text words
    text="$(tr -s ' \n' ' ' <"$2")"
    grep -vxE '(Commands|Arguments|Options|Exit status):' "$1" | sed -E 's/^(Usage|Example): //' | while read -r -a words; do
        [[ "$text" == *"${words[*]}"* ]] || printf 'not in it: %s\n' "${words[*]}"
    done
}

# ---- what is looked at in an installed program

# The page as plain text, in lines that are long enough for all.
page_text() { # FILE
    groff -man -Tascii -P-cbu -rLL=1000n "$1"
}
# Of the text of a page what it says of one command: its part of COMMANDS, and the examples.
part_of() { # COMMAND
    awk -v title="   $1" '/^[A-Z]/ { on = $0 == "EXAMPLES" } /^   [^ ]/ { on = $0 == title } on'
}

look_at_page() { # NAME FILE
    if command -v man >/dev/null && command -v groff >/dev/null; then
        judge "$1: man has nothing to say of the page" "$(man --warnings -l "$2" 2>&1 >/dev/null)"
        judge "$1: nor has groff" "$(groff -man -ww -z "$2" 2>&1)"
        # One without a backslash may be shown as a hyphen that no shell takes.
        judge "$1: each hyphen of the page is that of an option" "$(grep -nE '(^|[^\])-' "$2" | grep -vF '.\"')"
        page_text "$2" >"$folder/page"
        judge "$1: the page has the whole help" "$(not_in "$folder/help" "$folder/page")"
        for command in $(commands_in "$folder/help"); do
            part_of "$command" <"$folder/page" >"$folder/part"
            judge "$1: the page has the whole help of $command" "$(not_in "$folder/help-$command" "$folder/part")"
        done
    else
        printf 'left out, since man or groff is not here: the page of %s\n' "$1"
    fi
}

# What bash completes: the words that it offers, in order, and FILES where it completes the names of files. The last word is the one
# under the cursor.
completed() { # FILE WORD..
    (
        file="$1"
        shift
        compopt() { [ "$*" = '-o default' ] && printf 'FILES\n'; }
        # shellcheck disable=SC1090
        source "$file"
        COMP_WORDS=("$@")
        COMP_CWORD=$(($# - 1))
        "_$1" && printf '%s\n' "${COMPREPLY[@]}"
    ) | grep . | sort | paste -sd ' '
}
in_order() { sort | paste -sd ' '; }

look_at_bash() { # NAME FILE
    judge "$1: bash can read its completions" "$(bash -n "$2" 2>&1)"
    same "$1: bash calls the function" "complete -F _$1 $1" "$(bash -c 'source "$1" && complete -p "$2"' bash "$2" "$1" 2>&1)"
    same "$1: bash completes the commands" "$(commands_in "$folder/help" | in_order)" "$(completed "$2" "$1" '')"
    same "$1: bash completes its options" "$(options_in "$folder/help" | in_order)" "$(completed "$2" "$1" -)"
    for command in $(commands_in "$folder/help"); do
        same "$1: bash completes the options of $command" "$(options_in "$folder/help-$command" | in_order)" \
            "$(completed "$2" "$1" "$command" -)"
        if grep -qx 'Arguments:' "$folder/help-$command"; then
            same "$1: bash completes files of $command" FILES "$(completed "$2" "$1" "$command" '')"
        fi
    done
}

# The words that a file for zsh gives to zsh's functions, a line each, as bash reads them: of a command its options and arguments, and
# else the program's options and its commands.
words_of_zsh() { # FILE COMMAND
    (
        set +u
        of="$2"
        _arguments() {
            state=command
            [ -z "$of" ] || state=argument line="$of"
            [ "$1" = -C ] && [ -n "$of" ] || printf '%s\n' "$@"
        }
        _describe() { printf '%s\n' "${commands[@]}"; }
        # shellcheck disable=SC1090
        source <(sed 's/\$line\[1\]/$line/' "$1")
    )
}
options_of_zsh() { sed -nE 's/^(\([^)]*\)|\*)?(--?[^]=+[]+)[=+]?\[.*/\2/p' | in_order; }

# The rows of a help whose name and text do not stand in the words. A row whose text stands below it is passed over.
texts_not_in() { # FILE OF A HELP, WORDS
    local term text name
    sed -nE 's/^ +(-.*[^ ])  +([^ ].*)$/\1\t\2/p' "$1" | while IFS=$'\t' read -r term text; do
        text="$(sed 's/[][\\:]/\\&/g' <<<"$text")"
        for name in $(grep -oE '(^|, )--?[^ ,]+' <<<"$term" | tr -d ','); do
            [[ "$2" == *"$name"?([=+])"[$text]"* ]] || printf 'not in it: %s[%s]\n' "$name" "$text"
        done
    done
    awk '$0 == "" { on = 0 } on { print } $0 == "Commands:" { on = 1 }' "$1" | while read -r name text; do
        text="$(sed 's/[][\\:]/\\&/g' <<<"$text")"
        grep -qxF -- "$name:$text" <<<"$2" || printf 'not in it: %s:%s\n' "$name" "$text"
    done
}

look_at_zsh() { # NAME FILE
    local words offered
    if command -v zsh >/dev/null; then
        judge "$1: zsh can read its completions" "$(zsh -n "$2" 2>&1)"
    else
        printf 'left out, since zsh is not here: whether it can read the completions of %s\n' "$1"
    fi
    same "$1: zsh is told what the file completes" "#compdef $1" "$(head -n 1 "$2")"
    words="$(words_of_zsh "$2" '' 2>&1)"
    offered="$(sed -n 's/^\([a-z][^:]*\):.*/\1/p' <<<"$words" | in_order)"
    same "$1: zsh has the commands" "$(commands_in "$folder/help" | in_order)" "$offered"
    same "$1: zsh has its options" "$(options_in "$folder/help" | in_order)" "$(options_of_zsh <<<"$words")"
    judge "$1: zsh has the texts of both" "$(texts_not_in "$folder/help" "$words")"
    for command in $(commands_in "$folder/help"); do
        words="$(words_of_zsh "$2" "$command" 2>&1)"
        same "$1: zsh has the options of $command" "$(options_in "$folder/help-$command" | in_order)" "$(options_of_zsh <<<"$words")"
        judge "$1: zsh has the texts of $command" "$(texts_not_in "$folder/help-$command" "$words")"
        same "$1: zsh has a file where $command takes one" "$(grep -cE '^ +(-[-a-z, ]+)?[[<]FILE[]>]' "$folder/help-$command")" \
            "$(grep -c ':_files$' <<<"$words")"
    done
}

look_at() { # PREFIX NAME: the program of that name, its help, its page and its completions
    local command mode
    for mode in "755 bin/$2" "644 share/man/man1/$2.1" "644 share/bash-completion/completions/$2" \
        "644 share/zsh/site-functions/_$2"; do
        same "$2: ${mode#* }" "${mode%% *}" "$(stat -c %a -- "$1/${mode#* }" 2>&1)"
    done
    "$1/bin/$2" --help >"$folder/help" 2>"$folder/err"
    same "$2 --help" 0 "$?"
    for command in $(commands_in "$folder/help"); do
        "$1/bin/$2" "$command" --help >"$folder/help-$command" 2>"$folder/err"
        same "$2 $command --help" 0 "$?"
    done
    look_at_page "$2" "$1/share/man/man1/$2.1"
    look_at_bash "$2" "$1/share/bash-completion/completions/$2"
    look_at_zsh "$2" "$1/share/zsh/site-functions/_$2"
}

# ---- the built programs

prefix="$folder/a prefix"
(umask 077 && bash scripts/install.sh "$prefix") >"$folder/out" 2>"$folder/err"
same 'install.sh' 0 "$?"
judge 'it says nothing else' "$(cat "$folder/err")"
same 'it says what it installed' "$(find "$prefix" -type f | sort)" "$(sed -n 's/^installed //p' "$folder/out" | sort)"
for name in smp_bench smp_view; do
    judge "bin/$name is the built program" "$(cmp "crates/$name/out/$name" "$prefix/bin/$name" 2>&1)"
    look_at "$prefix" "$name"
done

bench="$prefix/share/bash-completion/completions/smp_bench"
view="$prefix/share/bash-completion/completions/smp_view"
tried() { # WANTED FILE WORD..: the last word is the one under the cursor
    local wanted="$1"
    shift
    same "bash: '${*:2}' is completed to '$wanted'" "$wanted" "$(completed "$@")"
}
tried 'timeline trace' "$view" smp_view t
tried '--from' "$view" smp_view trace --f
tried '--span' "$bench" smp_bench replay --s
tried '' "$view" smp_view replay
tried '' "$view" smp_view replay --f
tried '' "$view" smp_view trace --from ''
tried '' "$view" smp_view trace --from =
tried '' "$view" smp_view trace --from = 3
tried FILES "$view" smp_view trace --from = 3 ex
tried FILES "$view" smp_view trace --task A ex
tried '' "$view" smp_view trace --settle =
tried FILES "$bench" smp_bench replay '<' ''
tried FILES "$view" smp_view trace run.json '>' ex
tried '--help --span --tally -h' "$bench" smp_bench replay ''

# ---- paths

# The files below a folder, by their names from there.
below() { (cd "$1" 2>/dev/null && find . -type f | sort); }
all="$(below "$prefix")"
top="$PWD"
(cd "$folder" && bash "$top/scripts/install.sh" 'of here/usr') >"$folder/out" 2>&1
same 'a prefix from this folder on' "0 $all" "$? $(below "$folder/of here/usr")"
judge 'the same pages and completions again' "$(diff -r "$prefix" "$folder/of here/usr" 2>&1)"
DESTDIR="$folder/stage" bash scripts/install.sh /usr/local/ >"$folder/out" 2>&1
same 'DESTDIR before a prefix' "0 $all" "$? $(below "$folder/stage/usr/local")"
(cd "$folder" && DESTDIR=stage bash "$top/scripts/install.sh" here) >"$folder/out" 2>&1
same 'DESTDIR before a prefix from this folder on' "0 $all" "$? $(below "$folder/stage$folder/here")"
bash scripts/install.sh "$prefix" >"$folder/out" 2>&1
same 'over what is there' "0 $all" "$? $(below "$prefix")"

refused() { # NAME STATUS ERR WORD..: ERR is how standard error begins
    local name="$1" want="$2" err="$3"
    shift 3
    bash "${script:-scripts/install.sh}" "$@" >"$folder/out" 2>"$folder/err"
    same "$name" "$want $err" "$? $(head -c "${#err}" "$folder/err")"
    judge "$name: nothing on standard output" "$(cat "$folder/out")"
}
refused 'no prefix' 2 'usage: install.sh PREFIX'
refused 'an empty prefix' 2 'usage: install.sh PREFIX' ''
refused 'two prefixes' 2 'usage: install.sh PREFIX' "$folder/x" "$folder/y"
refused 'an unknown option' 2 'usage: install.sh PREFIX' --prefix
refused 'a file in place of a folder' 1 'install: ' "$folder/help"
bash scripts/install.sh -h >"$folder/out" 2>"$folder/err"
same '-h' '0 usage: install.sh PREFIX' "$? $(head -n 1 "$folder/out")"

# ---- stand-ins for the programs

mkdir -p "$folder/top/scripts"
cp scripts/install.sh scripts/man-page.py scripts/completions.py scripts/help_texts.py "$folder/top/scripts"
script="$folder/top/scripts/install.sh"
stand_in() { # NAME: a program that prints what stands in standard input up to a line of --, and with other words what stands below it
    mkdir -p "$folder/top/crates/$1/out"
    {
        printf '#!/usr/bin/env bash\ncase "$*" in\n--help) part=1 ;;\n"advise --help") part=2 ;;\n"check --help") part=3 ;;\n*) exit 2 ;;\n'
        printf 'esac\nawk -v part="$part" %s <<"END"\n' "'BEGIN { at = 1 } \$0 == \"--\" { at += 1; next } at == part'"
        cat
        printf 'END\n'
    } >"$folder/top/crates/$1/out/$1"
    chmod +x "$folder/top/crates/$1/out/$1"
}

refused 'no programs' 1 "no program at $folder/top/crates/smp_bench/out/smp_bench: build it first, with (cd crates/smp_bench && " \
    "$folder/none"
same 'no programs: a line for each' 2 "$(wc -l <"$folder/err")"
same 'no programs: nothing is installed' '' "$(below "$folder/none")"
stand_in smp_bench <<'END'
Does nothing

Usage: smp_bench

Options:
  -h, --help  Print help
END
refused 'one program is missing' 1 "no program at $folder/top/crates/smp_view/out/smp_view: build it first" "$folder/none"
same 'one program is missing: nothing is installed' '' "$(below "$folder/none")"
mkdir -p "$folder/top/crates/smp_view/out"
printf '#!/bin/sh\nexit 3\n' >"$folder/top/crates/smp_view/out/smp_view"
chmod +x "$folder/top/crates/smp_view/out/smp_view"
refused 'a program without help' 1 'no help: ' "$folder/none"
same 'a program without help: nothing is installed' '' "$(below "$folder/none")"

stand_in smp_view <<'END'
.dots, 'quotes', "double ones", \backslashes\n, `ticks`, ^ and ~, -hyphens- and $HOME

Usage: smp_view [OPTIONS] <COMMAND>

Commands:
  advise  Tries each [change] of a family: it's said "which" \fBhelps\fR, for $HOME
  check   'Fails' where a number is too great

Options:
  -q, --quiet      .says less
      --log <FILE>
          Where it is told: with a name that is too long for a line, as a text is that stands below
  -h, --help       Print help

.a line that begins with a dot
'and one that begins with a quote

Documents, in FILE:
  .one  which
        .goes on
  'two'  or \e not

Exit status:
  0  .nothing

Example: smp_view check --at-most 'wait=3' -- .run.json
--
Tries each [change] of a family: it's said "which" \fBhelps\fR, for $HOME

Usage: smp_view advise [OPTIONS] <FILE>...

Arguments:
  <FILE>...  The files; it's 'one' at the least

Options:
      --over <FAMILY>  .The family: [this] and \that\ of it's [possible values: priorities, masks]
      --rig <FILE>     A file, named
  -j, --jobs <N>       How many; may stand several times
  -h, --help           Print help

It reads:
  .{"edit": 'x', \"y\"}
    ..indented
'The' rest.
--
'Fails' where a number is too great

Usage: smp_view check [OPTIONS]

Options:
      --at-most <NAME=N>  A number's name and the most that it may be
      --no-text
  -h, --help              Print help
END
bash "$script" "$folder/odd" >"$folder/out" 2>&1
same 'stand-ins with odd texts' 0 "$?"
look_at "$folder/odd" smp_view
view="$folder/odd/share/bash-completion/completions/smp_view"
tried '--at-most' "$view" smp_view check --a
tried '' "$view" smp_view check --at-most wait
tried '' "$view" smp_view check --at-most wait = 3
tried '--at-most --help --no-text -h' "$view" smp_view check --no-text ''
tried 'priorities' "$view" smp_view advise --over p
tried 'masks priorities' "$view" smp_view advise --over =
tried 'masks' "$view" smp_view advise --over = m
tried FILES "$view" smp_view advise --rig ''
tried '' "$view" smp_view advise -j ''

printf '%d passed, %d failed\n' "$good" "$bad"
[ "$bad" = 0 ]
