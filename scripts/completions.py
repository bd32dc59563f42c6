#!/usr/bin/env python3
"""Write a shell's completions from a program's help: `completions.py bash PROGRAM` or `completions.py zsh PROGRAM`.

The commands, and each command's options with their texts, are those of `PROGRAM --help` and `PROGRAM COMMAND --help`. A value or an
argument that is called FILE is the name of a file. Standard output is a file that the shell loads.
"""

import re
import sys

sys.dont_write_bytecode = True

from help_texts import help_of


def quoted(text):
    """The text as one word of a shell."""
    return "'" + text.replace("'", "'\\''") + "'"


def filled(text, **parts):
    """The text with the parts in the places of their names, each between two signs of per cent."""
    return re.sub(f"%({'|'.join(parts)})%", lambda found: parts[found.group(1)], text)


# bash


BASH = r"""# Completions of %name% for bash, written by scripts/completions.py from its help.

_%name%() {
    local IFS=$' \t\n' word words=() command='' this option offered=''
    # A word that bash cut at its equals sign is put together.
    for word in "${COMP_WORDS[@]:0:COMP_CWORD + 1}"; do
        if ((${#words[@]} > 1)) && [[ "$word" == =* || "${words[-1]}" == *= ]]; then
            words[-1]+="$word"
        else
            words+=("$word")
        fi
    done
    this="${words[-1]}"
    option="${words[-2]}"
    COMPREPLY=()
    # A file that the shell opens.
    if [[ "$option" == *[\<\>] ]]; then
        compopt -o default
        return
    fi
    ((${#words[@]} < 3)) || command="${words[1]}"
    [[ "$this" != -*=* ]] || option="${this%%=*}"
    case "$command $option" in
%values%
        *)
            case "$command $this" in
                *' -'*=*) ;;
%words%
            esac
            ;;
    esac
    mapfile -t COMPREPLY < <(compgen -W "$offered" -- "${this#-*=}")
}
complete -F _%name% %name%
"""

FILES = "compopt -o default "


def offered(words):
    return f"offered={quoted(' '.join(words))} "


def bash_values(told, command):
    """A line for each kind of values that options of the command take."""
    kinds = {}
    for row in told.options:
        if row.value():
            kind = FILES if row.is_file() else offered(row.choices()) if row.choices() else ""
            kinds.setdefault(kind, []).extend(row.names())
    for kind, names in kinds.items():
        patterns = " | ".join(quoted(f"{command} {name}") for name in names)
        yield f"        {patterns}) {kind};;"


def bash_words(told, command):
    """What may stand where a word of the command begins: options behind a hyphen, and else commands or files."""
    options = offered(name for row in told.options for name in row.names())
    if told.commands:
        other = offered(row.term for row in told.commands)
    else:
        other = FILES if any(row.is_file() for row in told.arguments) else options
    yield f"                {quoted(f'{command} -')}*) {options};;"
    yield f"                {quoted(f'{command} ')}*) {other};;"


def bash(program, commands):
    helps = [("", program), *((told.name, told) for told in commands)]
    return filled(
        BASH,
        name=program.name,
        values="\n".join(line for name, told in helps for line in bash_values(told, name)),
        words="\n".join(line for name, told in helps for line in bash_words(told, name)),
    )


# zsh


ZSH = r"""#compdef %name%
# Completions of %name% for zsh, written by scripts/completions.py from its help.

_%name%() {
    local curcontext="$curcontext" context state state_descr line
    typeset -A opt_args
    local -a commands
    commands=(
%commands%
    )

    _arguments -C \
%options%
        '1:command:->command' \
        '*::argument:->argument'

    case $state in
        command)
            _describe -t commands command commands
            ;;
        argument)
            case $line[1] in
%cases%
            esac
            ;;
    esac
}

_%name% "$@"
"""


def spelt(text):
    """The text as part of a specification of _arguments or _describe."""
    return re.sub(r"[\\\[\]:]", r"\\\g<0>", text)


def zsh_action(row):
    if row.is_file():
        return "_files"
    return f"({' '.join(row.choices())})" if row.choices() else " "


def zsh_options(told):
    for row in told.options:
        names = row.names()
        value = f":{spelt(row.value())}:{zsh_action(row)}" if row.value() else ""
        for name in names:
            first = "*" if row.is_repeated() else f"({' '.join(names)})" if len(names) > 1 else ""
            # What stands behind the name says that the value may stand in the same word.
            last = "" if not value else "=" if name.startswith("--") else "+"
            yield quoted(f"{first}{name}{last}[{spelt(row.text)}]{value}")


def zsh_arguments(told):
    for place, row in enumerate(told.arguments, 1):
        where = "*" if row.term.endswith("...") else f"{place}:" if row.term.startswith("[") else f"{place}"
        yield quoted(f"{where}:{spelt(row.value())}:{zsh_action(row)}")


def zsh_case(told):
    words = [*zsh_options(told), *zsh_arguments(told)]
    lines = ["    _arguments", *(f"        {word}" for word in words)]
    return "\n".join(f"{' ' * 16}{line}" for line in (f"{told.name})", " \\\n                ".join(lines), "    ;;"))


def zsh(program, commands):
    return filled(
        ZSH,
        name=program.name,
        commands="\n".join(f"        {quoted(f'{row.term}:{spelt(row.text)}')}" for row in program.commands),
        options="\n".join(f"        {option} \\" for option in zsh_options(program)),
        cases="\n".join(zsh_case(told) for told in commands),
    )


def main():
    shells = {"bash": bash, "zsh": zsh}
    if len(sys.argv) != 3 or sys.argv[1] not in shells:
        print("usage: completions.py bash|zsh PROGRAM", file=sys.stderr)
        sys.exit(2)
    print(shells[sys.argv[1]](*help_of(sys.argv[2])), end="")


main()
