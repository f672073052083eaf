#!/usr/bin/env python3
"""Writes the completions of the station's commands, options and values, for bash and for zsh.

    packaging/completions.py PROGRAM BASH ZSH       those of PROGRAM, in the files BASH and ZSH

They are made of what the program prints by `help`, and by `--help` of each command.
"""

import shlex
import sys
from pathlib import Path

import told

FROM = "packaging/completions.py has made this of what the program prints by --help"
# The function finds in the table what is typed. It is a command, the value of an option, an option, or a word at its place among the words.
BASH = r"""
_oftp_station() {
    local now=${COMP_WORDS[COMP_CWORD]} command=${COMP_WORDS[1]} before=${COMP_WORDS[COMP_CWORD - 1]} place=1 at kind
    COMPREPLY=()
    if [ "$COMP_CWORD" -eq 1 ]; then
        mapfile -t COMPREPLY < <(compgen -W "${_oftp_station_has[commands]}" -- "$now")
        return
    fi
    # `--db=FILE` is three words here.
    if [ "$now" = = ]; then now='' before=$before; elif [ "$before" = = ]; then before=${COMP_WORDS[COMP_CWORD - 2]}; fi
    kind=${_oftp_station_has[$command $before]-}
    if [ -z "$kind" ] && [[ $now != -* ]]; then
        for ((at = 2; at < COMP_CWORD; at++)); do
            case ${COMP_WORDS[at]} in
                -*)
                    if [ -z "${_oftp_station_has[$command ${COMP_WORDS[at]}]-}" ]; then continue; fi
                    if [ "${COMP_WORDS[at + 1]}" = = ]; then at=$((at + 2)); else at=$((at + 1)); fi
                    ;;
                *) place=$((place + 1)) ;;
            esac
        done
        kind=${_oftp_station_has[$command $place]-}
    fi
    case $kind in
        file)
            compopt -o filenames 2> /dev/null
            mapfile -t COMPREPLY < <(compgen -f -- "$now")
            ;;
        folder)
            compopt -o filenames 2> /dev/null
            mapfile -t COMPREPLY < <(compgen -d -- "$now")
            ;;
        values:*) mapfile -t COMPREPLY < <(compgen -W "${kind#values:}" -- "$now") ;;
        '') mapfile -t COMPREPLY < <(compgen -W "${_oftp_station_has[$command options]-}" -- "$now") ;;
    esac
}
complete -F _oftp_station oftp_station
"""
ZSH = """
_oftp_station() {
    local context state state_descr line
    typeset -A opt_args
    _arguments -C '1:command:->command' '*::argument:->argument'
    case $state in
        command)
            local -a commands=(
%s
            )
            _describe command commands
            ;;
        argument)
            case $words[1] in
%s
            esac
            ;;
    esac
}

_oftp_station "$@"
"""


def kind_of(argument):
    """What a value may be, for bash. A value of another kind is typed by hand."""
    if argument.is_file() or argument.is_folder():
        return "file" if argument.is_file() else "folder"
    return f"values:{' '.join(argument.choices())}" if argument.choices() else "other"


def bash(commands):
    """The table, and the function that reads it."""
    has = {"commands": " ".join(it.word for it in commands)}
    for command in commands:
        has[f"{command.word} options"] = " ".join(f"--{it.option}" for it in command.options)
        has |= {f"{command.word} --{it.option}": kind_of(it) for it in command.options if it.shown}
        has |= {f"{command.word} {place}": kind_of(it) for place, it in enumerate(command.words, 1)}
    lines = (f"    [{shlex.quote(name)}]={shlex.quote(value)}" for name, value in has.items())
    return "\n".join([f"# bash completion of oftp_station(1): {FROM}", "declare -gA _oftp_station_has=(", *lines, ")"]) + "\n" + BASH


def action_of(argument):
    """What a value may be, for zsh."""
    if argument.is_file() or argument.is_folder():
        return "_files" if argument.is_file() else "_files -/"
    return f"({' '.join(argument.choices())})" if argument.choices() else " "


def escaped(text):
    """A text within an argument of `_arguments`."""
    for mark in "\\:[]":
        text = text.replace(mark, f"\\{mark}")
    return text


def arguments_of(command):
    """The arguments of a command, as `_arguments` wants them."""
    for it in command.options:
        value = f"=[{escaped(it.help)}]:{it.shown}:{action_of(it)}" if it.shown else f"[{escaped(it.help)}]"
        yield f"--{it.option}{value}"
    for place, it in enumerate(command.words, 1):
        yield f"{place}:{escaped(it.help)}:{action_of(it)}"


def zsh(commands):
    """The commands with what they do, and for each its arguments."""
    described = "\n".join(f"                {shlex.quote(f'{it.word}:{escaped(it.about)}')}" for it in commands)
    cases = []
    for command in commands:
        given = " \\\n".join(f"                        {shlex.quote(it)}" for it in arguments_of(command))
        if given:
            cases.append(f"                {command.word})\n                    _arguments -s \\\n{given}\n                    ;;")
    cases = "\n".join(cases)
    return f"#compdef oftp_station\n# zsh completion of oftp_station(1): {FROM}\n{ZSH % (described, cases)}"


def main():
    program, bash_file, zsh_file = sys.argv[1:]
    commands = told.commands(program)
    Path(bash_file).write_text(bash(commands), encoding="utf-8")
    Path(zsh_file).write_text(zsh(commands), encoding="utf-8")


if __name__ == "__main__":
    main()
