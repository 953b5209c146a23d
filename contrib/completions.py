#!/usr/bin/env python3
"""Writes the completions of circuitd for a shell on standard output, from the texts of its own help.

    contrib/completions.py bash|zsh|fish [PROGRAM]

PROGRAM is the built program, `circuitd` on the path where none is named. A first word is completed to a command, a word that begins with a hyphen
to an option of the command, the word behind an option to its values where the help lists them or to a file where it takes one, and any other
word to a file, where one is wanted.
"""
import dataclasses
import re
import sys

sys.dont_write_bytecode = True
from manpage import commands_of, parts_of, printed

# What an option takes that is a path: a file, or a folder.
PATHS = {"FILE": "file", "DIR": "folder", "OLD": "folder"}


@dataclasses.dataclass
class Choice:
    """An option: its name, what the help calls its value if it takes one, the values that it lists, and what it says."""
    name: str
    value: str
    values: list
    text: str


def options_of(lines):
    """The options of these lines of a help."""
    options = []
    for line in lines:
        named = re.match(r" *(?:-\w, )?(--[a-z-]+)(?: <(\w+)>)? *(.*)", line)
        listed = re.search(r"\[possible values: ([^]]+)\]", line)
        if named:
            name, value, text = named.groups()
            options.append(Choice(name, value, listed.group(1).split(", ") if listed else [], text))
    return options


def told(program):
    """The commands with their sentences, the options of the program, and those of each command."""
    commands = commands_of(program)
    own = options_of(dict(parts_of(printed(program, "--help"))[2])["Options"])
    names = [name for name, _ in commands] + ["help"]
    options = {name: options_of(dict(parts_of(printed(program, name, "--help"))[2]).get("Options", [])) for name in names}
    return commands, own, options


# bash

BASH_HEAD = """\
# Completions of circuitd for bash, made from its help by contrib/completions.py.
_circuitd() {
    local word=${COMP_WORDS[COMP_CWORD]} before=${COMP_WORDS[COMP_CWORD-1]} command=${COMP_WORDS[1]} words=
    if [ "$COMP_CWORD" -eq 1 ]; then
"""
BASH_MIDDLE = """\
        return
    fi
    case $command:$before in
"""
BASH_BEHIND = """\
    *)
        case $word in
        -*)
            case $command in
"""
BASH_TAIL = """\
            esac
            ;;
        *) compopt -o default ;;
        esac
        ;;
    esac
    mapfile -t COMPREPLY < <(compgen -W "$words" -- "$word")
}
complete -F _circuitd circuitd
"""


def bash_values(option):
    """What completes the word behind an option."""
    if option.values:
        return f"words='{' '.join(option.values)}'"
    return "compopt -o default" if option.value in PATHS else "words="


def bash(program):
    """The whole script for bash."""
    commands, own, options = told(program)
    names = [name for name, _ in commands] + ["help"]
    first = names + [option.name for option in own]
    out = BASH_HEAD + f'        mapfile -t COMPREPLY < <(compgen -W "{" ".join(first)}" -- "$word")\n' + BASH_MIDDLE
    for name in names:
        for option in options[name]:
            if option.value:
                out += f"    {name}:{option.name}) {bash_values(option)} ;;\n"
    out += f"    help:*) words='{' '.join(names)}' ;;\n" + BASH_BEHIND
    for name in names:
        if options[name]:
            out += f"            {name}) words='{' '.join(option.name for option in options[name])}' ;;\n"
    return out + BASH_TAIL


# zsh

ZSH_HEAD = """\
#compdef circuitd
# Completions of circuitd for zsh, made from its help by contrib/completions.py.
_circuitd() {
    local -a commands
    commands=(
"""
ZSH_MIDDLE = """\
    )
    if (( CURRENT == 2 )); then
        _describe -t commands command commands
        return
    fi
    local command=$words[2]
    shift words
    (( CURRENT-- ))
    case $command in
"""
ZSH_TAIL = """\
    help) _describe -t commands command commands ;;
    esac
}
_circuitd "$@"
"""
ZSH_PATHS = {"file": "_files", "folder": "_files -/"}


def quoted(text):
    """A word of a shell that stands for this text."""
    return "'" + text.replace("'", "'\\''") + "'"


def zsh_option(option):
    """An option as zsh's `_arguments` takes it."""
    text = option.text.replace("[", "\\[").replace("]", "\\]")
    behind = ""
    if option.values:
        behind = f":{option.value}:({' '.join(option.values)})"
    elif option.value:
        behind = f":{option.value}:{ZSH_PATHS.get(PATHS.get(option.value), ' ')}"
    return quoted(f"{option.name}[{text}]{behind}")


def zsh(program):
    """The whole script for zsh."""
    commands, _, options = told(program)
    out = ZSH_HEAD
    for name, text in commands:
        out += f"        {quoted(name + ':' + text.replace(':', chr(92) + ':'))}\n"
    out += "        'help:Print the help of a command'\n" + ZSH_MIDDLE
    for name, _ in commands:
        words = [zsh_option(option) for option in options[name]] + ["'*:file:_files'"]
        out += f"    {name})\n        _arguments " + " \\\n            ".join(words) + "\n        ;;\n"
    return out + ZSH_TAIL


# fish


def fish_text(text):
    """A word of fish that stands for this text."""
    return "'" + text.replace("\\", "\\\\").replace("'", "\\'") + "'"


def fish_option(name, option):
    """The line of an option of a command."""
    line = f"complete -c circuitd -n '__fish_seen_subcommand_from {name}' -l {option.name[2:]}"
    if option.values:
        line += f" -x -a {fish_text(' '.join(option.values))}"
    elif option.value:
        line += " -r -F" if option.value in PATHS else " -x"
    return f"{line} -d {fish_text(option.text)}\n"


def fish(program):
    """The whole script for fish."""
    commands, own, options = told(program)
    out = "# Completions of circuitd for fish, made from its help by contrib/completions.py.\n"
    for name, text in [*commands, ("help", "Print the help of a command")]:
        out += f"complete -c circuitd -f -n __fish_use_subcommand -a {name} -d {fish_text(text)}\n"
    for option in own:
        out += f"complete -c circuitd -f -n __fish_use_subcommand -l {option.name[2:]} -d {fish_text(option.text)}\n"
    for name, _ in commands:
        out += "".join(fish_option(name, option) for option in options[name])
    names = " ".join(name for name, _ in commands)
    return out + f"complete -c circuitd -f -n '__fish_seen_subcommand_from help' -a {fish_text(names)}\n"


SHELLS = {"bash": bash, "zsh": zsh, "fish": fish}


def main():
    if len(sys.argv) < 2 or sys.argv[1] not in SHELLS:
        sys.exit(__doc__)
    program = sys.argv[2] if len(sys.argv) > 2 else "circuitd"
    sys.stdout.write(SHELLS[sys.argv[1]](program))


if __name__ == "__main__":
    main()
