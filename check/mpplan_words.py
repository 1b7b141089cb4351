#!/usr/bin/env python3
"""Writes the man page's COMMANDS and the completions of `mpplan` from its argument parsers.

usage: check/mpplan_words.py     in any directory

Writes the section COMMANDS of docs/mpplan.1, and completions/mpplan.bash and completions/_mpplan. Run it whenever an argument or a help text
changes: `check/run options` compares the three files with the parsers.
"""
import argparse
import pathlib
import re
import sys
import textwrap

ROOT = pathlib.Path(__file__).resolve().parent.parent
sys.path.insert(0, str(ROOT / "python" / "src"))
sys.dont_write_bytecode = True
from mpsim.command.commands import COMMANDS
from mpsim.command.options import Once
from mpsim.command.parser import parser_for

MANUAL, BASH, ZSH = ROOT / "docs" / "mpplan.1", ROOT / "completions" / "mpplan.bash", ROOT / "completions" / "_mpplan"
# Values with these names are files. Options with one of these actions may be repeated.
FILES, REPEATED = ("FILE", "FOLDER", "MODEL"), (argparse._AppendAction, argparse._ExtendAction, Once)
# Options of `mpplan` itself, without a command.
OWN = "--help", "--version"

BASH_SCRIPT = """# Bash completions for mpplan. Source this file, or install it as `mpplan` in the directory of completions.
# Written by check/mpplan_words.py.
_mpplan() {{
    local word=${{COMP_WORDS[COMP_CWORD]}} i choices='' given=' ' options='' repeated=' ' left=''
    COMPREPLY=()
    if ((COMP_CWORD == 1)); then
        COMPREPLY=($(compgen -W '{commands}' -- "$word"))
        return
    fi
    case ${{COMP_WORDS[1]}} in
{each}        *) return ;;
    esac
    case ${{COMP_WORDS[1]}}.${{COMP_WORDS[COMP_CWORD-1]}} in
{choices}{values}    esac
    if [[ $choices ]]; then
        COMPREPLY=($(compgen -W "$choices" -- "$word"))
        return
    fi
    if [[ $word == -* ]]; then
        # Most options may be given once.
        for ((i = 2; i < COMP_CWORD; i++)); do
            given+="${{COMP_WORDS[i]}} "
        done
        for i in $options; do
            [[ $given == *" $i "* && $repeated != *" $i "* ]] || left+="$i "
        done
        COMPREPLY=($(compgen -W "$left" -- "$word"))
        return
    fi
    compopt -o default
}}
complete -F _mpplan mpplan ./mpplan
"""
ZSH_SCRIPT = """#compdef mpplan
# Zsh completions for mpplan. Put this file into a directory of fpath. Written by check/mpplan_words.py.
local -a commands
commands=(
{commands})
if ((CURRENT == 2)); then
    _describe -t commands command commands
    _arguments {own}
    return
fi
local command=$words[2]
shift words
((CURRENT--))
case $command in
{each}esac
"""


class Word:
    """An argument of a command: its `name` (str), whether it is an `option` (bool), its `help` (str), whether it may be `repeated` and is `required`
    (bool), the names of its `values` (list of str), their `count` (int, or ? or + as in argparse), its `choices` (list of str), and whether the
    values are `files` (bool)."""

    def __init__(self, action):
        self.option, self.help = bool(action.option_strings), " ".join((action.help or "").split()).replace("%%", "%")
        self.name = action.option_strings[-1] if self.option else action.metavar or action.dest
        self.count = 1 if action.nargs is None else action.nargs
        # A long list of choices has a name, and is in the help text.
        self.choices, names = [str(choice) for choice in action.choices or ()], action.metavar if self.option else self.name
        self.values = [] if self.count == 0 else list(names) if isinstance(names, tuple) else [names or "|".join(self.choices)]
        self.repeated, self.required = isinstance(action, REPEATED), action.required
        self.files = not self.option or self.values[:1] in [[file] for file in FILES]


def words_of(name):
    """Returns the arguments (list of Word) of a command."""
    own = parser_for(name)._subparsers._group_actions[0].choices[name]
    return [Word(action) for action in own._actions if action.dest != "help"]


def example_of(name):
    """Returns the lines of a command's example."""
    return [line.strip() for line in sys.modules[f"mpsim.command.{name}"].EXAMPLE.splitlines()]


def roff(text):
    """Returns a text as a line of a man page."""
    text = text.replace("\\", "\\e").replace("--", "\\-\\-")
    return "\\&" + text if text[:1] in (".", "'") else text


def term(word):
    """Returns the line of a man page that precedes the help of an argument."""
    shown = {"+": f"{word.values[0] if word.values else ''}..", "?": f"[{word.values[0] if word.values else ''}]"}
    value = shown.get(word.count, " ".join(word.values))
    if not word.option:
        return f".I {value}"
    name = word.name.replace("-", "\\-")
    return f'.BI {name} " {value}"' if value else f".B {name}"


def manual():
    """Yields the lines of the section COMMANDS."""
    yield ".SH COMMANDS"
    for name, says in COMMANDS.items():
        words = words_of(name)
        yield from (f".SS {name}", f"{roff(says[0].upper() + says[1:])}.", ".PP", f".B mpplan {name}")
        for word in words:
            if not word.option or word.required:
                yield term(word)
        yield ".RI [ options ]"
        for item in words:
            yield from (".TP", term(item), *([roff(item.help)] if item.help else ()))
        yield from (".PP", "For example:", ".PP", ".nf", ".RS", *map(roff, example_of(name)), ".RE", ".fi")


def wrapped(text, indent, end=""):
    """Wraps a text at 140 characters. Each line but the last gets `end`, each but the first an indent of this many spaces."""
    lines = textwrap.wrap(text, 140, subsequent_indent=indent * " ", break_long_words=False, break_on_hyphens=False)
    return f"{end}\n".join(lines) + "\n"


def bash():
    """Returns the completions for bash."""
    options = {name: [word for word in words_of(name) if word.option] for name in COMMANDS}
    each, choices, plain, files = "", "", set(), set()
    for name, words in options.items():
        repeated = "".join(f"{word.name} " for word in words if word.repeated)
        each += f"        {name})\n" + wrapped(f"            options='{' '.join(word.name for word in words)} --help'", 16)
        each += (f"            repeated=' {repeated}'\n" if repeated else "") + "            ;;\n"
        for item in words:
            if item.choices:
                choices += f"        {name}.{item.name}) choices='{' '.join(item.choices)}' ;;\n"
            elif item.values and item.count != "?":
                (files if item.files else plain).add(f"*.{item.name}")
    # An option takes files in all commands or in none.
    assert not plain & files, plain & files
    values = wrapped("        " + " | ".join(sorted(plain)) + ") return ;;", 12, " \\")
    return BASH_SCRIPT.format(commands=" ".join([*COMMANDS, *OWN]), each=each, choices=choices, values=values)


def quoted(text):
    """Quotes a text for a shell."""
    return "'" + text.replace("'", "'\\''") + "'"


def zsh_word(word, place):
    """Returns an argument in the form of zsh's _arguments; `place` is the position of a positional argument."""
    action = f"({' '.join(word.choices)})" if word.choices else "_files" if word.files else " "
    values = [f"{word.name[2:] if word.choices else value.replace(':', chr(92) + ':')}:{action}" for value in word.values]
    if not word.option:
        return quoted({"+": "*", "?": f"{place}:"}.get(word.count, str(place)) + ":" + values[0])
    # The completion shows the help up to its first semicolon. Zsh lists the choices itself.
    text = word.help.partition(";")[0].replace(", ".join(word.choices) or "\n", "these")
    text = re.sub(r"([\[\]\\])", r"\\\1", text)
    shown = {"+": [f":*-*:{value}" for value in values], "?": [f"::{value}" for value in values]}.get(word.count, [f":{value}" for value in values])
    return quoted("*" * word.repeated + word.name + "=-" * (word.count == "?") + f"[{text}]" + "".join(shown))


def zsh():
    """Returns the completions for zsh."""
    each = ""
    for name in COMMANDS:
        words = words_of(name)
        places = [word.name for word in words if not word.option]
        each += f"    {name})\n        _arguments \\\n"
        each += "".join(f"            {zsh_word(word, 0 if word.option else places.index(word.name) + 1)} \\\n" for word in words)
        each += "            '--help[show help and exit]' ;;\n"
    commands = "".join(f"    {quoted(f'{name}:{says}')}\n" for name, says in COMMANDS.items())
    return ZSH_SCRIPT.format(commands=commands, own=" ".join(map(quoted, OWN)), each=each)


def with_commands(page):
    """Returns a man page (str) with its section COMMANDS made from the parsers."""
    made = "".join(f"{item}\n" for item in manual())
    return re.sub(r"^\.SH COMMANDS\n.*?(?=^\.SH )", lambda _: made, page, flags=re.MULTILINE | re.DOTALL)


def main():
    BASH.write_text(bash())
    ZSH.write_text(zsh())
    MANUAL.write_text(with_commands(MANUAL.read_text()))


if __name__ == "__main__":
    main()
