"""Prints and checks what README, FORMATS and the desk repeat about the commands: their words, files, options and numbers."""

import re
import sys
from typing import Iterator

from program_words import Number, dictionary_kinds, program_words
from sources import ROOT

sys.path.insert(0, str(ROOT / "tools" / "desk"))
import usage  # noqa: E402

PLAIN_CALL = re.compile(r"`([a-z]+)((?: [A-Z]+)*)`")


def numbers() -> dict[str, tuple[Number, list[str]]]:
    """By name each number that commands take, with these commands. One name must have one range."""
    found: dict[str, tuple[Number, list[str]]] = {}
    for command, taken in program_words().items():
        for it in taken.numbers:
            known, commands = found.setdefault(it.name, (it, []))
            if known != it:
                raise SystemExit(f"--{it.name} has one range in {commands[0]} and another in {command}: tools/desk/usage.py needs numbers by command")
            commands.append(command)
    return found


def print_numbers() -> Iterator[str]:
    """The least, most and default of each number, for tools/desk/usage.py."""
    yield "NUMBERS = {"
    for name, (it, _) in numbers().items():
        yield f'    "{name}": ({it.least:_}, {it.most:_}, {"None" if it.default is None else format(it.default, "_")}),'
    yield "}"


def listed(names: list[str]) -> str:
    """Names in a sentence."""
    quoted = [f"`{it}`" for it in names]
    return " and ".join([", ".join(quoted[:-1]), quoted[-1]] if quoted[1:] else quoted)


def print_ranges() -> Iterator[str]:
    """A row for each number: its commands, its range and its default."""
    yield "| Number | From | To | Default |"
    yield "|---|---|---|---|"
    for name, (it, commands) in numbers().items():
        shown = "`N`" if it.default is None else f"`--{name} N`"
        default = "none: it is needed" if it.default is None else f"{it.default:,}"
        yield f"| {shown} of {listed(commands)} | {it.least:,} | {it.most:,} | {default} |"


def print_commands() -> Iterator[str]:
    """A row for each command: its words, which files it reads and writes, and what it does."""
    yield "| Words | Reads, in this order | Writes | What it does |"
    yield "|---|---|---|---|"
    for name, command in usage.COMMANDS.items():
        words = usage.first_line(name).removeprefix("diatest ").replace("|", "\\|")
        files = {option.label: "" for option in command.options if isinstance(option, usage.FileOption)}
        read = ", ".join(f"[{it}]" if it in files else it for it in usage.read_by(name, files))
        yield f"| `{words}` | {read} | {command.made.replace(' ', ', ')} | {command.work} |"


def command_differences() -> Iterator[str]:
    """Where the desk and README differ from the program about the commands."""
    program = program_words()
    for name in sorted(program.keys() ^ usage.COMMANDS.keys()):
        yield f"tools/desk/usage.py: {name} is {'missing' if name in program else 'no command of the program'}"
    for name in program.keys() & usage.COMMANDS.keys():
        command, taken = usage.COMMANDS[name], program[name]
        if len(command.words.split()) != len(taken.names):
            yield f"tools/desk/usage.py: {name} takes the names {' '.join(taken.names)}, and the usage is {command.words}"
        if sorted(it.name for it in command.options) != sorted(taken.option_names()):
            yield f"tools/desk/usage.py: {name} takes the options {' '.join(taken.option_names()) or 'none'}, and not those listed"
    if usage.COMMANDS["dict"].words.split()[0] != "|".join(dictionary_kinds()):
        yield f"tools/desk/usage.py: the kinds of a dictionary are {' '.join(dictionary_kinds())}"
    rows = "\n".join(it for it in (ROOT / "README.md").read_text().splitlines() if it.startswith("|"))
    shown = {(name, *words.split()) for name, words in PLAIN_CALL.findall(rows) if name in program}
    right = {(name, *("KIND" if "|" in it else it for it in command.words.split())) for name, command in usage.COMMANDS.items()}
    for words in sorted(right - shown):
        yield f"README.md: its table of commands lacks `{' '.join(words)}`"
    for words in sorted(it for it in shown - right if it[1:]):
        yield f"README.md: `{' '.join(words)}` isn't what the program takes"
