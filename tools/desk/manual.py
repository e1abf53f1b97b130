"""The page for `man`, made from the table of commands.

manual.py prints it."""

from __future__ import annotations

from usage import COMMANDS, FORCED, HELPERS, FileOption, first_line

STATUSES = (
    ("0", "the work is done"),
    ("1", "the program couldn't be built, or isn't there"),
    ("2", "the words aren't understood, or the run would write over a file that it reads or one of another kind"),
    ("3", "the netlist is refused"),
    ("4", "the result is refused"),
    ("5", "the dictionary is refused"),
    ("6", "the log or the list of vectors is refused"),
    ("7, 8", "a read or a write failed"),
    ("9", "there was no memory"),
    ("10", "the plan is refused"),
)
WHAT = """A netlist is a combinational or full-scan circuit in the ISCAS .bench format. `gen` makes a result of it: test patterns, the classes of
single stuck-at faults that they distinguish, and a proof for each pair of faults that no vector distinguishes. From a result and the log of a
tester it finds the nets that may be at fault. A run writes a new file beside the name, and renames it when the run has succeeded: a run that
fails or is stopped leaves an older file as it was. If a file is refused, standard error has the line, a caret, and a command that mends it."""


def roff(text: str) -> str:
    """A text, escaped for the page."""
    text = text.replace("\\", "\\e").replace("-", "\\-").replace("`", "").replace("'", "\\(aq")
    return "\\&" + text if text.startswith(".") else text


def tagged(tag: str, text: str) -> list[str]:
    """A paragraph with a tag."""
    return [".TP", f".B {roff(tag)}", roff(text)]


def page(version: str) -> str:
    """The page."""
    lines = [f'.TH DIATEST 1 "" "{roff(version)}" "User Commands"', ".SH NAME"]
    lines += ["diatest \\- test patterns that distinguish stuck\\-at faults, and diagnosis by them", ".SH SYNOPSIS"]
    for name in COMMANDS:
        lines += [f".B {roff(first_line(name))}", ".br"]
    lines += [".B diatest help \\fICOMMAND\\fP", ".br", ".B diatest \\-\\-version", ".SH DESCRIPTION"]
    lines += [roff(it) for it in WHAT.splitlines()]
    lines.append(".SH COMMANDS")
    for name, command in COMMANDS.items():
        lines += tagged(f"{name} {command.words}", command.work[:1].upper() + command.work[1:] + ".")
        for it in command.options:
            limits = "" if isinstance(it, FileOption) else f" ({it.least} to {it.most}, default {it.default})"
            lines += [".RS", *tagged(f"--{it.name} {it.label}", it.work + limits), ".RE"]
    lines += [".SH OPTIONS OF EACH COMMAND", *tagged("--help, -h", "tells the words of the command")]
    lines += [*tagged("--force", f"{FORCED} (for commands that write a file)"), ".SH HELPERS"]
    for name, helper in HELPERS.items():
        lines += tagged(f"diatest-{name} {helper.words}", helper.work[:1].upper() + helper.work[1:] + ".")
    lines.append(".SH EXIT STATUS")
    for status, meaning in STATUSES:
        lines += tagged(status, meaning)
    lines += [".SH ENVIRONMENT", *tagged("DIATEST", "names the program to run")]
    return "\n".join(lines) + "\n"


if __name__ == "__main__":
    print(page("diatest"), end="")
