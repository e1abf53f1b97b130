"""The commands and the helpers: which words they take, which files they read and write, and the usage of each.

usage.py [COMMAND] prints the usage on standard error. If there is no such command, it says so, and the status is 2."""

from __future__ import annotations

import os
import sys
from typing import Container, NamedTuple

from telling import say

HERE = os.path.dirname(os.path.dirname(os.path.dirname(os.path.realpath(__file__))))
INSTALLED = os.path.exists(os.path.join(HERE, "program"))
HELPER = "DIATEST_HELPER"  # the variable by which a helper that runs a command gives its name


class Option(NamedTuple):
    name: str
    most: int
    default: int
    work: str
    least: int = 0
    label = "N"

    def told(self) -> str:
        return f"{self.least} to {self.most}, default {self.default}: {self.work}"


class FileOption(NamedTuple):
    name: str
    label: str  # what the usage calls the file, which is read before the log
    work: str

    def told(self) -> str:
        return self.work


class Command(NamedTuple):
    words: str
    read: str  # the names among the words that are read, in this order
    made: str  # those that are written
    work: str
    options: tuple = ()


class Helper(NamedTuple):
    words: str
    work: str


# printed: numbers
NUMBERS = {
    "blocks": (0, 65_536, 4),
    "cubes": (0, 1_048_576, 64),
    "conflicts": (0, 100_000, 2_000),
    "n": (1, 2_000, None),
    "within": (0, 1_000_000, 0),
    "most": (1, 1_000_000, 20),
}
# end


def option(name: str, work: str) -> Option:
    """An option with a number, as the program takes it."""
    least, most, default = NUMBERS[name]
    return Option(name, most, default, work, least)


FORCED = "allows to write over a file that the run reads, over one of another kind, and over one in a folder that takes no new file"
BUDGETS = (
    option("blocks", "how many blocks of 64 vectors of the stream are tried"),
    option("cubes", "how many closed cubes are spent on a pair of faults before the solver gets it"),
    option("conflicts", "how many clauses the solver learns for a pair of faults before the pair is left open"),
)
WITHIN = option("within", "lists also the numbers with up to N mismatches more than the least")
MOST = option("most", "how many suspects are listed at most")
APPLIED = FileOption("applied", "VECTORS", "the list of vectors by which the log is numbered, in place of the result's patterns")
BRIDGES = (
    option("most", "how many bridges are listed at most"),
    option("within", "how many failing patterns a bridge may leave unexplained"),
    APPLIED,
)

COMMANDS = {
    "gen": Command(
        "NETLIST RESULT", "NETLIST", "RESULT", "generates a result for the netlist: patterns, classes of faults, and evidence", BUDGETS
    ),
    "grade": Command(
        "NETLIST VECTORS RESULT",
        "NETLIST VECTORS",
        "RESULT",
        "keeps the vectors of a list that distinguish faults, and writes their result; it searches for no further pattern",
    ),
    "topup": Command(
        "NETLIST VECTORS RESULT",
        "NETLIST VECTORS",
        "RESULT",
        "keeps the vectors of a list that distinguish faults, and generates patterns and evidence for faults that they leave together",
        BUDGETS[1:],
    ),
    "check": Command("NETLIST RESULT", "NETLIST RESULT", "", "says whether the result is valid for the netlist"),
    "dict": Command(
        "passfail|full|samediff NETLIST RESULT DICTIONARY",
        "NETLIST RESULT",
        "DICTIONARY",
        "checks the result, and writes the dictionary of this kind for its patterns",
    ),
    "compact": Command(
        "NETLIST RESULT NEW", "NETLIST RESULT", "NEW", "checks the result, and writes it without the patterns that its classes don't need"
    ),
    "convert": Command("OLD NEW", "OLD", "NEW", "writes a dictionary of version 1 or 2 as one of version 2"),
    "diagnose": Command(
        "DICTIONARY LOG", "DICTIONARY LOG", "", "lists the faults whose entry in the dictionary is that of the log"
    ),
    "rank": Command(
        "DICTIONARY LOG", "DICTIONARY LOG", "", "lists the faults that a log contradicts least; the log may have gaps", (WITHIN,)
    ),
    "adapt": Command(
        "NETLIST RESULT PLAN",
        "NETLIST RESULT",
        "PLAN",
        "checks the result, and writes a plan: which pattern to apply next, given the answers so far",
    ),
    "follow": Command("PLAN LOG", "PLAN LOG", "", "says where the answers so far lead in a plan"),
    "expect": Command(
        "NETLIST RESULT LOG",
        "NETLIST RESULT",
        "LOG",
        "checks the result, and writes what a good chip answers to its patterns",
        (APPLIED,),
    ),
    "suspects": Command(
        "NETLIST RESULT LOG",
        "NETLIST RESULT LOG",
        "",
        "checks the result, and lists the classes of faults that explain most failing patterns of a log, best first",
        (MOST, APPLIED),
    ),
    "cover": Command(
        "NETLIST RESULT LOG",
        "NETLIST RESULT LOG",
        "",
        "checks the result, and lists classes of faults that together explain the failing patterns of a log",
        (APPLIED,),
    ),
    "bridges": Command(
        "NETLIST RESULT LOG",
        "NETLIST RESULT LOG",
        "",
        "checks the result, and lists the bridges of two nets that explain the failing patterns of a log, best first",
        BRIDGES,
    ),
    "faults": Command("NETLIST", "NETLIST", "", "lists the faults: number, number of the root in the collapse, and name"),
    "sim": Command(
        "NETLIST VECTORS", "NETLIST VECTORS", "", "prints the circuit's answer to each vector, and the answer of each fault whose answer differs"
    ),
    "synth": Command("N NETLIST RESULT", "", "NETLIST RESULT", "writes a netlist of N cells, {} to {}, and a result for it".format(*NUMBERS["n"])),
}


HELPERS = {
    "report": Helper("NETLIST RESULT LOG [--applied VECTORS] [-o FILE.html]", "writes a page that says what a tester's log points to"),
    "volume": Helper(
        "NETLIST RESULT LOG .. [--applied LIST] [-o FOLDER] [--jobs N] [--sshlogin HOSTS]",
        "diagnoses the chips of a lot, each by its log, and writes one page on all of them, with tables",
    ),
    "pins": Helper("NETLIST", "says which input, output or scan cell each bit of a pattern or a log is"),
    "where": Helper("NETLIST RESULT NUMBER ..", "says what is known of a fault: its place, its class, and where it shows"),
    "faillog": Helper(
        "NETLIST EXPECTED DATALOG [--map FILE] [--first N] [--last N] [--limit N | --pin-limit N]",
        "prints the log that a tester's list of failing bits gives",
    ),
    "coverage": Helper(
        "NETLIST RESULT [--applied LIST] [--json | --faults | --curve] [--only FILE] [--svg FILE]",
        "counts the faults that patterns detect, and the classes into which they distinguish them",
    ),
    "patterns": Helper("RESULT LIST [--both | --found]", "says which patterns of a result are which vectors of a list, and which were found"),
    "constrain": Helper("NETLIST LIST PIN=0|1 .. [-o NAME]", "writes the netlist and the list with some inputs held at a value"),
    "chip": Helper("NETLIST RESULT DEFECT [LINE ..]", "prints the log of a chip with a defect, to try with"),
    "from-verilog": Helper("[--top MODULE] FILE.v ..", "prints the netlist of a Verilog design"),
}


def places_of(command: str, words: list[str]) -> dict[str, int]:
    """The places of the names among the words of an understood command, by what its usage calls them."""
    places, plain, value = [], False, False
    for place, word in enumerate(words):
        if value:
            value = False
        elif not plain and word == "--":
            plain = True
        elif not plain and word.startswith("-") and word != "-":
            value = "=" not in word
        else:
            places.append(place)
    return dict(zip(COMMANDS[command].words.split(), places))


def files_of(command: str, words: list[str]) -> dict[str, str]:
    """The files among the words of an understood command, also those of its options, by what its usage calls them."""
    files = {label: words[at] for label, at in places_of(command, words).items()}
    labels = {f"--{it.name}": it.label for it in COMMANDS[command].options if isinstance(it, FileOption)}
    behind = words[1:] + [""]
    for word, after in zip(words[: words.index("--")] if "--" in words else words, behind):
        option, equals, value = word.partition("=")
        if option in labels:
            files[labels[option]] = value if equals else after
    return files


def read_by(command: str, files: Container[str]) -> list[str]:
    """What a run reads, in this order, by what its usage calls it."""
    read = COMMANDS[command].read.split()
    given = [it.label for it in COMMANDS[command].options if isinstance(it, FileOption) and it.label in files]
    at = read.index("LOG") if "LOG" in read else len(read)
    return read[:at] + given + read[at:]


def first_line(name: str) -> str:
    """The words of a command."""
    command = COMMANDS[name]
    return " ".join(["diatest", name, command.words, *(f"[--{it.name} {it.label}]" for it in command.options)])


def helper_line(name: str) -> str:
    """The words of a helper."""
    return f"{'diatest-' if INSTALLED else 'tools/'}{name} {HELPERS[name].words}"


def order_of(command: str) -> tuple[str, list[str]]:
    """The words of a command in their order, and the names of what it reads; those of the helper, if one runs the command."""
    helper = os.environ.get(HELPER)
    if helper in HELPERS:
        line = helper_line(helper).partition(" [")[0]
        return line, line.split()
    return f"diatest {command} {COMMANDS[command].words}", COMMANDS[command].read.split()


def usage(name: str | None = None) -> str:
    """The usage of a command or a helper, or of all."""
    if name in HELPERS:
        return f"usage: {helper_line(name)}\n{HELPERS[name].work}\n"
    if name not in COMMANDS:
        lines = [("       " if at else "usage: ") + first_line(it) for at, it in enumerate(COMMANDS)]
        lines += ["       diatest help COMMAND", "       diatest --version"]
        lines += [("         " if at else "helpers: ") + helper_line(it) for at, it in enumerate(HELPERS)]
        return "\n".join([*lines, ""])
    lines = [f"usage: {first_line(name)}", COMMANDS[name].work]
    options = COMMANDS[name].options
    told = [(f"--{it.name} {it.label}", it.told()) for it in options]
    told += [("--force", FORCED)] if COMMANDS[name].made else []
    wide = max((len(it) for it, _ in told), default=0)
    lines += [f"  {it:{wide}}  {work}" for it, work in told]
    return "\n".join([*lines, ""])


def main(words: list[str]) -> int:
    """Prints the usage that words ask for. Returns the status."""
    from words import unknown  # imported here, since it reads the tables of this module

    if not words or words[0] in (*COMMANDS, *HELPERS, "help", "-h", "--help"):
        say(usage(*words[:1]))
        return 0
    say(f"diatest: {unknown(words[0])}. `diatest help` lists all of them.\n")
    return 2


if __name__ == "__main__":
    sys.exit(main(sys.argv[1:]))
