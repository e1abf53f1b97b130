"""Shows where a file is refused, and what the rule that it breaks requires."""

import io
import re
import struct
from itertools import islice

import bench
import mends
from telling import bytes_caret, caret, line_start, named, plain_file
from usage import COMMANDS, FileOption, order_of

LONGEST = 1 << 24  # bytes of a line that are read

STATEMENT = "A statement is INPUT(n), OUTPUT(n) or n = GATE(n, n); `#` begins a comment, which ends with its line."
NETLIST = {
    "TooLong": "A netlist has at most 16,777,216 bytes.",
    "BadByte": "Outside comments a netlist has printable ASCII, spaces, tabs and ends of lines. `#` begins a comment.",
    "UnknownGate": STATEMENT + " The gates are AND, NAND, OR, NOR, XOR, XNOR, NOT, BUFF, BUF, DFF, MUX, CONST0 and CONST1.",
    "Expected": "The format doesn't allow this here, or the text ends too early. " + STATEMENT,
    "WrongPins": "NOT, BUFF, BUF and DFF take one pin, MUX takes three, CONST0 and CONST1 none, and any other gate one or more.",
    "DrivenTwice": "A name is driven once, by an INPUT or by a gate, and this one was driven before.",
    "Undriven": "Each pin and each OUTPUT has to be an INPUT or a name that a gate drives. Upper and lower case differ.",
    "Loop": "These gates are a loop without a DFF. The names after the colon are the way round.",
}

RESULT = {
    "TooLong": "A result has at most 2^40 bytes.",
    "Syntax": "The line isn't a record of a result: one space separates its fields, numbers have no leading zeros, and one LF ends it.",
    "Order": "A record of another kind has to be here.",
    "Head": "After `diatest 1` come the numbers of sources, positions and fault numbers of this netlist; no budget is above its limit.",
    "Pattern": "A pattern has a bit for each source, and splits some class.",
    "Member": "Evidence comes in order: it is about the next member that has no mark yet, and about the lowest number of its class.",
    "Roots": "`C` is for two faults with the same root in the collapse; T, R and O are for others.",
    "Table": "Classes and members have to be those that the patterns make, in order, with the marks that the evidence gives.",
    "BadTree": "A tree splits an undecided cube by a free source that can still matter, and has a token for each cube and no more.",
    "LeafOpen": "A `.` closes a cube in which both faults show the same at each position, and in this one they may differ.",
    "WrongCount": "The tree or the log has another number of closed cubes, open cubes or chains than its letter and the budget require.",
    "NoSuchClause": "The chain uses the number of a clause that isn't before it.",
    "NoPivot": "The pivot has to be in the clause so far, and its opposite in the other one.",
    "EmptyEarly": "Only the last chain of an R log may end in the empty clause.",
    "NotEmpty": "The last chain of an R log has to end in the empty clause.",
    "NotFresh": "The end of a chain of an O log has to be a clause that unit propagation couldn't see before.",
}

DICTIONARY = {
    "TooLong": "A dictionary has at most 2^40 bytes.",
    "Short": "The file ends inside a field or a row: it was cut short.",
    "Magic": "A dictionary begins with the bytes DIAT.",
    "Version": "The version is 1 or 2.",
    "Kind": "The kind is 1 (pass/fail), 2 (full) or 3 (same/different).",
    "Value": "The number is outside its bounds, or a row has padding that isn't 0 or repeats an earlier one.",
    "Trailing": "There are bytes after the last row.",
}

PLAN = {
    "TooLong": "A plan that is read has at most 1,073,741,824 bytes.",
    "Syntax": "A line is `adapt 1 positions patterns classes`, `ask pattern branches`, `on bits`, `class number` or `end`, and one LF.",
    "Order": "After the head comes one node, then `end`. A node is a class, or an ask and its branches; a branch is `on bits` and a node.",
    "Value": "A number is outside its bounds, a pattern is asked twice on one way, or bits have another width or are there already.",
}

NUMBER, BITS, SEEN, END = rb"0|[1-9][0-9]*", rb"[01]+|-", rb"[01x]+|-", rb"\n"
PARTIAL = ("rank", "suspects", "cover", "bridges")
SEEN_WORDS = "A line is a pattern's number without leading zeros, one space, the observed bits (x for one that wasn't observed), and one LF"
LIST_WORDS = "A line is a vector's bits, source 0 first, and one LF"
WHOLE_WORDS = "A line is a pattern's number without leading zeros, one space, the bits, and one LF"
LIST_FORM = (BITS, END), LIST_WORDS
SEEN_FORM = (NUMBER, rb" ", SEEN, END), SEEN_WORDS
WHOLE_FORM = (NUMBER, rb" ", BITS, END), WHOLE_WORDS

LARGEST = 4_294_967_295  # of the numbers in texts
HEADS = (  # what a file is by its beginning
    (rb"DIAT", "a dictionary"),
    (rb"diatest 1 ", "a result"),
    (rb"adapt 1 ", "an adaptive plan"),
    (rb"[ \t]*[0-9]+[ \t,;:]+[01xXzZHLhl?._ -]+(\r?\n|$)", "a log"),
    (rb"(?i)(\s|#[^\n]*\n)*(in|out)put\s*\(", "a netlist"),
    (rb"(?s)(\s|//[^\n]*\n|/\*.*?\*/)*(module|`timescale)\s", "Verilog, from which tools/from-verilog makes a netlist"),
)
WANTED = {"netlist": "a netlist", "result": "a result", "dictionary": "a dictionary", "plan": "an adaptive plan", "log": "a log"}
LISTED = (  # what an older file is if its beginning is none of these
    (rb"[01]{2,}\r?(\n|$)", "a list of vectors"),
    (rb"(?s)(.*\n)?[^0-9\n]*[0-9]+[^0-9A-Za-z\n]+[01xXzZHLhl?._ -]+[^0-9A-Za-z\n]*\n", "a log"),
)
NAMES = {
    "netlist": ("NETLIST",),
    "result": ("RESULT",),
    "dictionary": ("DICTIONARY", "OLD"),
    "log": ("LOG", "VECTORS"),
    "plan": ("PLAN",),
    "vectors": ("VECTORS",),
}
SAID = re.compile(r"(netlist|result|dictionary|log|vectors|plan): (?:Evidence )?(\w+) at (?:step (\d+), )?(?:byte (\d+))?(?:, )?(?:line (\d+))?")


def first_wrong(text: bytes, form: tuple[bytes, ...]) -> int:
    """The place at which a line leaves its form, or the line's end if it doesn't."""
    at = 0
    for part in form:
        found = re.compile(part).match(text, at)
        if not found:
            return at
        at = found.end()
    return at


def sizes(kind: str, command: str, files: dict[str, str]) -> "tuple[int | None, int]":
    """How many patterns there are (None for a list of vectors), and how many bits a line has, by the files that belong to the log."""
    if kind == "vectors":
        return None, len(bench.read(files["NETLIST"]).sources)
    if "RESULT" in files:
        with open(files["RESULT"], "rb") as file:
            positions = int(file.readline(80).split()[3])
            patterns = sum(line.startswith(b"pattern ") for line in file)
        if "VECTORS" in files:
            with open(files["VECTORS"], "rb") as file:
                patterns = sum(1 for _ in file)
        return patterns, positions
    with open(files["PLAN" if command == "follow" else "DICTIONARY"], "rb") as file:
        if command == "follow":
            positions, patterns = file.readline(80).split()[2:4]
            return int(patterns), int(positions)
        positions, patterns = struct.unpack(">II", file.read(15)[7:])
        return patterns, positions


def fault_numbers(netlist: bench.Netlist) -> int:
    """How many fault numbers a netlist has."""
    uses = {}
    for _, pins in netlist.gates.values():
        for it in pins:
            uses[it] = uses.get(it, 0) + 1
    for it in netlist.shown:
        uses[it] = uses.get(it, 0) + 1
    return 1 + 2 * (len(netlist.sources) + len(netlist.gates) + sum(it for it in uses.values() if it > 1))


def sizes_in_words(sizes: list) -> str:
    """The three sizes of a circuit."""
    counts = [f"{size} {what}{'' if str(size) == '1' else 's'}" for size, what in zip(sizes, ("source", "position", "fault number"))]
    return f"{counts[0]}, {counts[1]} and {counts[2]}"


def circuit_sizes(files: dict[str, str], text: bytes) -> str:
    """Which sizes a result's head has, and which the netlist has, if they differ."""
    head = text.split()[2:5]
    netlist = bench.read(files["NETLIST"])
    here = [len(netlist.sources), len(netlist.positions), fault_numbers(netlist)]
    if [str(it).encode() for it in here] == head or len(head) < 3:
        return ""
    there = sizes_in_words([it.decode("latin-1") for it in head])
    return f"The result is of another circuit: it has {there}, and {named(files['NETLIST'])} has {sizes_in_words(here)}."


def first_number(name: str) -> "int | None":
    """The number in the first line of a log, if there is one."""
    with open(name, "rb") as file:
        found = re.match(NUMBER, file.readline(LONGEST))
    return int(found[0]) if found else None


def log_order(command: str, files: dict[str, str], name: str, line: int, text: bytes, patterns: int) -> str:
    """What the number of a log's line has to be."""
    number = int(re.match(NUMBER, text)[0])
    if command in PARTIAL:
        beyond = number >= patterns and first_number(name) == 1
        mend = mends.FROM_ONE if beyond else mends.AGAIN if number < patterns else None
        what = "vectors" if "VECTORS" in files else "patterns"
        words = f"The number has to be below {patterns} and above that of the line before: {what} are counted from 0."
        if mend:
            return words + mends.sentence(mend, "It seems that this log", name)
        listed = number >= patterns and what == "patterns" and any(isinstance(it, FileOption) for it in COMMANDS[command].options)
        return words + (" If the log is numbered by a list of vectors, name the list: --applied VECTORS." if listed else "")
    if command == "follow":
        return "The line has to be about the pattern that the plan asks here: `follow` with the lines above names it."
    if line > patterns:
        return f"There are {patterns} patterns, and each has its line already."
    words = f"Line {line} has to have the number {line - 1}: patterns are counted from 0, and `diagnose` needs each of them (`rank` doesn't)."
    mend = mends.FROM_ONE if line == 1 and number == 1 else mends.AGAIN if number < line - 1 else None
    return words + (mends.sentence(mend, "It seems that this log", name) if mend else "")


def log_mend(kind: str, command: str, files: dict[str, str], name: str, text: bytes, line: int) -> str:
    """What is wrong with a line of a log or a list of vectors, and what mends it; else how many bits such a line has."""
    width = sizes(kind, command, files)[1]
    numbered = kind == "vectors" and re.fullmatch(rb"[0-9]+ ([01x]+|-)\r?\n", text)
    if numbered and len(numbered[1]) != width and len(numbered[0].split()[0] + numbered[1]) != width:
        taker = command if "VECTORS" in COMMANDS[command].read else "--applied"
        return f" This file looks like a log, and `{taker}` takes vectors."
    mend = mends.of_line(text, mends.VECTORS if kind == "vectors" else mends.NUMBERED, name, width, line)
    return mend or f" Here a line has {width} bit{'' if width == 1 else 's'}{'' if kind == 'vectors' else ' after its number'}."


def log_syntax(kind: str, command: str, files: dict[str, str], name: str, line: int, text: bytes, other: str) -> tuple[int, str]:
    """Where a line of a log leaves its form, and what the form is. `other` says which other kind of file it is, if it is one."""
    form, words = LIST_FORM if kind == "vectors" else SEEN_FORM if command in PARTIAL else WHOLE_FORM
    number = kind == "log" and re.match(NUMBER, text)
    alone = re.fullmatch(rb"[01 _]+\n?", text) and sum(it in b"01" for it in text) == sizes(kind, command, files)[1]
    if number and int(number[0]) > LARGEST and not alone:
        return 0, f"{words}. Its number is above {LARGEST}, the largest allowed."
    mend = "" if other else log_mend(kind, command, files, name, text, line)
    partial = words == WHOLE_WORDS and "x" in mend + text.decode("latin-1")
    return first_wrong(text, form), f"{words}.{' `rank` and `suspects` take an x.' if partial else ''}{mend}"


def log_place(kind: str, command: str, files: dict[str, str], name: str, rule: str, line: int, text: bytes, other: str) -> tuple[int, str]:
    """The place of the caret in a line of a log or of a list of vectors, and what the rule requires."""
    if rule == "TooLong":
        return 0, "The text has at most 1,073,741,824 bytes."
    if rule == "Syntax":
        return log_syntax(kind, command, files, name, line, text, other)
    patterns, width = sizes(kind, command, files)
    if rule == "Order":
        return 0, log_order(command, files, name, line, text, patterns)
    if rule == "Missing":
        return 0, f"The log ends before the last of the {patterns} patterns. `rank` takes a log in which some are missing."
    begin = text.rfind(b" ") + 1
    bits = 0 if text[begin:] == b"-\n" else len(text) - 1 - begin
    mend = mends.of_line(text, (mends.IN_HEX,), name, width)
    return begin + min(width, bits), f"Each line has {width} bit{'' if width == 1 else 's'}, and this one has {bits}.{mend}"


def result_place(rule: str, step: "int | None", text: bytes) -> int:
    """The place of the caret in a line of a result."""
    field, at = rb"[^ \n]+", 0
    if rule in ("BadTree", "LeafOpen"):
        at = 4 + step
    elif rule in ("Pattern", "Member", "Table"):
        at = 1
    elif rule == "Roots":
        at = 3
    elif rule == "WrongCount":
        at = len(text)
    elif step is not None:
        field, at = rb"(?<= );", step
    found = next(islice(re.finditer(field, text), at, None), None)
    return found.start() if found else len(text.rstrip(b"\n"))


def kind_of(name: str) -> "str | None":
    """What a file seems to be, if that can be seen."""
    file = plain_file(name)
    if not file:
        return None
    with file:
        head = file.read(4096)
    return next((what for begin, what in (*HEADS, *LISTED) if re.match(begin, head)), None)


def another(kind: str, command: str, name: str, file: io.BufferedReader) -> str:
    """How a refused file is encoded, or else what it seems to be, if that is another kind than the one that is asked for."""
    file.seek(0)
    head = file.read(4096)
    encoded = mends.of_file(head, name)
    found = next((what for begin, what in HEADS if re.match(begin, head)), None)
    if encoded or not found or found == WANTED[kind]:
        return encoded
    line, read = order_of(command)
    takes = [WANTED[it] for it, names in NAMES.items() if it in WANTED and set(names) & set(read)]
    order = f" The order is: {line}." if found in takes else ""
    return f" This file looks like {found}.{order}"


def cut_or_feeds(kind: str, name: str, rule: str, text: bytes) -> str:
    """What replaces the rule for a refused line of a result or a plan: that the file was cut short, or how its lines end; empty if neither."""
    if rule == "Order" and not text:
        return "The file ends before its line `end`: it was cut short."
    if rule != "Syntax" or re.fullmatch(mends.FEEDS.form, text):
        return mends.of_line(text, (mends.FEEDS,), name).strip() if rule == "Syntax" else ""
    if text == b"end":
        return mends.of_line(text, (mends.OPEN,), name).strip()
    whole = text.endswith(b"\n") or len(text) == LONGEST
    return "" if whole else "The file ends inside this line: it was cut short."


def in_text(
    kind: str, command: str, files: dict[str, str], name: str, rule: str, step: "int | None", line: int, file: io.BufferedReader, other: str
) -> tuple[int, str]:
    """The place of the caret in a log, a result or a plan, and what the rule requires. `other` says which other kind of file it is, if any."""
    start = line_start(file, line)
    file.seek(start)
    text = file.readline(LONGEST)
    if kind in ("log", "vectors"):
        place, sentence = log_place(kind, command, files, name, rule, line, text, other)
        return start + place, sentence
    if kind == "plan":
        place, sentence = 0, PLAN.get(rule, "")
    else:
        place, sentence = result_place(rule, step, text), RESULT.get(rule, "")
    if kind == "result" and rule == "Head":
        sentence = circuit_sizes(files, text) or sentence
    return start + place, cut_or_feeds(kind, name, rule, text) or sentence


def explain(command: str, files: dict[str, str], console: str) -> str:
    """A text that shows the place of a refusal on the console and what the rule requires; empty if the console has no refusal."""
    said = SAID.match(console)
    if not said:
        return ""
    rule, label = said[2], next(it for it in NAMES[said[1]] if it in files)
    kind, name = "vectors" if label == "VECTORS" else said[1], files[label]  # `sim` has a list, and says `log`
    step, byte, line = (int(it) if it else None for it in said.group(3, 4, 5))
    file = plain_file(name)
    if file is None:
        return f"diatest: {named(name)} can't be read a second time, to show the place\n"
    with file:
        other = another("log" if kind == "vectors" else kind, command, name, file)
        if kind == "dictionary":
            place, shown, sentence = f"byte {byte}", bytes_caret(file, byte), DICTIONARY.get(rule, "")
        else:
            sentence = NETLIST.get(rule, "")
            if kind != "netlist":
                byte, sentence = in_text(kind, command, files, name, rule, step, line, file, other)
            place, shown = f"line {line}", caret(file, byte)
        return f"diatest: {named(name)}, {place}:\n{shown}\n{sentence}{other}\n"
