"""The picture of a report: what is drawn of the circuit, in the language of Graphviz, and the SVG that `dot` makes from that."""

import re
import shutil
import subprocess
from html import escape

from report_bridges import end
from report_case import Case
from report_graph import part, reached, site
from report_place import driver, position

PATIENCE = 60  # seconds for dot
REDS = (("#c62828", "#ffffff"), ("#ef9a9a", "#000000"), ("#fbdcdc", "#000000"))  # of the first, the next and the other suspects
ORANGE = "#ffb74d"
VIOLET = ("#6a1b9a", "#ffffff")  # of what a bridge does to a net
PINS = 8  # of a gate that are all drawn with their names; of more, those that are at fault or that a drawn edge enters
HEAD = """digraph suspects {
rankdir=LR; nodesep=0.12; ranksep=0.25; bgcolor=transparent;
node [shape=plain fontname="Helvetica,Arial,sans-serif" fontsize=10];
edge [arrowsize=0.5 color="#607080"];"""


def label(text: str) -> str:
    """A text for a node's table. Backslashes are doubled, since dot would take one for the beginning of an escape."""
    return escape(text).replace("\\", "\\\\")


def cell(text: str, colours: "tuple[str, str] | None" = None, port: "str | None" = None, rows: int = 1, columns: int = 1) -> str:
    """A cell of a node's table."""
    fill, ink = colours or ("#ffffff", "#000000")
    port = "" if port is None else f' PORT="{port}"'
    rows = f' ROWSPAN="{rows}"' if rows > 1 else ""
    rows += f' COLSPAN="{columns}"' if columns > 1 else ""
    return f'<TD BGCOLOR="{fill}"{port}{rows}><FONT COLOR="{ink}">{text}</FONT></TD>'


def table(rows: list[str]) -> str:
    """A node of rows of cells."""
    return f'<<TABLE BORDER="0" CELLBORDER="1" CELLSPACING="0" CELLPADDING="3">{"".join(f"<TR>{it}</TR>" for it in rows)}</TABLE>>'


class Picture:
    """The drawn part of a case, with what is at fault at each node: for each pin, or for the line itself, ranks and stuck values; and the
    bridges of each line."""

    def __init__(self, case: Case) -> None:
        self.case, self.part = case, part(case)
        self.at_fault, self.nodes = {}, {}
        for rank, number in enumerate(self.part.numbers, 1):
            for it in self.part.faults[number]:
                kind, _, *rest, value = case.names[it]
                where = int(rest[1]) if kind == "G" else None
                self.at_fault.setdefault(site(case.names[it]), {}).setdefault(where, []).append((rank, case.marks[number], value))
        self.names = {it: f"d{at}" for at, it in enumerate(sorted(self.part.nodes, key=str))}
        self.shorts = {}
        for it in self.part.bridges:
            for line in it.lines():
                self.shorts.setdefault(line, []).append(end(it, line))
        self.starts = {number: {site(case.names[it]) for it in found} for number, found in self.part.faults.items()}
        self.starts |= {f"b{rank}": {*it.lines()} for rank, it in enumerate(self.part.bridges, 1)}
        self.reach = {number: reached(self.part.edges, found) for number, found in self.starts.items()}

    def stuck(self, node: "str | int", where: "int | None", text: str) -> "tuple[str, tuple[str, str] | None]":
        """The text of a pin or line with the marks and values of its faults, and its colours; None for the colours if it has no fault."""
        found = self.at_fault.get(node, {}).get(where)
        if not found:
            return label(text), None
        values = {}
        for _, mark, value in found:
            values.setdefault(value, []).append(mark)
        said = "<BR/>".join(f"{' '.join(marks)}: {label(text)} at {value}" for value, marks in sorted(values.items()))
        best = min(rank for rank, _, _ in found)
        return f"<B>{said}</B>", REDS[0 if best == 1 else 1 if best <= 3 else 2]

    def pins(self, gate: str) -> list[tuple[int, str]]:
        """The pins of a gate that are drawn."""
        word_pins = list(enumerate(self.case.netlist.gates[gate][1]))
        if len(word_pins) <= PINS:
            return word_pins
        used = {it.pin for it in self.part.edges if it.head == gate} | set(self.at_fault.get(gate, {}))
        return [it for it in word_pins if it[0] in used]

    def short(self, name: str, columns: int = 1) -> list[str]:
        """The rows of a line's bridges."""
        said = "<BR/>".join(map(label, self.shorts.get(name, ())))
        return [cell(f"<B>{said}</B>", VIOLET, columns=columns)] if said else []

    def line(self, name: str) -> str:
        """The table of a line: a gate with its pins if a suspect is there, else its word and name; and its bridges."""
        word = driver(self.case.netlist, name)
        text, colours = self.stuck(name, None, name)
        gate = f'<FONT POINT-SIZE="8">{word}</FONT><BR/>{text}'
        faulty = name in self.at_fault and name in self.case.netlist.gates
        pins = [cell(*self.stuck(name, pin, line), f"p{pin}") for pin, line in self.pins(name)] if faulty else []
        if not pins:
            return table([cell(gate, colours, "y"), *self.short(name)])
        return table([pins[0] + cell(gate, colours, "y", len(pins)), *pins[1:], *self.short(name, 2)])

    def goal(self, at: int) -> str:
        """The table of a failing position, with its count."""
        text, colours = self.stuck(at, None, position(self.case.netlist, at))
        fails = bin(self.case.wrong[at]).count("1")
        said = f'<FONT POINT-SIZE="8">position {at}: fails {fails:,} {"time" if fails == 1 else "times"}</FONT>'
        fill = (ORANGE, "#000000")
        rows = [cell(f"<B>{label(position(self.case.netlist, at))}</B><BR/>{said}", fill, "p0")]
        return table([cell(text, colours), *rows] if colours else rows)

    def lit(self, node: "str | int") -> str:
        """The classes and bridges that are at a node and those in whose cone it is, as the words of a class attribute."""
        words = [f"at{number}" for number, found in self.starts.items() if node in found]
        return " ".join(words + [f"in{number}" for number, found in self.reach.items() if node in found])

    def first(self, node: "str | int") -> str:
        """More such words, if the first suspect or a bridge is at the node, and if the node is a failing position."""
        ranks = [rank for found in self.at_fault.get(node, {}).values() for rank, _, _ in found]
        return ("first " if 1 in ranks else "") + ("bridge " if node in self.shorts else "") + ("goal " if isinstance(node, int) else "")

    def words(self) -> str:
        """The input of dot."""
        said = [HEAD]
        for node, name in self.names.items():
            rows = self.line(node) if isinstance(node, str) else self.goal(node)
            said.append(f'{name} [id="{name}" label={rows} class="{self.first(node)}{self.lit(node)}"];')
        for at, it in enumerate(self.part.edges):
            port = f"p{it.pin}" if isinstance(it.head, int) or it.head in self.at_fault else "y"
            if isinstance(it.head, str) and it.head in self.at_fault and it.pin not in dict(self.pins(it.head)):
                port = "y"
            chain = " style=dashed" if it.through else ""
            said.append(f'{self.names[it.tail]}:y -> {self.names[it.head]}:{port}:w [id="e{at}" class="{self.lit(it.tail)}"{chain}];')
        return "\n".join([*said, "}\n"])

    def title(self, kind: str, at: int) -> str:
        """What is shown if the pointer rests on a node or an edge."""
        if kind == "e":
            it = self.part.edges[at]
            head = it.head if isinstance(it.head, str) else position(self.case.netlist, it.head)
            return " → ".join([it.tail, *it.through, head])
        node = list(self.names)[at]
        if isinstance(node, int):
            return f"position {node}: {position(self.case.netlist, node)}"
        word, pins = self.case.netlist.gates.get(node, (driver(self.case.netlist, node), []))
        return f"{node} = {word}({', '.join(pins)})" if pins else f"{word} {node}"

    def svg(self, drawn: str) -> str:
        """The SVG of what dot drew, with titles that name lines."""
        titled = re.compile(r'<g id="([de])([0-9]+)"([^>]*)>\s*<title>[^<]*</title>')
        drawn = drawn[drawn.index("<svg") :].replace("<title>suspects</title>\n", "")
        return titled.sub(lambda it: f'<g id="{it[1]}{it[2]}"{it[3]}><title>{escape(self.title(it[1], int(it[2])))}</title>', drawn)


def picture(case: Case) -> tuple[str, str]:
    """The SVG, and in words what it leaves out; or an empty text, and why there is no SVG."""
    if not case.members:
        return "", "There is no suspect to draw."
    if not shutil.which("dot"):
        return "", "There is no picture, since Graphviz's dot isn't on the PATH (Debian's package graphviz)."
    drawing = Picture(case)
    try:
        it = subprocess.run(["dot", "-Tsvg"], input=drawing.words(), capture_output=True, text=True, encoding="utf-8", timeout=PATIENCE)
    except subprocess.TimeoutExpired:
        return "", f"There is no picture, since dot took more than {PATIENCE} s."
    if it.returncode:
        return "", f"There is no picture, since dot ended with status {it.returncode}."
    return drawing.svg(it.stdout), drawing.part.left_out
