"""The page of a report: HTML that needs nothing from outside. Every text is escaped where it is put into the page."""

import os
import shlex
from html import escape
from typing import Iterator

import report_bridges
import report_step as steps
import report_words as words
from report_case import Case, Score, numbers_in, ones_in
from report_graph import drawn_bridges
from report_kinds import kind, nets, unnamed
from report_place import by_net, place, position, spot
from report_wrong_log import Doubt
from usage import INSTALLED

HERE = os.path.dirname(os.path.realpath(__file__))
NETS = 3  # nets of a class that are shown without unfolding the others
NAMED = 16  # patterns or positions that are named without unfolding the others
OPEN_ROWS = 20  # positions in the chapters on them
GROUPS = 200  # groups of failing patterns that have a row
EVIDENCE = {"C": "by the gates", "T": "by a tree", "R": "by a refutation", "O": "open"}
LABELS = (
    "<b>explained</b>: failing patterns that the fault reproduces bit for bit; <b>hit</b>: failing bits it predicts; <b>missed</b>: failing "
    "bits it doesn't; <b>false</b>: bits it predicts to fail that passed."
)
BRIDGES = (
    "<b>explained</b>: failing patterns that the bridge reproduces bit for bit; <b>false</b>: passing patterns that it would fail. No bridge is "
    "listed that closes a loop."
)
CLASSES = (
    " A row is a class, the faults that no pattern of the result tells apart, and has the number of its lowest fault. Pins are counted "
    "from 0. By the gates, by a tree and by a refutation say how a fault was shown to be equal to the lowest, so that no vector tells the two "
    'apart. <span class="open">Open</span>: the fault may differ from the lowest, since a budget ended before that was settled.'
)


def cell(text: str, kind: str = "t", label: str = "") -> str:
    """A cell of a row: its text is HTML, its kind c (count), n (name), p (place) or t (text), and its label the heading of its column."""
    mark = {"c": ' class="count"', "n": ' class="name"', "p": ' class="name place"', "t": ""}[kind]
    return f'<td{mark} data-label="{label}">{text}</td>'


def row(heads: list[str], kinds: str, texts: list[str], number: "int | str | None" = None, mark: str = "") -> str:
    """A row of cells. With a number, a click on it highlights the class or the bridge of that number."""
    lights = f' data-class="{number}"' if number is not None else ""
    return f"<tr{lights}{mark}>{''.join(cell(text, kind, head) for head, kind, text in zip(heads, kinds, texts))}</tr>"


def table(heads: list[str], kinds: str, rows: list[str]) -> str:
    """A table with a head."""
    top = "".join(f'<th class="count">{it}</th>' if kind == "c" else f"<th>{it}</th>" for it, kind in zip(heads, kinds))
    body = "\n".join(rows)
    return f"<table>\n<thead><tr>{top}</tr></thead>\n<tbody>\n{body}\n</tbody>\n</table>"


def folded(shown: list[str], hidden: list[str], said: str) -> str:
    """HTML texts on a line each. The hidden ones are shown when the line `said` is clicked."""
    more = f'<details><summary>{said}</summary>{"<br>".join(hidden)}</details>' if hidden else ""
    return "<br>".join(shown) + more


def listed(texts: list[str], most: int = NAMED) -> str:
    """Some texts, escaped, the last ones folded."""
    shown = escape(", ".join(texts[:most]))
    return shown + folded([], [escape(", ".join(texts[most:]))], f"and {len(texts) - most:,} more") if len(texts) > most else shown


def paragraph(text: str, kind: str = "") -> str:
    """A paragraph of plain text."""
    return f"<p{kind}>{escape(text)}</p>"


def verdict(case: Case, said: words.Verdict) -> str:
    """The verdict: its heading and its sentences, and how much fails."""
    more = "".join(paragraph(it) for it in said.more)
    counts = "".join(f"<p>{kind}: {text}.</p>" for kind, text in observed(case))
    link = '<p class="screen"><a href="#next">Next step</a></p>' if case.failing else ""
    return f'<div class="verdict{"" if case.failing else " good"}"><h2>{escape(said.heading)}.</h2>{link}{more}{counts}</div>'


def about(case: Case, made: str) -> str:
    """What the report is about."""
    netlist, count = case.netlist, words.count
    scan = sum(kind == "cell" for kind, _ in netlist.sources)
    circuit = [count(len(netlist.sources), "source"), count(len(netlist.positions), "position"), count(len(netlist.gates), "gate")]
    circuit += [count(scan, "scan cell"), count(len(case.patterns), "pattern")]
    rows = [("Circuit", escape(", ".join(circuit)))]
    for role, name in case.files.items():
        rows.append((role.capitalize(), f'{escape(name)}<br><span class="name sum">SHA-256 {case.checksums[role]}</span>'))
    rows += [("Valid", escape(", ".join(f"{kind} {number:,}" for kind, number in case.counts().items())))]
    rows += [*coverage(case), ("Made", escape(made))]
    body = "\n".join(f"<tr><th>{kind}</th><td>{text}</td></tr>" for kind, text in rows)
    return f'<h2>Circuit, test and log</h2>\n<table class="about"><tbody>\n{body}\n</tbody></table>'


def coverage(case: Case) -> Iterator[tuple[str, str]]:
    """The coverage, by the names of the field."""
    faults, detected, untestable, aborted = case.coverage()
    yield "Fault coverage", f"{words.share(detected, faults)}: {detected:,} of {words.count(faults, 'fault')} detected"
    yield "Test coverage", f"{words.share(detected, faults - untestable)} of the faults that aren't untestable"
    yield "Untestable", f"{untestable:,}: no vector detects them"
    yield "Aborted", f"{aborted:,}: a budget ended before a vector or a proof was found"


def observed(case: Case) -> Iterator[tuple[str, str]]:
    """What was observed and what fails; red if more than a tenth of the bits do."""
    yield "Logged", f"{case.logged_count:,} of {words.count(len(case.patterns), 'pattern')}, {words.count(case.seen_bits, 'observed bit')}"
    bits = f"{case.wrong_bits:,} of {words.count(case.seen_bits, 'observed bit')}, {words.share(case.wrong_bits, case.seen_bits or 1)}"
    bits = f'<span class="many">{bits}</span>' if case.wrong_bits * 10 > case.seen_bits else bits
    yield "Failing", f"{case.failing_count:,} of {words.count(case.logged_count, 'logged pattern')}; {bits}"


def tried(doubt: Doubt) -> str:
    """What was tried with a log that is doubted."""
    heads, kinds, rows = ["change of the log", "failing patterns", "failing bits", "explained by one class"], "tccc", []
    for it in sorted(doubt.tries, key=lambda it: it.wrong / (it.seen or 1)):
        explained = "–" if it.explained is None else f"{it.explained:,} of {it.failing:,}"
        texts = [escape(it.change), f"{it.failing:,} of {it.logged:,}", words.share(it.wrong, it.seen or 1), explained]
        rows.append(row(heads, kinds, texts, mark=' class="best"' if it is doubt.best else ""))
    said = "After each change the log is compared with what a good chip answers. Suspects are computed for the best change alone."
    return f'<h2>Other orders, polarities and patterns</h2>\n{table(heads, kinds, rows)}\n<p class="note">{said}</p>'


def member(case: Case, number: int) -> str:
    """A fault of a class, with how it is shown to be equal to the lowest; an open one is marked."""
    mark, name = case.result.evidence.get(number), case.names[number]
    how = f", {EVIDENCE.get(mark, mark)}" if mark else ""
    said = escape(f"{place(case.netlist, name)} stuck at {name[-1]} ({number}{how})")
    return f'<span class="open">{said}</span>' if mark == "O" else said


def faults(case: Case, number: int) -> str:
    """The faults of a class by net, nearest to the inputs first; those after the third net are folded."""
    if len(case.members[number]) == 1:
        return "this one only"
    lines = [f"net {escape(net)}: {', '.join(member(case, it) for it in found)}" for net, found in by_net(case, number).items()]
    hidden = sum(len(it) for it in list(by_net(case, number).values())[NETS:])
    return folded(lines[:NETS], lines[NETS:], f"{words.count(hidden, 'more fault')} on {words.count(len(lines) - NETS, 'more net')}")


def where(case: Case, number: int) -> str:
    """Where most of a class lies."""
    found = spot(case, number)
    return f"<b>{escape(found.where)}</b><br>{escape(found.what)}"


def defect(case: Case, it: Score) -> str:
    """The kind of defect that fits a suspect."""
    found = kind(case, it)
    said = escape(found.word + (f": net {nets(found.partners)} at its other end" if found.partners else ""))
    rest = unnamed(found.partners)
    return said + (folded([], [escape(", ".join(rest))], f"the other {words.count(len(rest), 'net')}") if rest else "")


def suspects(case: Case, doubt: "Doubt | None") -> str:
    """A row for each suspect class; those that contradict the log are grey if the first is perfect."""
    heads = ["#", "number", "where", "kind of defect", "explained", "hit", "missed", "false", "faults of the class"]
    kinds, rows = "ccntccccn", []
    perfect = case.perfect(case.suspects[0])
    for rank, it in enumerate(case.suspects, 1):
        texts = [f'<span class="rank">{rank}</span>', f"{it.number}", where(case, it.number), defect(case, it)]
        texts += [f"{count:,}" for count in it[1:]] + [faults(case, it.number)]
        rows.append(row(heads, kinds, texts, it.number, ' class="contradicts"' if perfect and not case.perfect(it) else ""))
    note = LABELS + CLASSES + (" Grey rows contradict the log." if perfect else "")
    note += '<span class="screen"> A click on a row shows its class in the picture.</span>'
    fits = sum(map(case.perfect, case.suspects))
    exact = f"{words.count(fits, 'class fits', 'classes fit')} exactly" if fits else "none fits exactly"
    head = "Suspects, if the log is right" if doubt else f"Suspects: {exact}"
    return f'<h2>{head}</h2>\n{table(heads, kinds, rows)}\n<p class="note">{note}</p>'


def on_bridges(case: Case) -> Iterator[str]:
    """How the exact bridges are to be read, in sentences."""
    if case.exact_count > 1:
        yield "More than one answers alike at these patterns: the log can't tell them apart, but the layout may."
    if case.exact_count > len(case.exact):
        yield f"The first {len(case.exact)} are listed; diatest bridges with --most {case.exact_count} lists all."
    if not case.bridged():
        yield "This is a second reading, since a stuck-at fault fits, too: a net that is shorted to a constant one behaves as if it were stuck."


def bridges(case: Case) -> str:
    """A row for each exact bridge that is listed."""
    heads, kinds, rows = ["#", "kind", "first net", "second net", "explained", "false"], "ctnncc", []
    drawn = len(drawn_bridges(case))
    for rank, it in enumerate(case.exact, 1):
        texts = [f'<span class="rank">{rank}</span>', report_bridges.kind(it), escape(it.first), escape(it.second)]
        rows.append(row(heads, kinds, [*texts, f"{it.explained:,}", f"{it.false:,}"], f"b{rank}" if rank <= drawn else None))
    note = BRIDGES + ('<span class="screen"> A click on a row shows its nets in the picture.</span>' if drawn else "")
    said = "".join(map(paragraph, on_bridges(case)))
    head = words.count(case.exact_count, "fits", "fit")
    return f'<h2>Bridges: {head} exactly</h2>\n{said}{table(heads, kinds, rows)}\n<p class="note">{note}</p>'


def cover(case: Case) -> str:
    """The classes that together explain the failing patterns. The best suspect that is as good takes the place of each."""
    heads, kinds, rows = ["#", "number", "where", "explained", "newly explained", "equally good"], "ccnccn", []
    for (_, others), (_, new) in zip(words.also(case), case.cover):
        number = others[0]
        rank = f'<span class="rank">{case.marks[number].partition("#")[2] or "–"}</span>'
        texts = [rank, f"{number}", where(case, number), f"{ones_in(case.explained[number]):,}", f"{new:,}"]
        rows.append(row(heads, kinds, [*texts, listed([case.marks[it] for it in others[1:]]) or "no other suspect"], number))
    rest = case.failing_count - case.covered
    said = f" {words.count(rest, 'failing pattern')} {'is' if rest == 1 else 'are'} explained by no fault." if rest else ""
    note = "Each class explains the most failing patterns that no class above it explains. If several do, the row has the best suspect of them."
    head = f"{words.count(len(rows), 'class explains', 'classes together explain')} {case.covered:,} of "
    head += words.count(case.failing_count, "failing pattern")
    return f'<h2>Together: {head}</h2>\n{table(heads, kinds, rows)}\n<p>{said}</p>\n<p class="note">{note}</p>'


def vector(case: Case, step: steps.Step) -> str:
    """The pattern that a step asks for, by the names of the sources, folded, and its bits."""
    bits = (case.result.patterns if step.further else case.patterns)[step.pattern]
    rows = []
    for value in "10":
        names = [name for (_, name), bit in zip(case.netlist.sources, bits) if bit == value]
        rows.append(f"<p>At {value}: {escape(', '.join(names)) or 'none'}.</p>")
    bits = f'<p>Bits, in the order of the sources: <span class="name bits">{bits or "-"}</span></p>'
    said = f"Pattern {step.pattern}{' of the result' if step.further else ''}: {words.count(len(case.netlist.sources), 'source')}"
    return f"<details><summary>{said}</summary>{''.join(rows)}{bits}</details>"


def left_open(case: Case) -> str:
    """What the first suspect leaves open, by position."""
    heads, kinds, rows = ["output or scan cell", "missed", "false", "patterns"], "ncct", []
    for it in steps.left_open(case, case.suspects[0].number):
        patterns = listed([str(at) for at in numbers_in(it.missed | it.false)])
        rows.append(row(heads, kinds, [escape(position(case.netlist, it.at)), f"{ones_in(it.missed):,}", f"{ones_in(it.false):,}", patterns]))
    return folded_rows(heads, kinds, rows, "The bits that the first suspect misses, and those it has false") if rows else ""


def folded_rows(heads: list[str], kinds: str, rows: list[str], said: str, begins: str = " open") -> str:
    """A table that is shown when its line is clicked. A short one is shown at once, unless `begins` is empty."""
    begins = begins if len(rows) <= OPEN_ROWS else ""
    return f"<details{begins}><summary>{said}: {words.count(len(rows), 'row')}</summary>{table(heads, kinds, rows)}</details>"


def next_step(case: Case, doubt: "Doubt | None") -> str:
    """The next step."""
    step = steps.next_step(case, doubt)
    body = [paragraph(it) for it in step.said]
    body += [vector(case, step)] if step.pattern is not None else []
    body += [left_open(case)] if case.suspects and not doubt and not case.bridged() else []
    return '<div id="next"></div>\n<h2>The next step</h2>\n' + "\n".join(body)


def drawing(case: Case, svg: str, said: str) -> str:
    """The picture and what it leaves out."""
    key = '<span class="key" style="background:#c62828"></span>first suspect<span class="key" style="background:#ef9a9a"></span>second and third'
    key += '<span class="key" style="background:#fbdcdc"></span>others<span class="key" style="background:#ffb74d"></span>failing position'
    key += '<span class="key" style="background:#6a1b9a"></span>net of a bridge' if case.bridged() else ""
    note = f'<p class="note">From the suspects to the positions that fail.{key}. A dashed line is a chain of gates without branches.'
    note += '<span class="screen"> A click on the picture shows it in full size, and a second one as a whole.</span></p>'
    said = f"<p>{escape(words.capital(said))}{'' if said.endswith('.') else '.'}</p>" if said else ""
    return "<h2>Where they are</h2>\n" + (f'<div class="picture">{svg}</div>\n{note}' if svg else "") + said


def positions(case: Case) -> str:
    """The failing positions by name."""
    heads, kinds, rows = ["position", "output or scan cell", "net", "fails at", "patterns"], "cnnct", []
    for at, word in enumerate(case.wrong):
        if word:
            found = [str(it) for it in numbers_in(word)]
            texts = [f"{at}", escape(position(case.netlist, at)), escape(case.netlist.shown[at]), f"{len(found):,}", listed(found)]
            rows.append((-len(found), at, row(heads, kinds, texts)))
    rows = [it for _, _, it in sorted(rows)]
    head = f"Failing positions: {len(rows):,} of {len(case.wrong):,}"
    rest = folded_rows(heads, kinds, rows[OPEN_ROWS:], "Those that fail less often", "") if rows[OPEN_ROWS:] else ""
    return f"<h2>{head}</h2>\n{table(heads, kinds, rows[:OPEN_ROWS])}{rest}"


def grouped(case: Case) -> list[tuple[tuple[str, ...], int]]:
    """The failing patterns by the suspects that explain them: those that none explains first, then the largest group."""
    groups = {}
    for pattern in numbers_in(case.failing):
        who = tuple(mark for number, mark in case.marks.items() if case.explained[number] >> pattern & 1)
        groups[who] = groups.get(who, 0) | 1 << pattern
    return sorted(groups.items(), key=lambda it: (bool(it[0]), -ones_in(it[1]), it[1]))


def patterns(case: Case) -> str:
    """The failing patterns, grouped by who explains them."""
    heads, kinds, rows = ["explained by", "how many", "patterns", "failing bits", "at"], "tctct", []
    groups = grouped(case)
    for who, word in groups[:GROUPS]:
        bits = [(ones_in(it & word), at) for at, it in enumerate(case.wrong) if it & word]
        at = [position(case.netlist, at) for _, at in sorted(bits, key=lambda it: (-it[0], it[1]))]
        found = [str(it) for it in numbers_in(word)]
        counts = f"{len(found):,}", listed(found), f"{sum(it for it, _ in bits):,}"
        rows.append(row(heads, kinds, [listed(who) or "no suspect", *counts, listed(at, 8)]))
    more = f"<p>{len(groups) - GROUPS:,} more groups aren't listed.</p>" if len(groups) > GROUPS else ""
    head = f"Failing patterns: {case.failing_count:,} of {case.logged_count:,}"
    return f"<h2>{head}</h2>\n{table(heads, kinds, rows)}{more}"


def again(case: Case, page: str) -> str:
    """The commands that make it all again."""
    netlist, result, log, *applied = (shlex.quote(it if not it.startswith("-") else f"./{it}") for it in case.files.values())
    log += "".join(f" --applied {it}" for it in applied)
    command, report = ("diatest", "diatest-report") if INSTALLED else ("./diatest", "tools/report")
    lines = [f"{command} check {netlist} {result}"]
    if case.failing:
        lines += [f"{command} {it} {netlist} {result} {log}" for it in ("suspects", "cover", "bridges")] + [f"{command} faults {netlist}"]
    lines += [f"{report} {netlist} {result} {log} -o {shlex.quote(page)}"]
    return f"<h2>To make it again</h2>\n<pre>{escape(chr(10).join(lines))}</pre>"


def chapters(case: Case, doubt: "Doubt | None", picture: tuple[str, str]) -> list[str]:
    """The chapters for a chip that fails."""
    return [
        *([tried(doubt)] if doubt else []),
        *([suspects(case, doubt)] if case.suspects else []),
        *([bridges(case)] if case.exact else []),
        *([cover(case)] if case.cover else []),
        next_step(case, doubt),
        *([drawing(case, *picture)] if case.suspects else []),
        positions(case),
        patterns(case),
    ]


def page(case: Case, doubt: "Doubt | None", name: str, picture: tuple[str, str], made: str) -> str:
    """The whole page, in its order."""
    log, circuit = (os.path.basename(case.files[it]) for it in ("log", "netlist"))
    title = escape(f"{log}: diagnosis of a chip of {os.path.splitext(circuit)[0]}")
    body = [verdict(case, words.verdict(case, doubt))]
    body += chapters(case, doubt, picture) if case.failing else []
    return document(title, [*body, about(case, made), again(case, name)], "report.css")


def document(title: str, body: list[str], *styles: str) -> str:
    """A page with this title and these parts, all of them HTML, and with these style sheets."""
    style = "".join(open(f"{HERE}/{it}", encoding="utf-8").read() for it in styles)
    script = open(f"{HERE}/report.js", encoding="utf-8").read()
    top = '<!doctype html>\n<html lang="en">\n<head>\n<meta charset="utf-8">\n<meta name="viewport" content="width=device-width">\n'
    top += f"<title>{title}</title>\n"
    top += f"<style>\n{style}</style>\n</head>\n<body>\n"
    return top + "\n\n".join([f"<h1>{title}</h1>", *body]) + f"\n<script>\n{script}</script>\n</body>\n</html>\n"
