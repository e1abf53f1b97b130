"""The page of a lot: HTML that needs nothing from outside. Every text is escaped where it is put into the page."""

from __future__ import annotations

import os
import shlex
from html import escape
from typing import Any, Callable, Dict, Iterable, List, Sequence

import report_bridges
from report_case import Bridge
from report_page import document, folded, paragraph, row, table
from report_place import driver, position
from report_words import count
from volume_chip import Test
from volume_lot import Lot
from volume_sums import Fails, Row, kinds
from volume_words import TEXTS, Sums, by_kinds, percent, sentences, times

OPEN_ROWS = 20  # rows of a table that are shown without unfolding the others
MOST_ROWS = 2000  # rows of a table on the page: the files have all
NAMED = 2  # suspects or bridges of a chip that are shown without unfolding the others
WEIGHTS = (
    "A chip counts one, in equal parts over its equally good callouts: the suspects as good as the first if that explains all failing patterns, "
    "else the classes that explain them together. A callout counts in equal parts for the members of its class, and these for their nets. "
    "<b>by chance</b>: the share that a net would have if all faults that the patterns detect were as likely; <b>ratio</b>: how many times that. "
    "The upper bar is the share, the lower one that by chance."
)
PAIRS = (
    "A chip counts one, in equal parts over the bridges that predict every observed bit, if no stuck-at fault does. <b>by chance</b>: the share "
    "of each pair of nets if all were as likely. The layout says which of these nets lie side by side."
)


def long_table(heads: Sequence[str], kinds_of: str, rows: List[str], file: str) -> str:
    """A table whose rows after the first ones are folded. `file` has the rows that the page leaves out."""
    shown, rest = rows[:OPEN_ROWS], rows[OPEN_ROWS:MOST_ROWS]
    text = table(heads, kinds_of, shown)
    if rest:
        text += f"<details><summary>{count(len(rest), 'more row')}</summary>{table(heads, kinds_of, rest)}</details>"
    left = len(rows) - len(shown) - len(rest)
    return text + (paragraph(f"{file} has {count(left, 'more row')}.") if left else "")


def bar(part: float, kind: str = "") -> str:
    """A bar that has this part of the width."""
    return f'<div class="bar{kind}" style="width:{100 * part:.1f}%"></div>'


def bars(share: float, expected: float, most: float) -> str:
    """Two bars: a share, and what chance would give, both relative to the largest share of a table."""
    return f'<div class="bars">{bar(share / most)}{bar(min(expected, most) / most, " chance")}</div>'


def pareto(title: str, heads: Sequence[str], name: Callable[[Row], List[str]], rows: List[Row], note: str, file: str) -> str:
    """A Pareto: a row for each net or pair of nets."""
    heads, texts = ["#", *heads, "chips", "weight", "share", "by chance", "ratio", "share and chance"], []
    kinds_of = "c" + "n" * (len(heads) - 7) + "ccccct"
    most = rows[0].share
    for rank, it in enumerate(rows, 1):
        shares = [f"{it.chips:,}", f"{it.weight:,.2f}", percent(it.share), percent(it.expected), times(it.ratio), bars(it.share, it.expected, most)]
        texts.append(row(heads, kinds_of, [f'<span class="rank">{rank}</span>', *map(escape, name(it)), *shares]))
    return f'<h2>{title}</h2>\n{long_table(heads, kinds_of, texts, file)}\n<p class="note">{note}</p>'


def nets(test: Test, sums: Sums) -> str:
    """The Pareto of nets."""
    title = f"Nets: {count(sums.weighed(), 'chip')} on {count(len(sums.nets), 'net')}"
    return pareto(title, ["net", "driven by"], lambda it: [it.nets[0], driver(test.netlist, it.nets[0])], sums.nets, WEIGHTS, "nets.csv")


def bridges(sums: Sums) -> str:
    """The Pareto of bridges."""
    fits = "a bridge fits" if sums.bridged() == 1 else "bridges fit"
    title = f"Bridges: {fits} {count(sums.bridged(), 'chip')} exactly"
    return pareto(title, ["first net", "second net"], lambda it: list(it.nets), sums.bridges, PAIRS, "bridges.csv")


def fails(title: str, head: str, name: Callable[[int], str], rows: List[Fails]) -> str:
    """How many chips fail at each pattern or position."""
    heads, kinds_of = [head, "chips that fail", "of those that logged it", "share", "share as a bar"], "nccct"
    texts = []
    for it in rows:
        share = it.chips / it.logged
        counts = [f"{it.chips:,}", f"{it.logged:,}", percent(share), f'<div class="bars">{bar(share)}</div>']
        texts.append(row(heads, kinds_of, [escape(name(it.at)), *counts]))
    return f"<h2>{title}</h2>\n{long_table(heads, kinds_of, texts, 'volume.json')}"


def of_kinds(sums: Sums) -> str:
    """How many chips there are of each kind."""
    heads, kinds_of = ["kind", "chips", "share", "what it means"], "tcct"
    rows = []
    for kind, number in kinds(sums.answers):
        alone = kinds((it for it in sums.answers if it["kind"] == kind and it.get("stuck_at", kind) not in ("", kind)), "stuck_at")
        said = TEXTS[kind] + (f"; by stuck-at faults alone {by_kinds(alone)}" if alone else "")
        rows.append(row(heads, kinds_of, [kind, f"{number:,}", percent(number / len(sums.answers)), said]))
    return f"<h2>Kinds of chips</h2>\n{table(heads, kinds_of, rows)}"


def suspects(answer: Dict[str, Any]) -> str:
    """The callouts of a chip by place: equally good ones, or the classes of a cover."""
    groups = answer.get("places", [])
    joined = " or " if len(groups) == 1 else " and "
    places = [escape(it) for group in groups for it in group]
    lines = [("" if at == 0 else joined.lstrip()) + it for at, it in enumerate(places)]
    return folded(lines[:NAMED], lines[NAMED:], f"{len(lines) - NAMED:,} more")


def bridge(answer: Dict[str, Any]) -> str:
    """The exact bridges of a chip."""
    lines = [escape(report_bridges.sentence(Bridge(*it, 0, 0))) for it in answer.get("bridges", [])]
    return folded(lines[:1], lines[1:], f"{answer.get('exact_bridges', 0) - 1:,} more")


def chips(sums: Sums) -> str:
    """A row for each chip."""
    heads, kinds_of, rows = ["log", "kind", "patterns that fail", "headline", "suspects", "bridges that fit exactly"], "ntcttt", []
    for it in sums.answers:
        failing = f"{it['failing']:,} of {it['logged']:,}" if "failing" in it else "–"
        said = it.get("headline") or it.get("said", "")
        texts = [escape(it["log"]), f'<span class="kind">{it["kind"]}</span>', failing, escape(said), suspects(it), bridge(it)]
        rows.append(row(heads, kinds_of, texts))
    return f"<h2>Chips</h2>\n{long_table(heads, kinds_of, rows, 'chips.csv')}"


def wrong(sums: Sums) -> str:
    """The logs that look wrong, and why."""
    heads, kinds_of = ["log", "why"], "nt"
    rows = [row(heads, kinds_of, [escape(it["log"]), escape(" ".join([f"{it['headline']}.", *it["more"]]))]) for it in sums.wrong()]
    note = "They count for no net, no bridge, no pattern and no position, unless a stuck-at fault fits exactly, as a reset that is stuck."
    return f'<h2>Logs that look wrong: {len(rows):,}</h2>\n{long_table(heads, kinds_of, rows, "chips.csv")}\n<p class="note">{note}</p>'


def unanswered(sums: Sums) -> str:
    """The logs that are refused, can't be read or have no answer, and why."""
    heads, kinds_of, rows = ["log", "kind", "status", "why"], "ntct", []
    for it in sums.answers:
        if it["status"]:
            told = f'<details><summary>where</summary><div class="told name">{escape(it["told"])}</div></details>' if it.get("told") else ""
            rows.append(row(heads, kinds_of, [escape(it["log"]), it["kind"], f"{it['status']}", escape(it["said"]) + told]))
    return f"<h2>Logs without a diagnosis: {len(rows):,}</h2>\n{long_table(heads, kinds_of, rows, 'chips.csv')}" if rows else ""


def about(test: Test, sums: Sums, made: str) -> str:
    """What the page is about."""
    lot, netlist = test.lot, test.netlist
    parts = [count(len(netlist.sources), "source"), count(len(netlist.positions), "position"), count(len(netlist.gates), "gate")]
    numbered = "pattern" if lot.applied is None else "vector"
    rows = [("Circuit", escape(", ".join([*parts, count(len(test.patterns), numbered)])))]
    for kind, name in lot.files().items():
        rows.append((kind.capitalize(), f'{escape(name)}<br><span class="name sum">SHA-256 {lot.sums[kind]}</span>'))
    rows += [("Logs", f"{len(sums.answers):,}"), ("Made", escape(made))]
    body = "\n".join(f"<tr><th>{kind}</th><td>{text}</td></tr>" for kind, text in rows)
    return f'<h2>Circuit, test and lot</h2>\n<table class="about"><tbody>\n{body}\n</tbody></table>'


def again(lot: Lot) -> str:
    """The commands that make the page of the lot again, and the page of one chip."""
    words = " ".join(map(shlex.quote, (lot.netlist, lot.result)))
    options = " ".join(map(shlex.quote, [*lot.options(), "-o", f"./{lot.folder}" if lot.folder.startswith("-") else lot.folder]))
    lines = [f"tools/volume {words} LOG .. {options}"] + ([f"tools/report {words} LOG"] if lot.applied is None else [])
    return f"<h2>To make it again</h2>\n<pre>{escape(chr(10).join(lines))}</pre>"


def verdict(sums: Sums) -> str:
    """The verdict on the lot."""
    heading, *more = sentences(sums)
    good = not sums.nets and not sums.left() and not sums.wrong()
    return f'<div class="verdict{" good" if good else ""}"><h2>{escape(heading)}</h2>{"".join(map(paragraph, more))}</div>'


def chapters(test: Test, sums: Sums) -> Iterable[str]:
    """The chapters for what a lot has."""
    yield of_kinds(sums)
    if sums.nets:
        yield nets(test, sums)
    if sums.bridges:
        yield bridges(sums)
    if sums.wrong():
        yield wrong(sums)
    yield unanswered(sums)
    if sums.patterns:
        numbered = "pattern" if test.lot.applied is None else "vector"
        yield fails(f"Failing {numbered}s: {len(sums.patterns):,} of {len(test.patterns):,}", numbered, str, sums.patterns)
    if sums.positions:
        title = f"Failing positions: {len(sums.positions):,} of {len(test.netlist.positions):,}"
        yield fails(title, "output or scan cell", lambda at: position(test.netlist, at), sums.positions)
    yield chips(sums)


def page(test: Test, sums: Sums, made: str) -> str:
    """The whole page, in its order."""
    circuit = os.path.splitext(os.path.basename(test.lot.netlist))[0]
    title = escape(f"{os.path.basename(os.path.abspath(test.lot.folder))}: a lot of {count(len(sums.answers), 'chip')} of {circuit}")
    body = [verdict(sums), *filter(None, chapters(test, sums)), about(test, sums, made), again(test.lot)]
    return document(title, body, "report.css", "volume.css")
