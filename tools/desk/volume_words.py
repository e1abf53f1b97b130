"""Sums up a lot in sentences. All are plain text."""

from __future__ import annotations

import math
from typing import Any, Dict, List, NamedTuple, Tuple

from report_words import count
from telling import named
from volume_lot import FAILED, UNREAD
from volume_sums import WRONG_KINDS, Row, kinds

TOLD = 8  # logs without an answer whose reasons are shown

TEXTS = {  # what each kind means, on the page
    "single": "a single stuck-at fault predicts every observed bit",
    "bridge": "a bridge of two nets does, and no stuck-at fault",
    "now and then": "a stuck-at fault explains all failing patterns, but would fail others too",
    "several": "several stuck-at faults together explain all failing patterns",
    "partly": "stuck-at faults explain some of the failing patterns",
    "unexplained": "they explain none",
    "passes": "no pattern in the log fails",
    "empty": "the log has no observed bit",
    "scan chain": "scan cells never change",
    "wrong log": "the log looks like one of other patterns, or in another order or polarity",
    "refused": "the log isn't one for this test",
    "unread": "the log can't be read",
    "failed": "there is no answer yet",
}


class Sums(NamedTuple):
    """What a lot gives: the answers in the order of the logs, and the rows of its tables."""

    answers: List[Dict[str, Any]]
    nets: List[Row]
    bridges: List[Row]
    patterns: List[Any]
    positions: List[Any]

    def weighed(self) -> int:
        """How many chips have a callout."""
        return sum(bool(it.get("nets")) for it in self.answers)

    def bridged(self) -> int:
        """How many chips a bridge fits, and no stuck-at fault."""
        return sum(bool(it.get("bridges")) for it in self.answers)

    def left(self) -> List[Dict[str, Any]]:
        """The answers of logs that are to be tried again."""
        return [it for it in self.answers if it["kind"] in (UNREAD, FAILED)]

    def wrong(self) -> List[Dict[str, Any]]:
        """The answers of logs that look wrong, and of scan chains that look broken."""
        return [it for it in self.answers if it["kind"] in WRONG_KINDS]


def percent(part: float) -> str:
    """A share in percent, never rounded up."""
    if 0 < part < 0.0001:
        return "under 0.01\u00a0%"
    return f"{math.floor(part * 10_000 + 1e-6) / 100:.2f}\u00a0%"


def times(ratio: float) -> str:
    """A ratio in words."""
    return f"{ratio:,.2f}" if ratio < 1000 else f"{ratio:,.0f}"


def by_kinds(found: List[Tuple[str, int]]) -> str:
    """How many chips of each kind."""
    return ", ".join(f"{number:,} {kind}" for kind, number in found)


def leads(what: str, it: Row, chips: int) -> str:
    """Which net or pair of nets leads, in a sentence. None leads if only one chip calls the first one out."""
    one = len(it.nets) == 1
    if it.chips == 1:
        return f"No {'net' if one else 'pair of nets'} leads: the first is called out by one chip alone."
    named = f"Net {it.nets[0]}" if one else f"The pair of nets {it.nets[0]} and {it.nets[1]}"
    said = f"{named} leads the {what} with {percent(it.share)} of {count(chips, 'chip')}"
    return f"{said}; chance would give {percent(it.expected)}, so the ratio is {times(it.ratio)}."


def reasons(sums: Sums) -> List[str]:
    """Why the first few logs without an answer have none."""
    left = sums.left()
    found = [it["said"] if it["kind"] == UNREAD else f"{named(it['log'])}: {it['said']}" for it in left[:TOLD]]
    return found + ([f"{count(len(left) - TOLD, 'more log')} without an answer: chips.csv says why"] if len(left) > TOLD else [])


def sentences(sums: Sums) -> List[str]:
    """The sentences on a lot, the kinds first."""
    found = [f"{count(len(sums.answers), 'chip')}: {by_kinds(kinds(sums.answers))}."]
    alone = kinds((it for it in sums.answers if it.get("stuck_at")), "stuck_at")
    if sums.bridged() and alone:
        found.append(f"By stuck-at faults alone: {by_kinds(alone)}.")
    found += [leads("nets", sums.nets[0], sums.weighed())] if sums.nets else []
    found += [leads("bridges", sums.bridges[0], sums.bridged())] if sums.bridges else []
    wrong, left = len(sums.wrong()), len(sums.left())
    if wrong:
        found.append(f"{count(wrong, 'log looks', 'logs look')} wrong, or {'its' if wrong == 1 else 'their'} scan chain broken.")
    if left:
        found.append(f"{count(left, 'log has', 'logs have')} no answer: the same words try {'it' if left == 1 else 'them'} again.")
    return found
