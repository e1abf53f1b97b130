"""Sums up the answers of a lot: kinds of chips, the nets and bridges that are called out most, failing patterns and positions."""

from __future__ import annotations

import math
from typing import Any, Dict, Iterable, List, NamedTuple, Tuple

from report_case import numbers_in
from report_words import BRIDGE, EMPTY, NOW_AND_THEN, PARTLY, PASSES, SCAN_CHAIN, SEVERAL, SINGLE, UNEXPLAINED, WRONG_LOG
from results import Result
from volume_lot import FAILED, REFUSED, UNREAD

KINDS = (SINGLE, BRIDGE, NOW_AND_THEN, SEVERAL, PARTLY, UNEXPLAINED, PASSES, EMPTY, SCAN_CHAIN, WRONG_LOG, REFUSED, UNREAD, FAILED)
WRONG_KINDS = (SCAN_CHAIN, WRONG_LOG)
Answer = Dict[str, Any]


class Row(NamedTuple):
    """A row of a Pareto: the nets, how many chips call them out, the weight, its share of all weights, and the share that chance would give
    them."""

    nets: Tuple[str, ...]
    chips: int
    weight: float
    share: float
    expected: float

    @property
    def ratio(self) -> float:
        """How many times the share is what chance would give."""
        return self.share / self.expected if self.expected else math.inf


class Fails(NamedTuple):
    """How often a pattern or a position fails: in how many chips, and in how many it was logged."""

    at: int
    chips: int
    logged: int


def kinds(answers: Iterable[Answer], name: str = "kind") -> List[Tuple[str, int]]:
    """How many chips there are of each kind that occurs."""
    found: Dict[str, int] = {}
    for it in answers:
        found[it.get(name, "")] = found.get(it.get(name, ""), 0) + 1
    return [(kind, found[kind]) for kind in KINDS if kind in found]


def pareto(parts: List[List[Tuple[Tuple[str, ...], float]]], expected: Dict[Tuple[str, ...], float], other: float) -> List[Row]:
    """The rows of a Pareto, the largest weight first. `parts` has for each chip what it calls out, with weights whose sum is at most one."""
    found: Dict[Tuple[str, ...], List[float]] = {}
    for chip in parts:
        for nets, weight in chip:
            found.setdefault(nets, []).append(weight)
    total = math.fsum(weight for chip in parts for _, weight in chip)
    rows = []
    for nets, its_weights in found.items():
        weight = math.fsum(its_weights)
        rows.append(Row(nets, len(its_weights), weight, weight / total, expected.get(nets, other)))
    return sorted(rows, key=lambda it: (-round(it.weight, 9), -it.chips, -it.ratio, it.nets))


def fault_shares(result: Result, names: Dict[int, Tuple[int, List[str]]]) -> Dict[Tuple[str, ...], float]:
    """Which part of the detected faults is on each net."""
    found: Dict[Tuple[str, ...], int] = {}
    for number, its_class in result.classes.items():
        if its_class:
            net = (names[number][1][1],)
            found[net] = found.get(net, 0) + 1
    total = sum(found.values())
    return {net: count / total for net, count in found.items()}


def nets(answers: Iterable[Answer], expected: Dict[Tuple[str, ...], float]) -> List[Row]:
    """The nets that stuck-at faults call out."""
    parts = [[((net,), weight) for net, weight in it["nets"].items()] for it in answers if it.get("nets")]
    return pareto(parts, expected, 0.0)


def bridged(answer: Answer) -> List[Tuple[Tuple[str, ...], float]]:
    """The pairs of nets of a chip's exact bridges, whatever their kinds, with their weights. Bridges that aren't listed have the rest of the
    weight."""
    found: Dict[Tuple[str, ...], int] = {}
    for _, first, second in answer["bridges"]:
        pair = (min(first, second), max(first, second))
        found[pair] = found.get(pair, 0) + 1
    return [(pair, count / answer["exact_bridges"]) for pair, count in found.items()]


def bridges(answers: Iterable[Answer], lines: int) -> List[Row]:
    """The pairs of nets that exact bridges call out. By chance all pairs are equally likely."""
    parts = [bridged(it) for it in answers if it.get("bridges")]
    rows = pareto(parts, {}, 2 / (lines * (lines - 1)) if lines > 1 else 1.0)
    return [it._replace(share=it.weight / len(parts)) for it in rows]


def counted(answers: Iterable[Answer]) -> List[Answer]:
    """The answers of chips that fail, without logs that look wrong."""
    return [it for it in answers if it.get("failing") and it["kind"] not in WRONG_KINDS]


def patterns(answers: Iterable[Answer]) -> List[Fails]:
    """The patterns at which chips fail, the most first."""
    failing: Dict[int, int] = {}
    logged: Dict[int, int] = {}
    for it in counted(answers):
        for word, found in ((it["failing_patterns"], failing), (it["logged_patterns"], logged)):
            for at in numbers_in(int(word, 16)):
                found[at] = found.get(at, 0) + 1
    return sorted((Fails(at, chips, logged[at]) for at, chips in failing.items()), key=lambda it: (-it.chips, it.at))


def positions(answers: Iterable[Answer]) -> List[Fails]:
    """The positions at which chips fail, the most first."""
    chips = counted(answers)
    found: Dict[int, int] = {}
    for it in chips:
        for at, _ in it["failing_positions"]:
            found[at] = found.get(at, 0) + 1
    return sorted((Fails(at, count, len(chips)) for at, count in found.items()), key=lambda it: (-it.chips, it.at))
