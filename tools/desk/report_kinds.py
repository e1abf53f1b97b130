"""Finds which kind of defect the behaviour of a suspect fits: stuck, one of several, now and then, or a bridge."""

import functools
from typing import NamedTuple

from report_bridges import other_end
from report_case import Case, Score
from report_place import stems

NAMED = 2  # nets of a bridge that are named


class Kind(NamedTuple):
    """The kind in words, and the nets that a bridge would have at its other end."""

    word: str
    partners: list


@functools.lru_cache(maxsize=None)
def partners(case: Case, number: int) -> list[str]:
    """The nets at the other end of the exact bridges whose victim is a stem of this class, if no class is exact."""
    found = [other_end(it, line, value) for it in case.bridged() for line, value in stems(case, number)]
    return list(dict.fromkeys(filter(None, found)))


def kind(case: Case, it: Score) -> Kind:
    """The kind of defect that fits a suspect."""
    if case.perfect(it):
        return Kind("stuck", [])
    if not it.explained:
        return Kind("none: it explains no pattern", [])
    others = partners(case, it.number)
    if others:
        return Kind("bridge", others)
    rest = "" if it.explained == case.failing_count else "one of several defects"
    return Kind(", ".join(filter(None, ["now and then" if case.shows[it.number] else "stuck", rest])), [])


def nets(found: list[str]) -> str:
    """The nets of a bridge's other end, in words."""
    if len(found) <= NAMED + 1:
        return " or ".join([", ".join(found[:-1]), found[-1]] if len(found) > 1 else found)
    return f"{', '.join(found[:NAMED])} or one of {len(found) - NAMED:,} more"


def unnamed(found: list[str]) -> list[str]:
    """The nets that `nets` only counts."""
    return found[NAMED:] if len(found) > NAMED + 1 else []
