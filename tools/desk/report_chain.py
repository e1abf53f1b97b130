"""Finds scan cells at an end of the chain that never change, as after a break in the scan chain. Texts are plain."""

import functools
from typing import NamedTuple

from report_case import Case

FEWEST = 4  # scan cells of the shortest chain that is examined, and by how many an end of both bits has to exceed one of a single bit
CHECK = "check the scan chain before anything else"
PART = 8  # scan cells of a part that is long enough to mean something


class Cell(NamedTuple):
    """A scan cell: its name, the only bit that it shows (None if it shows both or none), and whether a good chip would change it."""

    name: str
    bit: object
    changes: bool


class Dead(NamedTuple):
    """Cells at an end of the chain that never change, in the order of the chain, how many of them a good chip would change, and how many cells
    the chain has."""

    cells: list
    changing: int
    of: int


def constant(ones: int, zeros: int) -> "int | None":
    """The only bit that a cell shows; None if it shows both, or if none was observed."""
    return None if bool(ones) == bool(zeros) else int(bool(ones))


def scan_cells(case: Case) -> list[Cell]:
    """The scan cells of a chip, in order."""
    found = []
    for (kind, name), ones, zeros, good in zip(case.netlist.positions, case.ones, case.zeros, case.good):
        if kind == "cell":
            seen = ones | zeros
            found.append(Cell(name, constant(ones, zeros), bool(seen & good and seen & ~good)))
    return found


def run(cells: list[Cell], bits: tuple[int, ...]) -> Dead:
    """The first cells that each show only one bit, one of these, up to the last that a good chip would change."""
    length = changing = 0
    for at, it in enumerate(cells, 1):
        if it.bit not in bits:
            break
        if it.changes:
            length, changing = at, changing + 1
    return Dead(cells[:length], changing, len(cells))


def longest(cells: list[Cell], kinds: tuple[tuple[int, ...], ...]) -> Dead:
    """The longest such run at either end, for some kinds of bits."""
    ends = [run(cells, bits) for bits in kinds]
    ends += [it._replace(cells=it.cells[::-1]) for it in (run(cells[::-1], bits) for bits in kinds)]
    return max(ends, key=lambda it: (len(it.cells), it.changing))


@functools.lru_cache(maxsize=None)
def dead(case: Case) -> "Dead | None":
    """The longest end of the chain whose cells never change though a good chip changes them; None if it is short. An end whose cells all show the
    same bit is preferred, unless it is short or an end of both bits has FEWEST more cells that a good chip changes."""
    cells = scan_cells(case)
    if len(cells) < FEWEST:
        return None
    enough = max(min(PART, len(cells)), (len(cells) + 3) // 4)
    one, mixed = longest(cells, ((0,), (1,))), longest(cells, ((0, 1),))
    found = mixed if mixed.changing >= one.changing + FEWEST or one.changing < enough else one
    return found if found.changing >= enough else None


def heading(it: Dead) -> str:
    """What is said first about such cells."""
    zeros, count, whole = sum(cell.bit == 0 for cell in it.cells), len(it.cells), len(it.cells) == it.of
    both = f" ({zeros:,} read 0, {count - zeros:,} read 1)" if 0 < zeros < count else ""
    if whole and both:
        return f"None of the {it.of:,} scan cells changes{both}: {CHECK}"
    if whole:
        return f"All {it.of:,} scan cells read {it.cells[0].bit}: {CHECK}"
    named = f"{count:,} of {it.of:,} scan cells, {it.cells[0].name} to {it.cells[-1].name}, never change"
    return f"{named}{both or f' and read {it.cells[0].bit}'}: {CHECK}"
