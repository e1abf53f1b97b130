"""Draws the curve of coverage over patterns: SVG that needs nothing from outside."""

from __future__ import annotations

from html import escape
from typing import Iterator, List, Tuple

from coverage_counts import Counts, Share, Step

WIDE, HIGH = 720, 420
LEFT, RIGHT, TOP, BOTTOM = 62, 24, 62, 52  # between the picture's edges and the axes
ACROSS, UP = WIDE - LEFT - RIGHT, HIGH - TOP - BOTTOM
LISTED, FOUND, GRID, INK, REACHED = "#1565c0", "#c62828", "#dde3e8", "#1b2733", "#607d8b"
TICKS = 8  # at most, along the patterns
Point = Tuple[int, int]  # how many patterns, and how many faults they show


def text(x: float, y: float, words: str, more: str = "") -> str:
    """Words at a place."""
    return f'<text x="{x:g}" y="{y:g}"{more}>{escape(words)}</text>'


def line(x: float, y: float, to_x: float, to_y: float, colour: str, more: str = "") -> str:
    """A line between two places."""
    return f'<line x1="{x:g}" y1="{y:g}" x2="{to_x:g}" y2="{to_y:g}" stroke="{colour}"{more}/>'


def spacing(count: int) -> int:
    """The distance of ticks along `count` patterns: 1, 2 or 5 times a power of ten."""
    power = 1
    while True:
        for it in (1, 2, 5):
            if it * power * TICKS >= count:
                return it * power
        power *= 10


class Plot:
    """The picture of a curve."""

    def __init__(self, steps: List[Step], counts: Counts, title: str, listed: bool):
        self.steps, self.counts, self.title, self.listed = steps, counts, title, listed
        self.patterns = max(len(steps), 1)

    def x(self, patterns: float) -> float:
        """The place of a number of patterns."""
        return round(LEFT + ACROSS * patterns / self.patterns, 1)

    def y(self, faults: float) -> float:
        """The place of a number of faults."""
        return round(TOP + UP * (1 - faults / max(self.counts.faults, 1)), 1)

    def axes(self) -> Iterator[str]:
        """The grid, its numbers, and the names of the axes."""
        for percent in range(0, 101, 20):
            y = round(TOP + UP * (1 - percent / 100), 1)
            yield line(LEFT, y, WIDE - RIGHT, y, GRID)
            yield text(LEFT - 8, y + 4, str(percent), ' text-anchor="end"')
        for count in range(0, self.patterns + 1, spacing(self.patterns)):
            yield line(self.x(count), TOP, self.x(count), HIGH - BOTTOM, GRID)
            yield text(self.x(count), HIGH - BOTTOM + 18, f"{count:,}", ' text-anchor="middle"')
        yield text(LEFT + ACROSS / 2, HIGH - 12, "patterns", ' text-anchor="middle"')
        middle = TOP + UP / 2
        yield text(16, middle, "fault coverage, percent", f' text-anchor="middle" transform="rotate(-90 16 {middle:g})"')

    def stretches(self) -> List[Tuple[str, List[Point]]]:
        """The curve in stretches of one colour. If it stays level for several patterns, only the ends are points."""
        found: List[Tuple[str, List[Point]]] = []
        for it in self.steps:
            colour = FOUND if self.listed and it.vector is None else LISTED
            if not found or found[-1][0] != colour:
                found.append((colour, [(it.pattern, it.sum - it.shown)]))
            points = found[-1][1]
            if len(points) > 1 and points[-2][1] == it.sum:
                points.pop()
            points.append((it.pattern + 1, it.sum))
        return found

    def curve(self) -> Iterator[str]:
        """The lines of the curve."""
        for colour, points in self.stretches():
            places = " ".join(f"{self.x(count):g},{self.y(faults):g}" for count, faults in points)
            yield f'<polyline points="{places}" fill="none" stroke="{colour}" stroke-width="2.2" stroke-linejoin="round"/>'

    def reach(self) -> Iterator[str]:
        """The highest level that the curve can reach, if some faults are untestable."""
        testable = self.counts.faults - self.counts.untestable
        if self.counts.untestable:
            yield line(LEFT, self.y(testable), WIDE - RIGHT, self.y(testable), REACHED, ' stroke-dasharray="6 4"')
            share = Share(testable, self.counts.faults).percent()
            yield text(LEFT + 40, self.y(testable) + 16, f"{share} %: all but the untestable", f' fill="{REACHED}"')

    def key(self) -> Iterator[str]:
        """The title, where the curve ends, and what its colours mean."""
        yield text(LEFT, 22, self.title, ' font-weight="bold" font-size="15"')
        coverage = self.counts.fault_coverage.percent()
        yield text(LEFT, 42, f"{self.counts.detected:,} of {self.counts.faults:,} faults are detected by {len(self.steps):,} patterns: {coverage} %")
        if self.listed:
            for at, (colour, words) in enumerate(((LISTED, "of the list"), (FOUND, "found behind it"))):
                x = WIDE - RIGHT - 230 + 110 * at
                yield line(x, 38, x + 18, 38, colour, ' stroke-width="2.2"')
                yield text(x + 24, 42, words)

    def svg(self) -> str:
        """The picture."""
        head = f'<svg xmlns="http://www.w3.org/2000/svg" viewBox="0 0 {WIDE} {HIGH}" width="{WIDE}" height="{HIGH}" role="img"'
        head += f' font-family="Helvetica, Arial, sans-serif" font-size="13" fill="{INK}">'
        back = f'<rect width="{WIDE}" height="{HIGH}" fill="#ffffff"/>'
        title = f"<title>{escape(self.title)}</title>"
        parts = [head, title, back, *self.axes(), *self.reach(), *self.curve(), *self.key(), "</svg>"]
        return "".join(f"{it}\n" for it in parts)
