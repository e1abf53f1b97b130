"""Counts what a result and a list of vectors detect. It reads results that `check` accepts or `grade` makes.

A share is cut after its second digit and never rounded up, so that only all gives 100.00."""

from __future__ import annotations

from collections import Counter
from typing import Dict, Iterator, List, NamedTuple, Optional, Tuple

from results import Result

Names = Dict[int, Tuple[int, List[str]]]  # by number the root, and the fields of the name


class Share(NamedTuple):
    """A part and the whole."""

    part: int
    whole: int

    def percent(self) -> str:
        """The share in percent; - if there is no whole."""
        if not self.whole:
            return "-"
        hundredths = 10_000 * self.part // self.whole
        return f"{hundredths // 100}.{hundredths % 100:02d}"

    def number(self) -> Optional[float]:
        """The same as a number."""
        return 10_000 * self.part // self.whole / 100 if self.whole else None


class Counts(NamedTuple):
    """The counts of some faults."""

    faults: int
    detected: int
    untestable: int
    undetected: int  # and not untestable
    fault_coverage: Share
    test_coverage: Share
    fault_efficiency: Share
    classes: int  # of detected faults
    classes_of_one_fault: int
    final_classes: int  # those that no vector splits
    faults_in_final_classes: int
    largest_class: int
    pairs_apart: Share


class Graded(NamedTuple):
    """A result, and the numbers by which its patterns are known."""

    result: Result
    known_as: List[int]  # by pattern of the result

    def first(self) -> Dict[int, Optional[int]]:
        """By class the pattern that first shows its faults: the one that split it, or the class that it was a part of, off the class of the
        good chip. For the class of the good chip it is None."""
        found: Dict[int, Optional[int]] = {0: None}
        for it, (parent, pattern) in sorted(self.result.births.items()):
            found[it] = found[parent] if parent else pattern
        return found


def by_class(numbers: List[int], classes: Dict[int, int]) -> Dict[int, List[int]]:
    """The numbers of each class."""
    found: Dict[int, List[int]] = {}
    for it in numbers:
        found.setdefault(classes[it], []).append(it)
    return found


def is_untestable(number: int, result: Result) -> bool:
    """Whether a result shows that no vector detects a fault."""
    return result.classes[number] == 0 and result.marks[number] == "equal"


def is_final(members: List[int], result: Result) -> bool:
    """Whether a result shows that no vector distinguishes the members of a class."""
    if len(members) == 1:
        return True
    return len({result.classes[it] for it in members}) == 1 and all(result.marks[it] != "open" for it in members)


def pairs(count: int) -> int:
    """The number of pairs among `count` faults."""
    return count * (count - 1) // 2


def counted(numbers: List[int], graded: Result, result: Result) -> Counts:
    """The counts of these faults. `graded` has their classes; `result` shows which faults no vector detects or distinguishes."""
    faults, groups = len(numbers), by_class(numbers, graded.classes)
    together = sum(pairs(len(it)) for it in groups.values())
    detected = faults - len(groups.pop(0, []))
    untestable = sum(is_untestable(it, result) for it in numbers)
    final = [it for it in groups.values() if is_final(it, result)]
    return Counts(
        faults,
        detected,
        untestable,
        faults - detected - untestable,
        Share(detected, faults),
        Share(detected, faults - untestable),
        Share(detected + untestable, faults),
        len(groups),
        sum(len(it) == 1 for it in groups.values()),
        len(final),
        sum(map(len, final)),
        max(map(len, groups.values()), default=0),
        Share(pairs(faults) - together, pairs(faults)),
    )


def collapsed(numbers: List[int], names: Names) -> List[int]:
    """The roots of faults, each once."""
    return sorted({names[it][0] for it in numbers})


def place_of(name: List[str]) -> str:
    """Where a fault lies: its line, or a gate and its pin, or a position."""
    kind, line, *site, _ = name
    return {"S": line, "G": "/".join(site), "O": "/".join(["position", *site])}[kind]


def fault_lines(numbers: List[int], names: Names, asked: Graded, result: Result) -> Iterator[str]:
    """A line for each fault: its stuck value, its code, its place, number, root, class and mark, and what shows it first."""
    graded, first = asked.result, asked.first()
    for it in numbers:
        root, name = names[it]
        shown = first[graded.classes[it]]
        code = "DT" if shown is not None else "UD" if is_untestable(it, result) else "ND"
        by = "-" if shown is None else asked.known_as[shown]
        yield f"sa{name[-1]} {code if it == root else '--'} {place_of(name)} {it} {root} {graded.classes[it]} {graded.marks[it]} {by}\n"


class Step(NamedTuple):
    """A pattern of the curve, and its number in the list, if it is in one. `shown` counts the faults that it is the first to show, `sum` the
    faults that are shown so far, and `classes` the classes so far, with that of the good chip."""

    pattern: int
    vector: Optional[int]
    shown: int
    sum: int
    classes: int


def curve(numbers: List[int], result: Result, vectors: List[str]) -> List[Step]:
    """The curve of a result, pattern by pattern."""
    first = Graded(result, []).first()
    shown = Counter(first[result.classes[it]] for it in numbers)
    born = Counter(pattern for _, pattern in result.births.values())
    places = {bits: at for at, bits in reversed(list(enumerate(vectors)))}
    steps, total, classes = [], 0, 1
    for pattern, bits in enumerate(result.patterns):
        total, classes = total + shown[pattern], classes + born[pattern]
        steps.append(Step(pattern, places.get(bits), shown[pattern], total, classes))
    return steps


def curve_lines(steps: List[Step], faults: int, listed: bool) -> Iterator[str]:
    """The curve as CSV. With a list a column has the number of its vector, or `new`."""
    yield f"pattern,{'vector,' if listed else ''}shown,sum,percent,classes\n"
    for it in steps:
        vector = "" if not listed else "new," if it.vector is None else f"{it.vector},"
        yield f"{it.pattern},{vector}{it.shown},{it.sum},{Share(it.sum, faults).percent()},{it.classes}\n"
