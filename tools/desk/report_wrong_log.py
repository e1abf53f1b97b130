"""Finds whether a log looks like one of other patterns, or in another order or polarity, and which change of it fits."""

import itertools
import os
from typing import Iterator, NamedTuple

import bench
from report_case import Case, ones_in, suspects_in, union
from report_runs import Ended

FOLDER = 50  # results of the folder that are tried
LARGEST = 1 << 28  # bytes of one that is read
ENOUGH = 10  # failing patterns without a passing one that say something about the others
SHIFTS = {0: None, -1: "patterns counted from 1", 1: "patterns counted one too low"}


class Try(NamedTuple):
    """A change of the log and its counts: how many of the logged patterns fail, how many of the observed bits, and how many failing patterns one
    class explains, if `suspects` was run. `result` is the result that has the patterns."""

    change: str
    result: str
    log: tuple
    failing: int
    logged: int
    wrong: int
    seen: int
    explained: object = None


class Doubt(NamedTuple):
    """Why a log is doubted: what was tried, the best of that if it fits, other results of the folder, and the scan cells that never change."""

    tries: list
    best: object
    others: list
    still: int
    cells: int


def large(part: int, whole: int) -> bool:
    """Whether the part is more than a tenth of the whole."""
    return part * 10 > whole


def tried(change: str, result: str, good: list[int], log: tuple[list[int], list[int]], logged: int) -> Try:
    """A change of the log, compared with good answers."""
    ones, zeros = log
    seen = [one | zero for one, zero in zip(ones, zeros)]
    wrong = [(one ^ word) & it for one, word, it in zip(ones, good, seen)]
    return Try(change, result, log, ones_in(union(wrong)), ones_in(logged), sum(map(ones_in, wrong)), sum(map(ones_in, seen)))


def moved(word: int, by: int, full: int) -> int:
    """A word of patterns with each number raised by `by`."""
    return word << by & full if by > 0 else word >> -by


def changes(case: Case) -> Iterator[Try]:
    """The log with its numbers shifted, its positions reversed, its bits inverted, or several of these."""
    for by, back, turned in itertools.product(SHIFTS, (False, True), (False, True)):
        said = [SHIFTS[by], "positions in reverse order" if back else None, "bits inverted" if turned else None]
        words = [(moved(one, by, case.full), moved(zero, by, case.full)) for one, zero in zip(case.ones, case.zeros)]
        words = words[::-1] if back else words
        ones, zeros = [one for one, _ in words], [zero for _, zero in words]
        log = (zeros, ones) if turned else (ones, zeros)
        if any(said):
            yield tried(" and ".join(filter(None, said)), case.read["result"], case.good, log, moved(case.logged, by, case.full))


def shifted_cells(case: Case) -> Iterator[Try]:
    """The log with the bits of the scan cells one place later or earlier."""
    cells = [at for at, (kind, _) in enumerate(case.netlist.positions) if kind == "cell"]
    for by, said in ((1, "late"), (-1, "early")) if len(cells) > 1 else ():
        words = [[*it] for it in (case.ones, case.zeros)]
        for to, before in zip(words, (case.ones, case.zeros)):
            for place, at in enumerate(cells):
                to[at] = before[cells[place + by]] if 0 <= place + by < len(cells) else 0
        change = f"scan cells shifted by one place (each bit stands one cell too {said})"
        yield tried(change, case.read["result"], case.good, tuple(words), case.logged)


def patterns_of(name: str) -> "list[str] | None":
    """The patterns of a file if it is a result, else None. Lines of other kinds may be between them."""
    found = []
    with open(name, "rb") as file:
        if file.read(8) != b"diatest ":
            return None
        file.readline()
        for line in file:
            fields = line.split(maxsplit=2)
            if fields[:1] == [b"pattern"]:
                found.append("" if fields[1] == b"-" else fields[1].decode("latin-1"))
            elif fields[:1] == [b"class"]:
                return found
    return None


def neighbours(case: Case) -> Iterator[str]:
    """The other files of the result's folder, and of the log's."""
    folders = dict.fromkeys(os.path.dirname(case.files[it]) or "." for it in ("result", "log"))
    for folder in folders:
        for name in sorted(os.listdir(folder) if os.path.isdir(folder) else ()):
            whole = os.path.join(folder, name) if folder != "." else name
            if os.path.isfile(whole) and os.path.getsize(whole) <= LARGEST and not os.path.samefile(whole, case.read["result"]):
                yield whole


def results_beside(case: Case) -> Iterator[tuple[str, list[str]]]:
    """The names and patterns of other results for this circuit in those folders."""
    for name in neighbours(case):
        try:
            patterns = patterns_of(name)
        except (OSError, IndexError):
            continue
        if patterns and patterns != case.patterns and all(len(it) == len(case.netlist.sources) for it in patterns):
            yield name, patterns


def other_results(case: Case) -> tuple[list[Try], list[str]]:
    """The log with the patterns of other results for this circuit, and the names of those that have fewer patterns than the log."""
    found, short, last = [], [], case.logged.bit_length()
    for name, patterns in itertools.islice(results_beside(case), FOLDER):
        if len(patterns) < last:
            short.append(name)
            continue
        good = bench.answers(case.netlist, patterns)
        found.append(tried(f"the patterns of {name}", name, good, (case.ones, case.zeros), case.logged))
    return found, short


def lines_of(log: tuple[list[int], list[int]]) -> Iterator[str]:
    """The lines of a changed log."""
    ones, zeros = log
    seen = union(ones) | union(zeros)
    for pattern in range(seen.bit_length()):
        if seen >> pattern & 1:
            bits = ("1" if one >> pattern & 1 else "0" if zero >> pattern & 1 else "x" for one, zero in zip(ones, zeros))
            yield f"{pattern} {''.join(bits)}\n"


def asked(case: Case, it: Try) -> Try:
    """A change with what `suspects` says of it."""
    name = os.path.join(case.runs.folder, "changed.log")
    with open(name, "w", encoding="ascii") as file:
        file.writelines(lines_of(it.log))
    try:
        own = it.result == case.read["result"]
        words = case.words(name) if own else [case.read["netlist"], it.result, name]
        run = case.runs.start("suspects", *words, "--most", "1")
        scores, _, _ = suspects_in(run.lines(quiet=True))
    except Ended:  # the other result isn't valid
        return it
    return it._replace(explained=scores[0].explained if scores else 0)


def never_change(case: Case) -> tuple[int, int]:
    """How many scan cells show only one bit though a good chip shows both, and how many cells there are."""
    cells = still = 0
    for (kind, _), one, zero, good in zip(case.netlist.positions, case.ones, case.zeros, case.good):
        seen = one | zero
        cells += kind == "cell"
        still += kind == "cell" and bool(seen & good and seen & ~good) and not (one and zero)
    return still, cells


def fitting(case: Case, tries: list[Try]) -> "tuple[Try | None, Try | None]":
    """The change with the fewest failing bits. Also the same with what `suspects` says, if few bits fail or one class explains most of the failing
    patterns."""
    likely = [it for it in tries if it.wrong * 2 <= case.wrong_bits]
    best = min(likely, key=lambda it: it.wrong / (it.seen or 1), default=None)
    if not best:
        return None, None
    answer = asked(case, best)
    few = best.wrong * 4 <= case.wrong_bits and not large(best.wrong, best.seen)
    return best, answer if few or (answer.explained or 0) * 2 > answer.failing else None


def applied(case: Case) -> int:
    """How many patterns were applied: those logged; or if only failing ones are logged, those from the first to the last of a long list, and all
    for a short one."""
    if not case.failing_only():
        return case.logged_count
    first = (case.logged & -case.logged).bit_length()
    return case.logged.bit_length() - first + 1 if case.failing_count >= ENOUGH else len(case.patterns)


def doubt(case: Case) -> "Doubt | None":
    """Why the log is doubted, if it is: no class and no bridge explains it, many bits fail, and either nearly every pattern does or a change fits."""
    most = max((it.explained for it in case.suspects), default=0)
    if not case.failing or case.exact or most == case.failing_count or not large(case.wrong_bits, case.seen_bits):
        return None
    others, short = other_results(case)
    tries = [*changes(case), *shifted_cells(case), *others]
    asked_for, best = fitting(case, tries)
    if not best and (case.failing_count * 10 < applied(case) * 9 or large(most, case.failing_count)):
        return None
    return Doubt([best if best and it is asked_for else it for it in tries], best, short, *never_change(case))
