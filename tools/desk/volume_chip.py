"""One chip of a lot: what the page of tools/report says about its log, as an answer that can be kept."""

from __future__ import annotations

import functools
import tempfile
from fractions import Fraction
from typing import Any, Dict, List, Optional

import bench
from report_case import Case, ones_in
from report_place import by_net, in_short
from report_runs import Ended, Runs, read
from report_words import SCAN_CHAIN, SINGLE, WRONG_LOG, by_stuck_at, nearest_cover, verdict
from report_wrong_log import Doubt, doubt
from results import Result, vectors_of
from volume_lot import FAILED, NO_ANSWER, REFUSED, UNREAD, Lot

STATUSES = {6: REFUSED, 7: UNREAD}  # of a command; one with any other status has failed


class Test:
    """What the chips of a lot share: the netlist, the result, and the vectors by which logs are numbered. Each is read once."""

    def __init__(self, lot: Lot):
        self.lot = lot
        self.names: List[str] = []

    @functools.cached_property
    def netlist(self) -> bench.Netlist:
        """The netlist."""
        return bench.read(self.lot.netlist)

    @functools.cached_property
    def result(self) -> Result:
        """The result."""
        return Result(self.lot.result)

    @functools.cached_property
    def patterns(self) -> List[str]:
        """The patterns of a log: those of the result, or the vectors that were applied."""
        if self.lot.applied is None:
            return self.result.patterns
        return vectors_of(self.lot.applied)

    @functools.cached_property
    def free(self) -> Dict[str, int]:
        """The values of all lines without a fault."""
        return bench.values(self.netlist, self.patterns)


class Listing:
    """The list of faults, which is already printed."""

    def __init__(self, lines: List[str]):
        self.kept = lines

    def succeeds(self) -> bool:
        """Whether it could be printed."""
        return True

    def lines(self) -> List[str]:
        """Its lines."""
        return self.kept


class LotRuns(Runs):
    """The commands for a chip of a lot, run by the program itself. The faults are listed once."""

    def __init__(self, test: Test, folder: str):
        super().__init__(folder, "volume")
        self.test, self.command = test, self.environment["DIATEST"]

    def start(self, *words: str) -> Any:
        """Starts a command."""
        if words[0] != "faults":
            return super().start(*words)
        self.test.names = self.test.names or super().start(*words).lines()
        return Listing(self.test.names)


class LotCase(Case):
    """A chip of a lot. What the chips share isn't read again."""

    def __init__(self, test: Test, log: str, runs: LotRuns):
        self.test = test
        super().__init__(runs, test.lot.netlist, test.lot.result, log, test.lot.applied)

    def read_early(self) -> Result:
        """Takes the shared netlist, and returns the shared result."""
        self.netlist = self.test.netlist
        return self.test.result

    def simulate(self) -> None:
        """Takes what a good chip answers."""
        self.patterns, self.free = self.test.patterns, self.test.free
        self.full = (1 << len(self.patterns)) - 1
        self.good = [self.free[it] for it in self.netlist.shown]


def called(case: Case) -> List[List[int]]:
    """The callouts of a chip: those as good as the first suspect if that explains all failing patterns, else a list for each class of the cover,
    with the best suspect in place of the number that `cover` chose."""
    if not case.suspects:
        return []
    first = case.suspects[0]
    if first.explained == case.failing_count:
        return [[it.number for it in case.suspects if it[1:] == first[1:]]]
    return [[number] for number, _ in nearest_cover(case)]


def weights(case: Case, groups: List[List[int]]) -> Dict[str, float]:
    """The weight of each net: the chip counts one, in equal parts over its groups, their callouts and the members of each class."""
    found: Dict[str, Fraction] = {}
    for group in groups:
        for number in group:
            part = Fraction(1, len(groups) * len(group) * len(case.members[number]))
            for net, members in by_net(case, number).items():
                found[net] = found.get(net, Fraction(0)) + part * len(members)
    return {net: float(weight) for net, weight in sorted(found.items(), key=lambda it: (-it[1], it[0]))}


def of_case(case: LotCase, why_doubted: Optional[Doubt]) -> Dict[str, Any]:
    """The answer for a chip whose log was accepted."""
    groups = called(case) if case.failing and not why_doubted else []
    said, by_faults = verdict(case, why_doubted), by_stuck_at(case).kind if groups else ""
    trusted = groups if said.kind not in (WRONG_LOG, SCAN_CHAIN) or by_faults == SINGLE else []
    bridges = case.bridged() if trusted else []
    return {
        "status": 0,
        "kind": said.kind,
        "stuck_at": by_faults,
        "headline": said.heading,
        "more": said.more,
        "failing": case.failing_count,
        "logged": case.logged_count,
        "explained": case.suspects[0].explained if case.suspects else 0,
        "called": groups,
        "places": [[in_short(case, it) for it in group] for group in groups],
        "nets": weights(case, trusted),
        "exact_bridges": case.exact_count if bridges else 0,
        "bridges": [list(it[:3]) for it in bridges],
        "failing_patterns": f"{case.failing:x}",
        "logged_patterns": f"{case.logged:x}",
        "failing_positions": [[at, ones_in(word)] for at, word in enumerate(case.wrong) if word],
    }


def refusal(lot: Lot, log: str, error: Ended) -> Dict[str, Any]:
    """The answer for a log for which a command failed: its status, what it printed, and what the script says about the place."""
    with tempfile.TemporaryDirectory(prefix="volume-") as folder, Runs(folder, "volume") as runs:
        run = runs.start("suspects", lot.netlist, lot.result, log, *lot.options())
        run.succeeds()
        told = read(run.error).decode("utf-8", "surrogateescape")
    said = str(error).strip() or told.partition("\n")[0].replace("diatest: ", "", 1)
    return {"status": error.status, "kind": STATUSES.get(error.status, FAILED), "said": said, "told": told}


def of_log(test: Test, log: str) -> Dict[str, Any]:
    """The answer for a log: the verdict on its chip, or why the log is refused."""
    try:
        with tempfile.TemporaryDirectory(prefix="volume-") as folder, LotRuns(test, folder) as runs:
            case = LotCase(test, log, runs)
            return of_case(case, doubt(case))
    except Ended as error:
        return refusal(test.lot, log, error)
    except ValueError as error:
        return {"status": NO_ANSWER, "kind": FAILED, "said": str(error)}
