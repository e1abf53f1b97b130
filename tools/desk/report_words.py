"""What a report says about a log in sentences. All are plain text."""

from typing import Iterator, NamedTuple

import report_bridges as bridges
from report_case import Case, Score, ones_in
from report_chain import dead, heading
from report_place import in_counts, in_full, in_short
from report_wrong_log import Doubt, Try

LOOKS = "This looks like a log of other patterns, or in another order or polarity"
UNFITTING = (
    "None of these makes it fit: patterns shifted by one, positions in reverse order, bits inverted, scan cells shifted by one, the patterns of "
    "another result in the folder."
)
NEITHER = "No single stuck-at fault and no bridge fits"
FEW = 5  # a suspect may be near what is wrong with the chip if at most one in FEW observed bits fails
FAILING_ONLY = "The log has no passing pattern, so no fault can be ruled out because it would fail more patterns."

# The kinds of chips. By stuck-at faults alone a chip has one of the first five.
SINGLE, NOW_AND_THEN, SEVERAL, PARTLY, UNEXPLAINED = "single", "now and then", "several", "partly", "unexplained"
BRIDGE, PASSES, EMPTY, SCAN_CHAIN, WRONG_LOG = "bridge", "passes", "empty", "scan chain", "wrong log"


class Verdict(NamedTuple):
    """The verdict on a log: a heading, sentences that say more, and the kind of the chip."""

    heading: str
    more: list
    kind: str

    def line(self) -> str:
        """The whole verdict on one line."""
        return " ".join([f"{self.heading}.", *self.more])


def count(number: int, one: str, many: "str | None" = None) -> str:
    """A number with the word that goes with it."""
    return f"{number:,} {one if number == 1 else many or one + 's'}"


def share(part: int, whole: int) -> str:
    """A share in percent, never rounded up."""
    hundredths = 10_000 * part // whole if whole else 10_000
    return f"{hundredths // 100}.{hundredths % 100:02d}\u00a0%"


def capital(text: str) -> str:
    """A text with a capital at its beginning."""
    return text[:1].upper() + text[1:]


def verdict(case: Case, doubt: "Doubt | None") -> Verdict:
    """The verdict on the log; a scan chain that looks broken comes first."""
    said, broken = of_log(case, doubt), dead(case)
    return Verdict(heading(broken), [f"{said.heading}.", *said.more], SCAN_CHAIN) if broken else said


def of_log(case: Case, doubt: "Doubt | None") -> Verdict:
    """The verdict on the log if the scan chain is right."""
    if not any(case.seen):
        lacks = "has no observed bit" if case.logged_count else "is empty"
        return Verdict(f"The log {lacks}, so it says nothing about the chip", [], EMPTY)
    if not case.failing:
        return good(case)
    if doubt:
        return doubted(case, doubt)
    if not case.suspects:
        return by_stuck_at(case)
    said = shorted(case) if case.bridged() else by_stuck_at(case)
    return said._replace(more=said.more + [FAILING_ONLY]) if case.failing_only() and FAILING_ONLY not in said.more else said


def by_stuck_at(case: Case) -> Verdict:
    """The verdict on a log with failing patterns, by stuck-at faults alone."""
    if not case.suspects:
        check = ["Check that the log is of this circuit and of these patterns."]
        return Verdict("No stuck-at fault predicts any of the failing bits", check, UNEXPLAINED)
    return explained(case) if case.suspects[0].explained == case.failing_count else uneven(case)


def good(case: Case) -> Verdict:
    """The verdict if nothing fails."""
    unlogged, unseen = len(case.patterns) - case.logged_count, len(case.seen) * case.logged_count - case.seen_bits
    lacks = [count(unlogged, "pattern")] if unlogged else []
    lacks += [count(unseen, "bit of these", "bits of these")] if unseen else []
    more = [f"The log lacks {' and '.join(lacks)}, so a defect may show there."] if lacks else []
    passed = "the one pattern in the log passes" if case.logged_count == 1 else f"all {case.logged_count:,} patterns in the log pass"
    return Verdict(f"No fault is suspect: {passed}", more, PASSES)


def doubted(case: Case, doubt: Doubt) -> Verdict:
    """The verdict if the log looks like one of other patterns, or in another order or polarity."""
    fails = f"{case.failing_count:,} of {count(case.logged_count, 'pattern')} fail, at {share(case.wrong_bits, case.seen_bits)} of the observed bits."
    more = [fails]
    more.append(fitting(doubt.best) if doubt.best else UNFITTING)
    if doubt.others and not doubt.best:
        more.append(f"The log has more patterns than {', '.join(doubt.others)}, in the same folder.")
    if doubt.still * 2 > doubt.cells and not dead(case):
        more.append(f"{doubt.still:,} of {count(doubt.cells, 'scan cell')} never change in the log: check the scan chain.")
    if not doubt.best and case.suspects and not dead(case):
        few = case.wrong_bits * FEW <= case.seen_bits
        nearest = f"; the nearest is {in_short(case, case.suspects[0].number)}" if few else ""
        more.append(f"If the log is right, several defects act at once{nearest}.")
    return Verdict(LOOKS, more, WRONG_LOG)


def fitting(best: Try) -> str:
    """Which change fits a log, in a sentence."""
    it = f"With {best.change} it fits: "
    if not best.failing:
        return it + "all patterns pass."
    it += f"{best.failing:,} of {count(best.logged, 'pattern')} {'fails' if best.failing == 1 else 'fail'}"
    return it + (f", and one class of faults explains {best.explained:,} of them." if best.explained is not None else ".")


def shorted(case: Case) -> Verdict:
    """The verdict if a bridge predicts every observed bit, and no class does."""
    first = capital(bridges.sentence(case.exact[0]))
    more = ["It predicts every observed bit, and no single stuck-at fault does."] + bridges.alike(case)
    return Verdict(first + (", or another bridge that answers alike" if case.exact_count > 1 else ""), more, BRIDGE)


def explained(case: Case) -> Verdict:
    """The verdict if the first suspect explains each failing pattern."""
    first, failing = case.suspects[0], count(case.failing_count, "failing pattern")
    perfect = [it for it in case.suspects if case.perfect(it)]
    if case.failing_only():
        return failing_only(case, perfect)
    if len(perfect) > 1:
        return several(case, perfect)
    if perfect:
        more = [f"{'Each of them' if case.exact else 'It'} predicts every observed bit."] + unlogged(case, first.number)
        named = in_full(case, first.number)
        fits = f"A single stuck-at fault fits{',' if named.startswith('at gate ') else ':'} {named}"
        return Verdict(fits + bridges.as_well(case), more, SINGLE)
    passed = ones_in(case.shows[first.number])
    more = [f"{capital(in_counts(case, first.number))} explains each of the {failing}, but would also fail {count(passed, 'pattern')} that passed."]
    return Verdict(f"{NEITHER}: a defect that shows now and then", more + bridges.nearest(case, passed), NOW_AND_THEN)


def several(case: Case, perfect: list[Score]) -> Verdict:
    """The verdict if several classes fit the log."""
    first = in_short(case, perfect[0].number)
    many = f"{len(perfect)} classes" + (" or more" if len(perfect) == len(case.suspects) >= 20 else "")
    fit = f"{many} of stuck-at faults fit, and the log can't tell them apart"
    return Verdict(fit + bridges.as_well(case), [f"The first is {first}."], SINGLE)


def failing_only(case: Case, perfect: list[Score]) -> Verdict:
    """The verdict if the log has only failing patterns, and some class explains them all."""
    number, failing = case.suspects[0].number, count(case.failing_count, "failing pattern")
    said = f"{capital(in_short(case, number))} explains each of the {failing}"
    others = f", and so {'does' if len(perfect) == 2 else 'do'} {count(len(perfect) - 1, 'other class', 'other classes')}" if len(perfect) > 1 else ""
    more = [f"{said}{others}.", FAILING_ONLY, *bridges.second_reading(case)]
    more.append("A defect that shows now and then fits, too: log the passing patterns as well.")
    return Verdict(f"A stuck-at fault{', a bridge' if case.exact else ''} or a defect that shows now and then", more, SINGLE)


def unlogged(case: Case, number: int) -> list[str]:
    """Which bits the log lacks that a fault that fits would fail, in a sentence."""
    lacks = ones_in(case.unlogged[number])
    return [f"The log lacks bits of {count(lacks, 'pattern')} that this fault would fail."] if lacks else []


def also(case: Case) -> Iterator[tuple[int, list[int]]]:
    """For each number of the cover the listed numbers, best first, that explain all failing patterns that are new with it."""
    left = case.failing
    for number, _ in case.cover:
        new = case.explained[number] & left
        left &= ~new
        yield number, [it for it, word in case.explained.items() if not new & ~word]


def nearest_cover(case: Case) -> list[tuple[int, int]]:
    """The cover with its counts, with the best suspect in place of each number that explains no more."""
    return [(others[0], explained) for (_, others), (_, explained) in zip(also(case), case.cover)]


def uneven(case: Case) -> Verdict:
    """The verdict if no class explains each failing pattern."""
    first, failing = case.suspects[0], count(case.failing_count, "failing pattern")
    if not case.cover:
        bits = f"{first.hit:,} of {count(case.wrong_bits, 'failing bit')}, and would fail {first.false:,} that passed"
        more = [f"The nearest is {in_short(case, first.number)}: it hits {bits}."]
        return Verdict(f"No stuck-at fault explains any of the {failing} completely: several defects act at once", more, UNEXPLAINED)
    chosen, rest = nearest_cover(case), case.failing_count - case.covered
    if len(chosen) == 1:
        more = [f"{capital(in_short(case, chosen[0][0]))} explains {case.covered:,} of the {failing}; no fault explains the rest."]
        return Verdict(f"{NEITHER}: several defects act at once", more, PARTLY)
    named = [f"{explained:,} by {in_short(case, it)}" for it, explained in chosen[:3]]
    named += [f"others by {count(len(chosen) - 3, 'more class', 'more classes')}"] if len(chosen) > 3 else []
    whole = f"{case.covered:,} of the {failing} are" if rest else "Both failing patterns are" if case.covered == 2 else f"All {failing} are"
    more = [f"{whole} explained together: {', '.join(named)}."]
    return Verdict(f"{NEITHER}: several defects", more + bridges.nearest(case, case.logged_count), PARTLY if rest else SEVERAL)
