"""What a report says about the next step: what the first suspect leaves open, what distinguishes the first two, and what the lab does. All texts
are plain; a pattern to apply is kept beside the sentence that asks for it."""

from typing import NamedTuple

import bench
from report_bridges import layout
from report_case import Case, Score, numbers_in, ones_in, union
from report_chain import dead
from report_place import in_short, position
from report_words import count
from report_wrong_log import Doubt

NAMED = 8  # patterns or positions in a sentence


class Step(NamedTuple):
    """Sentences, the pattern that they ask for, if any, and whether it is a pattern of the result although a list was applied."""

    said: list
    pattern: object = None
    further: bool = False


class Left(NamedTuple):
    """What a suspect leaves open at a position: its missed and its false bits, each a word of patterns."""

    at: int
    missed: int
    false: int


def left_open(case: Case, number: int) -> list[Left]:
    """Where a suspect misses bits or has false ones, the most first."""
    words = enumerate(zip(case.missed(number), case.false(number)))
    found = [Left(at, missed, false) for at, (missed, false) in words if missed or false]
    return sorted(found, key=lambda it: (-ones_in(it.missed) - ones_in(it.false), it.at))


def some(texts: list[str], most: int = NAMED) -> str:
    """Some texts, and how many more there are."""
    return ", ".join(texts[:most]) + (f" and {len(texts) - most:,} more" if len(texts) > most else "")


def patterns(word: int) -> str:
    """The patterns of a word, in words."""
    found = numbers_in(word)
    return f"{'pattern' if len(found) == 1 else 'patterns'} {some([str(it) for it in found])}"


def at_positions(case: Case, words: list[int], one: str, many: "str | None") -> str:
    """How many bits there are and at which positions, in words."""
    found = [(ones_in(word), at) for at, word in enumerate(words) if word]
    total = sum(bits for bits, _ in found)
    named = some([position(case.netlist, at) for _, at in sorted(found, key=lambda it: (-it[0], it[1]))], 4)
    return f"{count(total, one, many)}, {'all at ' if len(found) == 1 and total > 1 else 'at '}{named}"


def first_leaves(case: Case, it: Score) -> list[str]:
    """Which bits the first suspect misses, and which it has false."""
    said = []
    if it.missed:
        words = case.missed(it.number)
        said.append(f"The first suspect misses {at_positions(case, words, 'failing bit', None)} ({patterns(union(words))}).")
        if sum(map(bool, words)) == 1 and it.missed > 1:
            said.append("Look for a second defect that reaches this position.")
    if it.false:
        words = case.false(it.number)
        bits = at_positions(case, words, "bit that passed", "bits that passed")
        said.append(f"The first suspect would also fail {bits} ({patterns(union(words))}).")
    return said


def differ(case: Case, one: int, other: int) -> list[int]:
    """The bits that two numbers answer differently: a word for each position."""
    return [a ^ b for a, b in zip(case.answers(one), case.answers(other))]


def fullest(words: list[int]) -> "tuple[int, int] | None":
    """The pattern that is in most of the words, the lowest of several, and the place of the first word that has it; None if all are 0."""
    counts = {}
    for word in words:
        for it in numbers_in(word):
            counts[it] = counts.get(it, 0) + 1
    if not counts:
        return None
    pattern = min(counts, key=lambda it: (-counts[it], it))
    return pattern, next(at for at, word in enumerate(words) if word >> pattern & 1)


def agreeing(case: Case, number: int, words: list[int]) -> int:
    """At how many of these observed bits the chip answered as a number."""
    return sum(ones_in(~(word ^ chip) & bits) for word, chip, bits in zip(case.answers(number), case.ones, words))


def first_two(case: Case) -> Step:
    """Which patterns distinguish the first two suspects, and how the chip answered there."""
    one, other = (it.number for it in case.suspects[:2])
    words = differ(case, one, other)
    seen = [word & it for word, it in zip(words, case.seen)]
    said = [f"The first two suspects are {in_short(case, one)} and {in_short(case, other)}."]
    if any(seen):
        total, alike = sum(map(ones_in, seen)), agreeing(case, one, seen)
        tells = f"{patterns(union(seen))} {'tells' if ones_in(union(seen)) == 1 else 'tell'} them apart"
        so = f"of the {total:,} bits there, the chip answered {alike:,} as the first and {total - alike:,} as the second"
        said.append(f"In the log, {tells}: {so if total > 1 else 'the chip answered as the ' + ('first' if alike else 'second')}.")
    unseen = fullest([word & ~it for word, it in zip(words, case.seen)])
    if not unseen:
        return Step(said) if any(words) or "vectors" not in case.files else further(case, one, other, said)
    pattern, at = unseen
    bits = [case.answers(it)[at] >> pattern & 1 for it in (one, other)]
    where = position(case.netlist, at)
    said.append(f"The log lacks pattern {pattern} at {where}, which {'also tells' if any(seen) else 'would tell'} them apart: apply it.")
    said.append(f"At {where} the first suspect predicts {bits[0]}, the second {bits[1]}.")
    return Step(said, pattern)


def further(case: Case, one: int, other: int, said: list[str]) -> Step:
    """The pattern of the result that distinguishes two suspects, if no vector of the applied list does."""
    answers = [bench.answers(case.netlist, case.result.patterns, case.names[it]) for it in (one, other)]
    found = fullest([a ^ b for a, b in zip(*answers)])
    case.agree(found is not None, "the classes of the suspects")
    pattern, at = found
    bits, where = [it[at] >> pattern & 1 for it in answers], position(case.netlist, at)
    tells = f"No vector of the list tells them apart. Pattern {pattern} of the result does, at {where}: apply it, too."
    return Step([*said, tells, f"At {where} the first suspect predicts {bits[0]}, the second {bits[1]}."], pattern, True)


def in_the_lab(case: Case, first: Score) -> list[str]:
    """What the lab does next, if the log has all that the patterns can show."""
    members = case.members[first.number]
    aborted = [it for it in members if case.result.evidence.get(it) == "O"]
    if case.perfect(first):
        said = ["The log rules out every other class."] if sum(map(case.perfect, case.suspects)) == 1 and not case.failing_only() else []
        if len(members) > 1:
            none = "No pattern of the result and no vector of the list" if "vectors" in case.files else "No pattern of the result"
            alike = f"{none} tells the {len(members):,} faults of this class apart"
            said.append(f"{alike}: inspect these places, the nearest to the inputs first.")
        if aborted:
            it = f"{count(len(aborted), 'fault')} of the class {'is' if len(aborted) == 1 else 'are'} open"
            said.append(f"{it}: gen with a larger --conflicts may find a vector that tells {'it' if len(aborted) == 1 else 'them'} from the lowest.")
        return said
    if not case.shows[first.number] and case.cover:
        return ["Inspect the places of the classes that together explain the failing patterns."]
    return ["Repeat the test at another voltage and speed: a defect that shows now and then changes with them, a stuck net doesn't."]


def shorted(case: Case) -> Step:
    """What the lab does if a bridge is the verdict, and the pattern that distinguishes the first two bridges, if the log lacks one."""
    said = [layout(case)]
    if len(case.exact) == 1:
        return Step(said)
    one, other = map(case.bridge_answers, case.exact[:2])
    unseen = fullest([(a ^ b) & ~seen for a, b, seen in zip(one, other, case.seen)])
    if not unseen:
        none = "No vector of the list" if "vectors" in case.files else "No pattern of the result"
        return Step(said + [f"{none} tells the first two bridges apart."])
    pattern, at = unseen
    bits = [it[at] >> pattern & 1 for it in (one, other)]
    said.append(f"The log lacks pattern {pattern} at {position(case.netlist, at)}, which would tell the first two bridges apart: apply it.")
    return Step(said + [f"There the first bridge predicts {bits[0]}, the second {bits[1]}."], pattern)


def next_step(case: Case, doubt: "Doubt | None") -> Step:
    """What to do next; a scan chain that looks broken comes first."""
    step = of_log(case, doubt)
    if dead(case):
        first = "Shift a pattern of zeros and ones through the scan chain: if it doesn't come out, repair the chain first."
        return step._replace(said=[first, *step.said])
    return step


def of_log(case: Case, doubt: "Doubt | None") -> Step:
    """What to do next if the scan chain is right."""
    if doubt:
        check = "compare the tester's list of patterns, its pin order and its levels with the result"
        return Step([f"Check the log before the chip: {f'try it with {doubt.best.change}' if doubt.best else check}."])
    if not case.suspects:
        return Step(["Check that the log is of this circuit and of these patterns."])
    if case.bridged():
        return shorted(case)
    first = case.suspects[0]
    step = first_two(case) if len(case.suspects) > 1 else Step(["There is only one suspect."])
    return step._replace(said=first_leaves(case, first) + step.said + in_the_lab(case, first))
