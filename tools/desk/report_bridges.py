"""What a report says about bridges: which two nets, which of them wins, and which bridges answer alike. All texts are plain."""

from report_case import Bridge, Case

WINS = {"and": "0 wins", "or": "1 wins"}
NAMED = 3  # bridges in a sentence


def kind(it: Bridge) -> str:
    """The kind of a bridge."""
    return f"shorted, {WINS[it.kind]}" if it.kind in WINS else "the first net drives the second"


def sentence(it: Bridge) -> str:
    """A bridge as a sentence without its end."""
    if it.kind in WINS:
        return f"nets {it.first} and {it.second} are shorted, and {WINS[it.kind]}"
    return f"net {it.first} drives net {it.second}"


def end(it: Bridge, line: str) -> str:
    """What a bridge does at one of its nets."""
    other = it.second if line == it.first else it.first
    if it.kind in WINS:
        return f"shorted to {other}, {WINS[it.kind]}"
    return f"drives {other}" if line == it.first else f"driven by {other}"


def other_end(it: Bridge, line: str, value: str) -> "str | None":
    """The net at the other end of a bridge if this net is its victim with this value, else None."""
    if line not in it.lines() or it.kind == "and" and value == "1" or it.kind == "or" and value == "0":
        return None
    if it.kind == "dominant":
        return it.first if line == it.second else None
    return it.second if line == it.first else it.first


def alike(case: Case) -> list[str]:
    """Which other bridges predict every observed bit, in a sentence."""
    others, named = case.exact_count - 1, [sentence(it) for it in case.exact[1:NAMED]]
    if not others:
        return []
    said = "One other bridge answers" if others == 1 else f"{others:,} other bridges answer"
    rest = f", and {others - len(named):,} more" if others > len(named) else ""
    return [f"{said} alike at these patterns: {'; '.join(named)}{rest}."]


def second_reading(case: Case) -> list[str]:
    """The bridges that fit as a class does, in a sentence."""
    if not case.exact:
        return []
    said = "One bridge fits as well" if case.exact_count == 1 else f"{case.exact_count:,} bridges fit as well, this one first"
    return [f"{said}: {sentence(case.exact[0])}."]


def as_well(case: Case) -> str:
    """How many bridges predict every observed bit as a class does, at the end of a sentence."""
    if not case.exact:
        return ""
    return f"; {'one bridge predicts' if case.exact_count == 1 else f'{case.exact_count:,} bridges predict'} the log as well"


def nearest(case: Case, passed: int) -> list[str]:
    """What the best bridge lacks, if none is exact and it fails fewer patterns that passed than the first suspect does, in a sentence."""
    best = case.bridges[0] if case.bridges else None
    if best and best.false < passed:
        fails = f"{best.false:,} pattern{'' if best.false == 1 else 's'} that passed"
        return [f"The nearest bridge explains each failing pattern, but would also fail {fails}: {sentence(best)}."]
    return [f"No bridge of two nets {'does better' if best else 'explains them all'}, unless it closes a loop."]


def layout(case: Case) -> str:
    """Which pairs of nets to look for in the layout, in a sentence."""
    pairs = list(dict.fromkeys(tuple(sorted(it.lines())) for it in case.exact))
    said = [f"{one} and {other}" for one, other in pairs[:NAMED]]
    if len(pairs) == 1 and case.exact_count <= len(case.exact):
        return f"Check the layout for a bridge between nets {said[0]}."
    more = "" if len(pairs) <= NAMED and case.exact_count <= len(case.exact) else ", or others of the table"
    return f"Check the layout for a bridge between nets {', or '.join(said)}{more}: the one whose nets lie side by side."
