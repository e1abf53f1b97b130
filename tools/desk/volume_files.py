"""The tables of a lot as files: nets.csv, bridges.csv and chips.csv for a spreadsheet, and volume.json for a program."""

from __future__ import annotations

import csv
import io
from typing import Any, Dict, Iterable, List

from volume_lot import Lot, as_json
from volume_sums import Row, kinds
from volume_words import Sums

SHARES = ("chips", "weight", "share", "expected", "ratio")
CHIPS = ("log", "status", "kind", "stuck_at", "failing", "logged", "explained", "called", "nets", "exact_bridges", "bridge", "headline", "said")
INSIDE = ("of", "sum", "log")  # of an answer: what only its file needs, and what comes first


def table(heads: Iterable[str], rows: Iterable[Iterable[Any]]) -> str:
    """A table as CSV."""
    text = io.StringIO()
    writer = csv.writer(text, lineterminator="\n")
    writer.writerow(heads)
    writer.writerows(rows)
    return text.getvalue()


def number(it: float) -> str:
    """A share with four places, or a small one with three digits."""
    return f"{it:.4f}" if it >= 0.001 or not it else f"{it:.3g}"


def shares(it: Row) -> List[str]:
    """The fields of a row of a Pareto after its names."""
    return [str(it.chips), f"{it.weight:.3f}", number(it.share), number(it.expected), f"{it.ratio:.2f}"]


def nets_csv(sums: Sums) -> str:
    """The nets that are called out."""
    return table(("net", *SHARES), ([*it.nets, *shares(it)] for it in sums.nets))


def bridges_csv(sums: Sums) -> str:
    """The pairs of nets that bridges call out."""
    return table(("first", "second", *SHARES), ([*it.nets, *shares(it)] for it in sums.bridges))


def chip_fields(answer: Dict[str, Any]) -> Dict[str, Any]:
    """The fields of a chip. Equally good callouts have | between them; those of a cover have a space."""
    found = {name: answer.get(name, "") for name in CHIPS}
    found["called"] = " ".join("|".join(map(str, group)) for group in answer.get("called", []))
    found["nets"] = " ".join(answer.get("nets", {}))
    found["bridge"] = " ".join(answer["bridges"][0]) if answer.get("bridges") else ""
    return found


def chips_csv(sums: Sums) -> str:
    """A row for each chip."""
    return table(CHIPS, (chip_fields(it).values() for it in sums.answers))


def as_rows(rows: List[Row]) -> List[Dict[str, Any]]:
    """The rows of a Pareto for JSON."""
    return [{**it._asdict(), "ratio": it.ratio} for it in rows]


def volume_json(lot: Lot, sums: Sums) -> str:
    """The whole lot as JSON."""
    chips = [{"log": it["log"], **{name: value for name, value in it.items() if name not in INSIDE}} for it in sums.answers]
    found = {
        **lot.files(),
        "sums": lot.sums,
        "kinds": dict(kinds(sums.answers)),
        "stuck_at": dict(kinds((it for it in sums.answers if it.get("stuck_at")), "stuck_at")),
        "nets": as_rows(sums.nets),
        "bridges": as_rows(sums.bridges),
        "patterns": [it._asdict() for it in sums.patterns],
        "positions": [it._asdict() for it in sums.positions],
        "chips": chips,
    }
    return as_json(found)
