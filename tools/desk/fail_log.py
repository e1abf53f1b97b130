"""Makes a log from a list of failing bits and the expected log.

A bit that isn't listed passed, up to the last pattern that was applied. Once the tester's memory of fails was full, nothing is known, and the
log has x."""

from __future__ import annotations

from typing import Dict, Iterator, List, NamedTuple, Optional

from bench import Netlist
from fail_list import LIMITS, Fail, FailList, Setting, fields_of, texts_of
from helping import number_of
from reading import at_line
from refusals import LARGEST
from report_words import count
from telling import named
from words import near

BITS = {"0": "0", "L": "0", "1": "1", "H": "1"}
OTHER = {"0": "1", "1": "0"}


class Pins:
    """Finds the position of a pin by its name, by what tools/pins calls it, or by the tester's name in a map."""

    def __init__(self, netlist: Netlist):
        self.netlist = netlist
        self.places: Dict[str, List[int]] = {}
        self.mapped: Dict[str, int] = {}
        for at, (kind, name) in enumerate(netlist.positions):
            for it in (name, f"{kind} {name}", f"position {at}"):
                self.places.setdefault(it, []).append(at)

    def map_by(self, name: str) -> None:
        """Adds a map: CSV of the tester's names and the netlist's."""
        lines: Dict[str, int] = {}
        for line, text in enumerate(texts_of(name), 1):
            place = at_line(name, line)
            fields = [] if text.lstrip().startswith("#") else fields_of(place, text)
            if not any(fields):
                continue
            if len(fields) != 2 or not all(fields):
                raise ValueError(f"{place}: a line of a map is the tester's name, a comma and the netlist's, as `so1:0,q7`")
            theirs, ours = fields
            if theirs in lines:
                raise ValueError(f"{place}: {named(theirs)} is in line {lines[theirs]} already")
            lines[theirs] = line
            self.mapped[theirs] = self.own(ours, place)

    def own(self, pin: str, place: str) -> int:
        """The position of a pin by the netlist's names."""
        found = self.places.get(pin, [])
        if len(found) == 1:
            return found[0]
        if found:
            which = " and ".join([", ".join(map(str, found[:-1])), str(found[-1])])
            raise ValueError(f"{place}: {named(pin)} is the name of the positions {which}: say one, as `position {found[0]}`, in a map")
        raise ValueError(f"{place}: no output or scan cell is called {named(pin)}{self.hint(pin)}")

    def hint(self, pin: str) -> str:
        """What a pin may be if it is no position."""
        if pin in self.netlist.kinds:
            return ": it is an input, and isn't observed"
        cell = next((name for (kind, name), line in zip(self.netlist.positions, self.netlist.shown) if kind == "cell" and line == pin), None)
        return f": it is the line that the scan cell {cell} reads" if cell else near(pin, [name for _, name in self.netlist.positions])

    def place_of(self, pin: str, place: str) -> int:
        """The position of a pin by the tester's names, or else by the netlist's."""
        return self.mapped[pin] if pin in self.mapped else self.own(pin, place)


class Seen(NamedTuple):
    """A failing bit that was accepted, and the line of the list that has it."""

    bit: str
    line: int


class FailLog:
    """The log of a chip: `expected` has the bits of each pattern, and `seen` the failing bits by pattern and position."""

    def __init__(self, listed: FailList, pins: Pins, expected: Dict[int, str], expected_name: str, options: Dict[str, Setting]):
        self.listed, self.pins, self.expected, self.expected_name = listed, pins, expected, expected_name
        kept = {it: one for it, one in listed.settings.items() if it not in LIMITS or not any(it in options for it in LIMITS)}
        self.settings = {**kept, **options}
        if all(it in self.settings for it in LIMITS):
            raise ValueError(f"{self.settings[LIMITS[1]].place}: there is a `limit` already, and the two don't go together")
        self.first = self.number("first") or 0
        self.seen: Dict[int, Dict[int, Seen]] = {}
        for fail in listed.fails:
            self.take(fail)
        self.count = len(listed.fails)
        self.end = self.ended()

    def number(self, setting: str) -> Optional[int]:
        """The number of a setting, or None if it isn't given."""
        return self.settings[setting].number if setting in self.settings else None

    def span(self) -> str:
        """Which patterns the expected log has, in words, and from where the tester counts them."""
        numbers = list(self.expected)
        if not numbers:
            return "has no pattern"
        counted = f", which the tester counts from {self.first}" if self.first else ""
        return f"has {numbers[0]} to {numbers[-1]}{counted}"

    def pattern_of(self, text: str, place: str) -> int:
        """The pattern of a fail, by its number in the expected log."""
        try:
            number = number_of("a pattern", text, 0, LARGEST) - self.first
        except ValueError as error:
            raise ValueError(f"{place}: {error}") from None
        if number not in self.expected:
            mend = ". If the tester counts from 1, --first 1 says so" if not self.first and number - 1 in self.expected else ""
            raise ValueError(f"{place}: there is no pattern {text}: {named(self.expected_name)} {self.span()}{mend}")
        last = self.settings.get("last")
        if last and number > last.number - self.first:
            raise ValueError(f"{place}: pattern {text} comes behind the last that was applied, which is {last.number} by {last.place}")
        return number

    def position_of(self, fail: Fail, place: str) -> int:
        """The position of a fail."""
        if self.listed.column == "pin":
            return self.pins.place_of(fail.pin, place)
        positions = len(self.pins.netlist.positions)
        if not positions:
            raise ValueError(f"{place}: the netlist has no positions")
        try:
            return number_of("a position", fail.pin, 0, positions - 1)
        except ValueError as error:
            raise ValueError(f"{place}: {error}") from None

    def take(self, fail: Fail) -> None:
        """Adds a fail."""
        place = at_line(self.listed.name, fail.line)
        pattern, position = self.pattern_of(fail.pattern, place), self.position_of(fail, place)
        row = self.seen.setdefault(pattern, {})
        if position in row:
            raise ValueError(f"{place}: line {row[position].line} has this bit already, {self.bit_name(fail)}")
        row[position] = Seen(self.bit(fail, self.expected[pattern][position], place), fail.line)

    def bit_name(self, fail: Fail) -> str:
        """The failing bit in words."""
        return f"{self.listed.column} {named(fail.pin)} at pattern {fail.pattern}"

    def bit(self, fail: Fail, expected: str, place: str) -> str:
        """The bit that a fail leaves in the log."""
        if not fail.observed and expected == "x":
            raise ValueError(f"{place}: what a good chip answers isn't known for {self.bit_name(fail)}, so `observed` has to say what was seen")
        found = BITS.get(fail.observed.upper(), "x") if fail.observed else OTHER[expected]
        if found == expected != "x":
            causes = "another `first`, map or list of patterns than the tester's shows so"
            raise ValueError(f"{place}: a good chip answers {found} too, for {self.bit_name(fail)}, so this is no fail: {causes}")
        return found

    def full(self) -> bool:
        """Whether the memory that all fails share was full."""
        limit = self.number("limit")
        return limit is not None and self.count >= limit

    def ended(self) -> int:
        """The last pattern of the log."""
        last = self.settings.get("last")
        if last and not self.full():
            number = last.number - self.first
            if not self.expected or not next(iter(self.expected)) <= number <= max(self.expected):
                raise ValueError(f"{last.place}: there is no pattern {last.number}: {named(self.expected_name)} {self.span()}")
            return number
        if not self.seen:
            what = "has no fail, and which pattern was applied last isn't said: --last says it, or a line `# last N`"
            raise ValueError(f"{named(self.listed.name)} {what}")
        return max(self.seen)

    def filled(self) -> Dict[int, int]:
        """The positions for which the tester kept no further fail, each with the last pattern at which it kept one."""
        limit, counts, last = self.number("pin-limit"), {}, {}
        for pattern in sorted(self.seen if limit else ()):
            for position in self.seen[pattern]:
                counts[position] = counts.get(position, 0) + 1
                last[position] = pattern
        return {it: last[it] for it, count in counts.items() if count >= limit}

    def rows(self) -> Iterator[str]:
        """The lines of the log."""
        filled, full = self.filled(), self.full()
        for number, bits in self.expected.items():
            if number > self.end:
                break
            seen = self.seen.get(number, {})
            row = ["x"] * len(bits) if full and number == self.end else list(bits)
            for position, last in filled.items():
                if number > last:
                    row[position] = "x"
            for position, it in seen.items():
                row[position] = it.bit
            yield f"{number} {''.join(row) or '-'}\n"

    def told(self) -> str:
        """What standard error says about the log."""
        fails = f"{count(self.count, 'failing bit')} at {count(len(self.seen), 'pattern')}"
        end = f"the log ends with pattern {self.end + self.first}"
        if self.full():
            return f"{fails}; {end}, where the memory was full"
        if "last" not in self.settings:
            return f"{fails}; {end}, the last that failed: if more were applied, --last says so"
        return f"{fails}; {end}"
