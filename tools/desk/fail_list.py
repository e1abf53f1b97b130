"""Reads a tester's list of failing bits: CSV with a heading, and remarks that mean what the options of tools/faillog mean.

It is read line by line, so that the place of each fail is known. So a quoted field can't go on in the next line."""

from __future__ import annotations

import csv
import os
import re
import shlex
from typing import Dict, List, NamedTuple, Optional

import mends
from helping import number_of
from reading import at_line
from refusals import LARGEST
from telling import named

COLUMNS = ("pattern", "pin", "position", "observed")
SETTINGS = ("first", "last", "limit", "pin-limit")
SETTING = re.compile(rf"#+\s*({'|'.join(SETTINGS)})[\s:=,;]+([^\s,;]*[0-9][^\s,;]*)[\s,;]*", re.IGNORECASE)
LIMITS = ("limit", "pin-limit")


class Fail(NamedTuple):
    """A line of the list, as it is written there."""

    line: int
    pattern: str
    pin: str  # or the number of a position
    observed: Optional[str]


class Setting(NamedTuple):
    """A number that a remark or an option gives, and the place where it does."""

    number: int
    place: str


def fields_of(place: str, text: str) -> List[str]:
    """The fields of a line, without the blanks around them."""
    try:
        return [it.strip() for it in next(csv.reader([text], strict=True, skipinitialspace=True), [])]
    except csv.Error as error:
        quoted = "a field has no quotation mark, or one at its front and one at its end" if '"' in text else str(error)
        raise ValueError(f"{place}: this is no line of CSV: {quoted}") from None


def texts_of(name: str) -> List[str]:
    """The lines of a CSV file. A tester may have written it on another system, with a byte order mark and with CR before LF."""
    with open(name, "rb") as file:
        content = file.read()
    content = content[3:] if content.startswith(b"\xef\xbb\xbf") else content
    encoded = mends.of_file(content[:8], name)
    if encoded:
        raise ValueError(f"{named(name)} is no CSV.{encoded}")
    texts = content.decode("utf-8", "surrogateescape").split("\n")
    return [it[:-1] if it.endswith("\r") else it for it in texts]


class FailList:
    """The list in a file. `column` is whether its fails name pins or positions, and `settings` has the numbers that its remarks give."""

    def __init__(self, name: str):
        self.name = name
        self.fails: List[Fail] = []
        self.settings: Dict[str, Setting] = {}
        self.columns: List[str] = []
        for line, text in enumerate(texts_of(name), 1):
            if text.lstrip().startswith("#"):
                self.take_remark(line, text)
                continue
            fields = fields_of(at_line(name, line), text)
            if any(fields) and fields[0].startswith("#"):
                self.take_remark(line, ",".join(fields))
            elif any(fields):
                self.take(line, fields)
        if not self.columns:
            raise ValueError(f"{named(name)} has no heading: its first line that is no remark names the columns, as `pattern,pin,observed`")

    def take_remark(self, line: int, text: str) -> None:
        """Adds the setting of a remark, if it gives one."""
        said = SETTING.fullmatch(text.strip())
        if not said:
            return
        what, place = said[1].lower(), at_line(self.name, line)
        if what in self.settings:
            raise ValueError(f"{place}: {self.settings[what].place} says `{what}` already")
        try:
            self.settings[what] = Setting(number_of(f"`{what}`", said[2], int(what in LIMITS), LARGEST), place)
        except ValueError as error:
            raise ValueError(f"{place}: {error}") from None

    def take(self, line: int, fields: List[str]) -> None:
        """Adds the heading or a fail."""
        if not self.columns:
            self.columns = self.heading(line, fields)
            return
        if len(fields) != len(self.columns):
            are = f"{len(fields)} field{'s' if len(fields) > 1 else ''}"
            raise ValueError(f"{at_line(self.name, line)}: the heading has {len(self.columns)} columns, and this line has {are}")
        by_column = dict(zip(self.columns, fields))
        self.fails.append(Fail(line, by_column["pattern"], by_column[self.column], by_column.get("observed")))

    @property
    def column(self) -> str:
        """Whether fails name pins or positions."""
        return "pin" if "pin" in self.columns else "position"

    def heading(self, line: int, fields: List[str]) -> List[str]:
        """The columns that the heading names."""
        columns, place = [it.lower() for it in fields], at_line(self.name, line)
        strange = next((it for it in columns if it not in COLUMNS), None)
        if strange is not None:
            raise ValueError(f"{place}: a heading has the columns `pattern`, `pin` or `position`, and maybe `observed`{self.mend(strange, columns)}")
        if len(set(columns)) < len(columns):
            raise ValueError(f"{place}: a column is there twice")
        if "pattern" not in columns:
            raise ValueError(f"{place}: the heading has no column `pattern`")
        if ("pin" in columns) == ("position" in columns):
            raise ValueError(f"{place}: the heading has to have one of `pin` and `position`{', and not both' if 'pin' in columns else ''}")
        return columns

    def mend(self, strange: str, columns: List[str]) -> str:
        """What is said about a heading with an unknown column."""
        to = f"{shlex.quote(os.fspath(self.name))} > NEW"
        parted = re.search(r"[;\t|]", strange)
        if parted:
            mark = {"\t": r"\t", "|": "[|]"}.get(parted[0], parted[0])
            return f", parted by commas. This mends it:\n  sed 's/{mark}/,/g' {to}"
        known = [str(at) for at, it in enumerate(columns, 1) if it in COLUMNS]
        cut = f". This leaves the others out:\n  cut -d , -f {','.join(known)} {to}" if "pattern" in columns and len(known) > 1 else ""
        return f", and not {named(strange)}{cut}"
