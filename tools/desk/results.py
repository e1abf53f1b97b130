"""Reads results and names of faults for the helpers. Nothing is checked: the program's `check` does that."""

from __future__ import annotations

import functools
import os
import subprocess
from collections.abc import Iterable, Iterator

TOP = os.path.dirname(os.path.dirname(os.path.dirname(os.path.realpath(__file__))))
LONGEST = 1 << 24  # bytes of a line that are read; the rest is skipped
MARKS = {
    "C": "equal, as the gates alone show (C)",
    "T": "equal, as a tree of cubes shows (T)",
    "R": "equal, as a refutation shows (R)",
    "O": "open: no vector that tells it from the lowest was found (O)",
}


def lines(name: str) -> Iterator[list[str]]:
    """The fields of each line of a result; of a long line the first ones."""
    with open(name, "rb") as file:
        while line := file.readline(LONGEST):
            yield line.decode("latin-1").split(maxsplit=4)
            while line and not line.endswith(b"\n"):
                line = file.readline(LONGEST)


class Result:
    """The number of sources of a result, its patterns, and for each class except the first the class that it was a part of and the pattern that
    split it off (`births`). Also the class and the mark of each number, and the last evidence of each member."""

    def __init__(self, name: str) -> None:
        self.patterns, self.births, self.classes, self.marks, self.evidence = [], {}, {}, {}, {}
        listed = lines(name)
        try:
            fields = next(listed, [])
            self.sources = int(fields[2])
            for fields in listed if fields[0] == "diatest" else ():
                if fields[0] == "pattern":
                    self.patterns.append("" if fields[1] == "-" else fields[1])
                elif fields[0] == "same":
                    self.evidence[int(fields[1])] = fields[3]
                elif fields[0] == "class" and fields[2] != "-":
                    self.births[int(fields[1])] = int(fields[2]), int(fields[3])
                elif fields[0] == "member":
                    self.classes[int(fields[1])], self.marks[int(fields[1])] = int(fields[2]), fields[3]
        except (LookupError, ValueError):
            fields = []
        if fields != ["end"]:
            raise ValueError(f"{name} is no complete result: ./diatest check says where")

    @functools.cached_property
    def members(self) -> dict[int, list[int]]:
        """The numbers of each class, in order."""
        found = {}
        for number, its_class in self.classes.items():
            found.setdefault(its_class, []).append(number)
        return found


def names_in(listing: Iterable[str], numbers: Iterable[int]) -> dict[int, tuple[int, list[str]]]:
    """The root and the name's fields of each of these numbers, from the lines of the program's list of faults."""
    found, wanted = {}, {str(it) for it in numbers}
    for line in listing:
        number, _, rest = line.partition(" ")
        if number in wanted:
            root, *name = rest.split()
            found[int(number)] = int(root), name
    return found


def vectors_of(name: str) -> list[str]:
    """The vectors of a list."""
    with open(name, encoding="latin-1") as file:
        found = ["" if it == "-\n" else it.rstrip("\n") for it in file]
    if not all(set(it) <= set("01") for it in found):
        raise ValueError(f"{name} is no list of vectors: ./diatest sim says where")
    return found


def names_of(netlist: str, numbers: Iterable[int]) -> dict[int, tuple[int, list[str]]]:
    """The same, from the list of faults that the program prints for a netlist."""
    with subprocess.Popen([f"{TOP}/diatest", "faults", netlist], stdout=subprocess.PIPE, text=True, encoding="latin-1") as listing:
        found = names_in(listing.stdout, numbers)
    if listing.returncode:
        raise ValueError(f"{netlist} has no list of faults")
    return found


def in_words(name: list[str]) -> str:
    """A fault's name in words."""
    if name == ["free"]:
        return "the circuit without a fault"
    kind, line, *site, value = name
    where = {"S": "", "G": " where gate {} reads it as its pin {}", "O": " where position {} shows it"}[kind].format(*site)
    return f"line {line} stuck at {value}{where}"
