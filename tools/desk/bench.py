"""Reads netlists in the .bench format, and simulates them. They are assumed to be right: the program says where one isn't."""

from __future__ import annotations

import functools
import re
from collections.abc import Iterable

TOKEN = re.compile(r"#[^\r\n]*|[(),=]|[^\s(),=#]+")


class Netlist:
    """The full-scan cut of a netlist. `sources` and `positions` have a pair for each: its kind (input, output or cell), and its name or that of
    the cell. `shown` has the name that each position shows, `kinds` the kind of each source by its name, and `gates` the gate word and the
    pins of each driven name."""

    def __init__(self, text: str) -> None:
        tokens = [it for it in TOKEN.findall(text) if not it.startswith("#")]
        inputs, outputs, cells, self.gates = [], [], [], {}
        at = 0
        while at < len(tokens):
            end = tokens.index(")", at)
            if tokens[at + 1] == "=":
                word, pins = tokens[at + 2].upper(), [it for it in tokens[at + 4 : end] if it != ","]
                if word == "DFF":
                    cells.append((tokens[at], pins[0]))
                else:
                    self.gates[tokens[at]] = ("BUFF" if word == "BUF" else word, pins)
            else:
                (inputs if tokens[at].upper() == "INPUT" else outputs).append(tokens[at + 2])
            at = end + 1
        self.sources = [("input", it) for it in inputs] + [("cell", it) for it, _ in cells]
        self.positions = [("output", it) for it in outputs] + [("cell", it) for it, _ in cells]
        self.shown = outputs + [it for _, it in cells]
        self.kinds = {name: kind for kind, name in self.sources}

    @functools.cached_property
    def order(self) -> list[str]:
        """The driven names, each after those of its pins."""
        done, order = {it for _, it in self.sources}, []
        for root in self.gates:
            stack = [root]
            while stack:
                todo = [] if stack[-1] in done else [it for it in self.gates[stack[-1]][1] if it not in done]
                if todo:
                    stack += todo
                    continue
                name = stack.pop()
                if name not in done:
                    done.add(name)
                    order.append(name)
        return order

    @functools.cached_property
    def place(self) -> dict[str, int]:
        """The place of each driven name in `order`."""
        return {name: at for at, name in enumerate(self.order)}

    @functools.cached_property
    def levels(self) -> dict[str, int]:
        """The number of gates on the longest path to each name: 0 for a source."""
        found = {name: 0 for _, name in self.sources}
        for name in self.order:
            found[name] = 1 + max((found[it] for it in self.gates[name][1]), default=0)
        return found

    @functools.cached_property
    def shown_lines(self) -> set[str]:
        """The names that some position shows."""
        return set(self.shown)

    @functools.cached_property
    def readers(self) -> dict[str, list[tuple[str, int]]]:
        """For each name the gates that read it, in order, each with the pin."""
        found = {}
        for gate, (_, pins) in self.gates.items():
            for pin, name in enumerate(pins):
                found.setdefault(name, []).append((gate, pin))
        return found

    def cone(self, names: Iterable[str]) -> set[str]:
        """The names whose values the given names can change, and the given names."""
        found, stack = set(names), list(names)
        while stack:
            for gate, _ in self.readers.get(stack.pop(), ()):
                if gate not in found:
                    found.add(gate)
                    stack.append(gate)
        return found


def netlist_of(text: str, name: str) -> Netlist:
    """The netlist of a file's text. Raises a ValueError if the text is none."""
    try:
        return Netlist(text)
    except (IndexError, ValueError):
        raise ValueError(f"{name} is no netlist: ./diatest faults {name} says where") from None


def read(name: str) -> Netlist:
    """The netlist of a file. Raises a ValueError if the file is none."""
    with open(name, encoding="latin-1") as file:
        return netlist_of(file.read(), name)


def gate_value(word: str, pins: list[int], full: int) -> int:
    """The function of a gate on words that have a bit for each vector."""
    if word == "MUX":
        return pins[1] & ~pins[0] | pins[2] & pins[0]
    if word in ("AND", "NAND", "CONST1"):
        value = full
        for it in pins:
            value &= it
    elif word in ("OR", "NOR", "CONST0"):
        value = 0
        for it in pins:
            value |= it
    else:  # XOR, XNOR, NOT, BUFF
        value = 0
        for it in pins:
            value ^= it
    return full & ~value if word in ("NAND", "NOR", "XNOR", "NOT") else value


def values(netlist: Netlist, vectors: list[str], forced: dict[str, int] | None = None) -> dict[str, int]:
    """The value of each name: a word with a bit for each vector, the first one lowest. `forced` has the words of names that a defect sets."""
    full, value, forced = (1 << len(vectors)) - 1, {}, forced or {}
    columns = zip(*reversed(vectors)) if vectors else [""] * len(netlist.sources)
    for (_, name), column in zip(netlist.sources, columns):
        value[name] = forced[name] if name in forced else int("0" + "".join(column), 2)
    for name in netlist.order:
        word, pins = netlist.gates[name]
        value[name] = forced[name] if name in forced else gate_value(word, [value[it] for it in pins], full)
    return value


def behind(netlist: Netlist, value: dict[str, int], now: dict[str, int], full: int) -> dict[str, int]:
    """The words `now` that a defect gives to names, and the words of all names that these can change. `value` has the words without the
    defect."""
    now = dict(now)
    for name in sorted(netlist.cone(now) - now.keys(), key=netlist.place.get):
        word, pins = netlist.gates[name]
        now[name] = gate_value(word, [now.get(it, value[it]) for it in pins], full)
    return now


def changed(netlist: Netlist, value: dict[str, int], fault: list[str], full: int) -> dict[str, int]:
    """The words of the names that a fault can change. `fault` has the fields of its name, and `value` the words without it."""
    kind, *site, stuck = fault
    stuck = full if stuck == "1" else 0
    if kind == "O":
        return {}
    if kind == "S":
        return behind(netlist, value, {site[0]: stuck}, full)
    word, pins = netlist.gates[site[1]]
    seen = [value[it] for it in pins]
    seen[int(site[2])] = stuck
    return behind(netlist, value, {site[1]: gate_value(word, seen, full)}, full)


def answers(netlist: Netlist, vectors: list[str], fault: list[str] | None = None, free: dict[str, int] | None = None) -> list[int]:
    """What each position shows: a word with a bit for each vector, the first one lowest. `fault` has the fields of a fault's name, and `free`
    the values without it, if they are known."""
    full = (1 << len(vectors)) - 1
    value = free or values(netlist, vectors)
    now = changed(netlist, value, fault, full) if fault else {}
    shown = [now.get(it, value[it]) for it in netlist.shown]
    if fault and fault[0] == "O":
        shown[int(fault[2])] = full if fault[-1] == "1" else 0
    return shown
