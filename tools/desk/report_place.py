"""Where the faults of a class are: the gate around which most of them lie, and all of them by net."""

import functools
import re
from typing import Iterator, NamedTuple

from bench import Netlist
from report_case import Case

PINS = 4  # pins of a gate that are named
NETS = 4  # nets of a class that are named


class Spot(NamedTuple):
    """Where most of a class lies: a gate, or a single net, pin or position; what is stuck there; and how many members lie elsewhere."""

    where: str
    what: str
    gate: bool
    more: int


class Near(NamedTuple):
    """A member of a class at a gate: its pin, or None for the output; the stuck value; and the net, if the member is the stem of a net."""

    member: int
    pin: object
    value: str
    net: object


def driver(netlist: Netlist, line: str) -> str:
    """What drives a line: the gate's word, `input` or `scan cell`."""
    return {"input": "input", "cell": "scan cell"}[netlist.kinds[line]] if line in netlist.kinds else netlist.gates[line][0]


def position(netlist: Netlist, at: int) -> str:
    """A position by name."""
    kind, name = netlist.positions[at]
    return f"output {name}" if kind == "output" else f"scan cell {name}"


def place(netlist: Netlist, name: list[str]) -> str:
    """Where a fault is: the output of a gate or another line, a pin of a gate, or a position."""
    kind, line, *site, _ = name
    if kind == "G":
        return f"pin {site[1]} of {netlist.gates[site[0]][0]} {site[0]}"
    if kind == "O":
        return f"at {position(netlist, int(site[0]))}"
    if line in netlist.gates:
        return f"output of {netlist.gates[line][0]} {line}"
    return f"{driver(netlist, line)} {line}"


def at_gates(netlist: Netlist, member: int, name: list[str]) -> Iterator[tuple[str, Near]]:
    """The gates at which a member is, and the member as it is there."""
    kind, line, *site, value = name
    if kind == "G":
        yield site[0], Near(member, int(site[1]), value, None)
    if kind != "S":
        return
    if line in netlist.gates:
        yield line, Near(member, None, value, line)
    readers = netlist.readers.get(line, ())
    if len(readers) == 1 and line not in netlist.shown_lines:
        gate, pin = readers[0]
        yield gate, Near(member, pin, value, line)


def either(texts: list[str]) -> str:
    """Some texts, with `or` before the last."""
    return texts[0] if len(texts) == 1 else f"{', '.join(texts[:-1])} or {texts[-1]}"


def stuck_pins(near: list[Near], all_pins: int) -> list[str]:
    """Which pins of a gate are stuck, in words."""
    said = []
    for value in "01":
        pins = sorted((it for it in near if it.value == value and it.pin is not None), key=lambda it: it.pin)
        if len(pins) > PINS:
            said.append(f"{'any pin' if len(pins) == all_pins else f'one of {len(pins)} of its {all_pins} pins'} stuck at {value}")
        elif pins:
            said.append(f"{either([f'pin {it.pin}' + (f' (net {it.net})' if it.net else '') for it in pins])} stuck at {value}")
    return said


def at_gate(case: Case, gate: str, near: list[Near], members: int) -> Spot:
    """The spot of a class around a gate."""
    word, pins = case.netlist.gates[gate]
    said = stuck_pins(near, len(pins)) + [f"its output stuck at {it.value}" for it in near if it.pin is None]
    return Spot(f"gate {word} {gate}", ", or ".join(said), True, members - len({it.member for it in near}))


def alone(case: Case, member: int, members: int) -> Spot:
    """The spot of a single member."""
    name = case.names[member]
    kind, line, *_, value = name
    where = {"S": f"net {line}", "G": place(case.netlist, name), "O": f"the branch of net {line} {place(case.netlist, name)}"}[kind]
    behind = {"S": f" ({place(case.netlist, name)})", "G": f" (a branch of net {line})", "O": ""}[kind]
    return Spot(where, f"stuck at {value}{behind}", False, members - 1)


def nearest_first(case: Case, members: list[int]) -> list[int]:
    """Members, those nearest to the inputs first, and the stem of a net before its branches."""
    levels = case.netlist.levels
    return sorted(members, key=lambda it: (levels[case.names[it][1]], case.names[it][1], case.names[it][0] != "S", it))


@functools.lru_cache(maxsize=None)
def spot(case: Case, number: int) -> Spot:
    """Where most of a class lies: at the gate with most of its members, and if there are several, at the one nearest to the inputs."""
    members, gates = case.members[number], {}
    for member in members:
        for gate, near in at_gates(case.netlist, member, case.names[member]):
            gates.setdefault(gate, []).append(near)
    best = min(gates, key=lambda it: (-len(gates[it]), case.netlist.levels[it], it), default=None)
    if len(members) == 1 or best is None or len(gates[best]) == 1:
        return alone(case, nearest_first(case, members)[0], len(members))
    return at_gate(case, best, gates[best], len(members))


def on_nets(case: Case, number: int) -> str:
    """A class whose faults are in several places, by its nets in words, those nearest to the inputs first."""
    nets = list(by_net(case, number))
    named = nets[:NETS] if len(nets) > NETS + 1 else nets
    rest = [f"{len(nets) - NETS:,} more"] if len(nets) > NETS + 1 else []
    said = " and ".join(filter(None, [", ".join([*named, *rest][:-1]), [*named, *rest][-1]]))
    return f"one of {len(case.members[number]):,} faults that answer alike, on nets {said}"


def in_full(case: Case, number: int) -> str:
    """A class in words, as the subject of a verdict. One gate or one net names it only if all its faults are there."""
    found = spot(case, number)
    if not found.more:
        return f"at {found.where}: {found.what}" if found.gate else f"{found.where} {found.what}"
    if len(by_net(case, number)) > 1:
        return on_nets(case, number)
    return f"{in_short(case, number)} ({found.more:,} more equal fault{'' if found.more == 1 else 's'})"


def in_short(case: Case, number: int) -> str:
    """A class in words, inside a sentence: without nested parentheses."""
    found = spot(case, number)
    if not found.gate:
        return f"{found.where} {found.what.partition(' (')[0]}"
    sites = found.what.split(", or ")
    return f"a fault at {found.where} ({re.sub(' [(].*?[)]', '', sites[-1])}, or an equal fault)"


def in_counts(case: Case, number: int) -> str:
    """A class in words, inside a sentence, with how many faults are equal to the one that is named."""
    said, others = in_short(case, number), len(case.members[number]) - 1
    if not others:
        return said
    equal = f"{others:,} more equal fault{'' if others == 1 else 's'}"
    return said.replace(", or an equal fault)", f"; {equal})") if spot(case, number).gate else f"{said} ({equal})"


def stems(case: Case, number: int) -> list[tuple[str, str]]:
    """The nets whose stems are members of a class, with the values at which they are stuck."""
    names = [case.names[it] for it in nearest_first(case, case.members[number])]
    return [(line, value) for kind, line, *_, value in names if kind == "S"]


def by_net(case: Case, number: int) -> dict[str, list[int]]:
    """The members of a class by net, the net nearest to the inputs first."""
    found = {}
    for it in nearest_first(case, case.members[number]):
        found.setdefault(case.names[it][1], []).append(it)
    return found
