"""The part of a circuit that a report draws: the paths from the suspects to the failing positions, with straight chains folded.

A node is the name of a line, or the number of a position."""

from typing import Iterator, NamedTuple

from bench import Netlist
from report_case import Bridge, Case

MOST = 300  # nodes of a picture
SITES = 16  # faults of a class that are drawn, if not all are
GOALS = 24  # failing positions, likewise
BRIDGES = 3  # bridges whose nets are drawn


class Edge(NamedTuple):
    """A line that leads to a pin of a node, through the gates that are folded."""

    tail: str
    head: object
    pin: int
    through: tuple = ()


class Part(NamedTuple):
    """What is drawn: the bridges, the numbers whose classes are shown, the faults of each, the nodes, the edges, and in words what was left out."""

    bridges: list
    numbers: list
    faults: dict
    nodes: set
    edges: list
    left_out: str


def site(name: list[str]) -> "str | int":
    """The node of a fault."""
    kind, line, *rest, _ = name
    return {"S": line, "G": rest[0] if rest else line, "O": int(rest[0]) if kind == "O" else 0}[kind]


def readers(netlist: Netlist, shown_at: dict[str, list[int]], line: str) -> "Iterator[tuple[str | int, int]]":
    """The nodes that read a line, with the pin that does."""
    yield from netlist.readers.get(line, ())
    for at in shown_at.get(line, ()):
        yield at, 0


def whole_cone(netlist: Netlist, sites: list, goals: list[int]) -> list[Edge]:
    """All edges on paths from the sites to the goals."""
    ahead = netlist.cone([it for it in sites if isinstance(it, str)])
    back = {netlist.shown[it] for it in goals if netlist.shown[it] in ahead}
    edges = [Edge(netlist.shown[it], it, 0) for it in goals if netlist.shown[it] in ahead]
    stack = list(back)
    while stack:
        gate = stack.pop()
        for pin, line in enumerate(netlist.gates[gate][1] if gate in netlist.gates else ()):
            if line in ahead:
                edges.append(Edge(line, gate, pin))
                if line not in back:
                    back.add(line)
                    stack.append(line)
    return edges


def ways(netlist: Netlist, sites: list, goals: list[int]) -> list[Edge]:
    """The edges of a shortest path to each goal from the nearest site."""
    shown_at = {}
    for at in goals:
        shown_at.setdefault(netlist.shown[at], []).append(at)
    came, layer = {it: None for it in sites}, [it for it in sites if isinstance(it, str)]
    while layer:
        behind = []
        for line in layer:
            for node, pin in readers(netlist, shown_at, line):
                if node not in came:
                    came[node] = Edge(line, node, pin)
                    behind += [node] if isinstance(node, str) else []
        layer = behind
    found = {}
    for node in goals:
        while came.get(node) and node not in found:
            found[node] = came[node]
            node = came[node].tail
    return list(found.values())


def neighbours(edges: list[Edge]) -> tuple[dict, dict]:
    """The edges into each node, and those out of it."""
    into, out = {}, {}
    for it in edges:
        into.setdefault(it.head, []).append(it)
        out.setdefault(it.tail, []).append(it)
    return into, out


def folded(edges: list[Edge], kept: set) -> list[Edge]:
    """The edges, with each chain of two gates or more between nodes that branch or are kept as one edge."""
    into, out = neighbours(edges)
    inner = {it for it in into if it not in kept and len(into[it]) == 1 and len(out.get(it, ())) == 1}
    found = []
    for edge in edges:
        if edge.tail in inner:
            continue
        chain, last = [], edge
        while last.head in inner:
            chain.append(last.head)
            last = out[last.head][0]
        if len(chain) > 1:
            found.append(Edge(edge.tail, last.head, last.pin, tuple(chain)))
        else:
            found += [edge] if last is edge else [edge, last]
    return found


def reached(edges: list[Edge], starts: set) -> set:
    """The nodes to which the edges lead from the starts, and the starts."""
    _, out = neighbours(edges)
    found, stack = set(starts), list(starts)
    while stack:
        for it in out.get(stack.pop(), ()):
            if it.head not in found:
                found.add(it.head)
                stack.append(it.head)
    return found


def attempts(numbers: list[int], goals: list[int]) -> "Iterator[tuple[int, bool, int | None, list[int]]]":
    """What may be drawn, the most first: how many classes, whether whole cones, how many faults of each, and which failing positions."""
    tops = sorted({min(it, len(numbers)) for it in (len(numbers), 10, 5, 3, 2)}, reverse=True)
    for top in tops:
        yield top, True, None, goals
    for most in (None, SITES):
        for top in [*tops, 1]:
            yield top, False, most, goals[:GOALS]


def drawn_bridges(case: Case) -> list[Bridge]:
    """The bridges whose nets are drawn: the first exact ones, if no class is exact."""
    return case.bridged()[:BRIDGES]


def part(case: Case) -> "Part | None":
    """What is drawn of a case: as much as has at most MOST nodes; None if nothing has."""
    goals = sorted((it for it, word in enumerate(case.wrong) if word), key=lambda it: (-bin(case.wrong[it]).count("1"), it))
    numbers, bridges = list(case.members), drawn_bridges(case)
    ends = [line for it in bridges for line in it.lines()]
    for top, whole, most, positions in attempts(numbers, goals):
        chosen = numbers[:top]
        faults = {it: case.members[it][:most] for it in chosen}
        sites = list(dict.fromkeys([*ends, *(site(case.names[it]) for number in chosen for it in faults[number])]))
        edges = (whole_cone if whole else ways)(case.netlist, sites, positions)
        edges = folded(edges, {*sites})
        nodes = {*sites, *(it.tail for it in edges), *(it.head for it in edges)}
        if len(nodes) <= MOST:
            return Part(bridges, chosen, faults, nodes, edges, left_out(case, top, whole, most, goals, positions, nodes))
    return None


def left_out(case: Case, top: int, whole: bool, most: "int | None", goals: list[int], positions: list[int], nodes: set) -> str:
    """What isn't drawn, in words."""
    said = [] if top == len(case.members) else [f"the picture has the first {top} of {len(case.members)} classes"]
    if not whole:
        said.append("one shortest way to each failing position")
    if most and any(len(it) > most for it in list(case.members.values())[:top]):
        said.append(f"at most {most} faults of a class")
    if len(positions) < len(goals):
        said.append(f"the {len(positions)} of {len(goals)} failing positions that fail most")
    apart = sum(it not in nodes for it in positions)
    if apart:
        said.append(f"no drawn fault reaches {apart} failing position{'' if apart == 1 else 's'}")
    return "; ".join(said)
