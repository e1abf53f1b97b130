"""What a report is about: a netlist, a result and a tester's log, and what the program's commands say about them.

The answers of single faults come from the helpers' own simulation. They are compared with what the commands print, and a page is made only if
the two agree. `suspects`, `bridges` and `faults` run in parallel, and so does `cover`, if no single class explains all failing patterns. Each
except `faults` checks the result."""

import contextlib
import functools
import hashlib
from typing import Iterable, NamedTuple

import bench
from report_runs import Run, Runs
from results import Result, names_in, vectors_of


class Score(NamedTuple):
    """A line of `suspects`: how many failing patterns a number explains, and how many bits it hits, misses and predicts to fail that passed."""

    number: int
    explained: int
    hit: int
    missed: int
    false: int


class Bridge(NamedTuple):
    """A line of `bridges`: its kind and its two nets, how many failing patterns it explains, and how many passing ones it would fail."""

    kind: str
    first: str
    second: str
    explained: int
    false: int

    def lines(self) -> tuple:
        """Its two nets."""
        return self.first, self.second


def suspects_in(printed: list) -> tuple[list[Score], int, int]:
    """What the lines of `suspects` say: the scores, and how many patterns are failing and logged."""
    *lines, last = printed
    return [Score(*map(int, it.split())) for it in lines], int(last.split()[3]), int(last.split()[5])


def bridges_in(printed: list) -> tuple[list[Bridge], int]:
    """What the lines of `bridges` say: the best bridges, and how many of all those found are exact."""
    *lines, last = printed
    rows = [it.split() for it in lines]
    return [Bridge(*names, int(explained), int(false)) for *names, explained, false in rows], int(last.split()[5])


def cover_in(printed: list) -> tuple[list[tuple[int, ...]], int]:
    """What the lines of `cover` say: each class with how many failing patterns are new with it, and how many are explained."""
    *lines, last = printed
    return [tuple(map(int, it.split())) for it in lines], int(last.split()[3])


def rows_of(log: str) -> dict:
    """The bits of each pattern in a log that the program has read."""
    with open(log, encoding="latin-1") as file:
        rows = {int(number): bits for number, bits in (line.split() for line in file)}
    return {number: "" if bits == "-" else bits for number, bits in rows.items()}


ONES, ZEROS = str.maketrans("x", "0"), str.maketrans("01x", "100")


def words_of(rows: dict, positions: int, table: dict) -> list:
    """For each position the patterns whose bit the table turns into a 1: a word with a bit for each pattern."""
    blank = "x" * positions
    columns = zip(*(rows.get(it, blank) for it in range(max(rows, default=-1), -1, -1)))
    return [int("".join(it).translate(table), 2) for it in columns] or [0] * positions


def numbers_in(word: int) -> list:
    """The places of the ones of a word."""
    return [at for at, it in enumerate(bin(word)[:1:-1]) if it == "1"]


def ones_in(word: int) -> int:
    """How many ones a word has."""
    return bin(word).count("1")


def union(words: Iterable[int]) -> int:
    """The patterns that are in some of the words."""
    return functools.reduce(lambda one, other: one | other, words, 0)


def checksum(name: str) -> str:
    """The SHA-256 of a file."""
    found = hashlib.sha256()
    with open(name, "rb") as file:
        while piece := file.read(1 << 20):
            found.update(piece)
    return found.hexdigest()


class Case:
    """All that a page is made from. Words have a bit for each pattern of the result, or for each vector of the list that was applied."""

    def __init__(self, runs: Runs, netlist: str, result: str, log: str, applied: "str | None" = None):
        self.runs, self.files = runs, {"netlist": netlist, "result": result, "log": log}
        self.files |= {"vectors": applied} if applied is not None else {}
        self.read = {kind: runs.readable(kind, name) for kind, name in self.files.items()}
        files = self.words(self.read["log"])
        suspects, bridges, faults = runs.start("suspects", *files), runs.start("bridges", *files), runs.start("faults", self.read["netlist"])
        early = self.read_early() if faults.succeeds() else None  # else `suspects` says why the netlist can't be read
        self.suspects, self.failing_count, self.logged_count = suspects_in(suspects.lines())
        cover = None if self.one_explains() else runs.start("cover", *files)
        self.listing = faults.lines()
        self.checksums = {kind: checksum(name) for kind, name in self.read.items()}
        self.result = early or Result(self.read["result"])
        self.simulate()
        self.read_log()
        self.members, self.names, self.explained, self.shows, self.unlogged = {}, {}, {}, {}, {}
        self.take([it.number for it in self.suspects])
        self.agree(all(it == self.score(it.number) for it in self.suspects), "the counts of the suspects")
        self.cover, self.covered = cover_in(cover.lines()) if cover else ([], self.failing_count)
        self.take([number for number, _ in self.cover])
        self.read_bridges(bridges)

    def words(self, log: str) -> list:
        """The words after the name of a command that reads a log of these patterns."""
        applied = [f"--applied={self.read['vectors']}"] if "vectors" in self.read else []
        return [self.read["netlist"], self.read["result"], log, *applied]

    def one_explains(self) -> bool:
        """Whether nothing fails, or one class explains all failing patterns, so that nothing is left for `cover`."""
        return not self.failing_count or bool(self.suspects) and self.suspects[0].explained == self.failing_count

    def read_early(self) -> "Result | None":
        """Reads the netlist, which is right, and the result, while `suspects` checks that. Returns the result, or None if it can't be read."""
        self.netlist = bench.read(self.read["netlist"])
        with contextlib.suppress(OSError, ValueError, LookupError):
            return Result(self.read["result"])

    def simulate(self) -> None:
        """Computes what a good chip answers to the patterns."""
        self.patterns = vectors_of(self.read["vectors"]) if "vectors" in self.read else self.result.patterns
        self.full = (1 << len(self.patterns)) - 1
        self.free = bench.values(self.netlist, self.patterns)
        self.good = [self.free[it] for it in self.netlist.shown]

    def read_bridges(self, run: Run) -> None:
        """Reads what `bridges` says, if a pattern fails; else stops it."""
        if self.failing_count:
            self.bridges, self.exact_count = bridges_in(run.lines())
        else:
            run.stop()
            self.bridges, self.exact_count = [], 0
        self.exact = [it for it in self.bridges if it.explained == self.failing_count and not it.false]
        self.agree(all(it[3:] == self.bridge_counts(it) for it in self.bridges), "the counts of the bridges")

    def read_log(self) -> None:
        """Reads what was observed, and finds where that isn't what a good chip answers."""
        rows, positions = rows_of(self.read["log"]), len(self.netlist.positions)
        self.ones, self.zeros = (words_of(rows, positions, it) for it in (ONES, ZEROS))
        self.logged = sum(1 << it for it in rows)
        self.seen = [one | zero for one, zero in zip(self.ones, self.zeros)]
        self.wrong = [(one ^ good) & seen for one, good, seen in zip(self.ones, self.good, self.seen)]
        self.failing = union(self.wrong)
        self.wrong_bits, self.seen_bits = (sum(map(ones_in, words)) for words in (self.wrong, self.seen))
        self.agree((ones_in(self.failing), len(rows)) == (self.failing_count, self.logged_count), "the failing patterns")

    def take(self, numbers: list) -> None:
        """Adds listed numbers: the members of their classes with their names, and what each number explains."""
        new = [it for it in dict.fromkeys(numbers) if it not in self.members]
        members = {it: self.result.members[self.result.classes[it]] for it in new}
        names = names_in(self.listing, {member for it in new for member in members[it]})
        self.names |= {number: name for number, (_, name) in names.items()}
        self.members |= {it: self.alike(it, members[it]) for it in new}
        self.marks = {it: f"#{rank}" if rank <= len(self.suspects) else f"number {it}" for rank, it in enumerate(self.members, 1)}
        for it in new:
            self.explain(it)

    def alike(self, number: int, members: list) -> list:
        """The members of a number's class that the list, if one was applied, doesn't distinguish from the number. Equal members answer as the
        lowest, and open ones may not."""
        if "vectors" not in self.files:
            return members
        standing = {it: it if self.result.evidence.get(it) == "O" else members[0] for it in members}
        answers = self.answers(standing[number])
        return [it for it in members if standing[it] == standing[number] or self.answers(standing[it]) == answers]

    @functools.lru_cache(maxsize=32)
    def answers(self, number: int) -> list:
        """What each position shows if the chip has this fault."""
        return bench.answers(self.netlist, self.patterns, self.names[number], self.free)

    @functools.lru_cache(maxsize=32)
    def changes(self, number: int) -> list:
        """Where the fault's answers differ from the good ones: a word for each position."""
        return [answer ^ good for answer, good in zip(self.answers(number), self.good)]

    def missed(self, number: int) -> list:
        """The failing bits that the fault doesn't predict: a word for each position."""
        return [wrong & ~change for wrong, change in zip(self.wrong, self.changes(number))]

    def false(self, number: int) -> list:
        """The bits that passed though the fault would fail them: a word for each position."""
        return [change & seen & ~wrong for change, seen, wrong in zip(self.changes(number), self.seen, self.wrong)]

    def explain(self, number: int) -> None:
        """Computes which failing patterns a number explains, which patterns that passed it would fail, and at which patterns it would fail a bit
        that wasn't observed."""
        missed, false = union(self.missed(number)), union(self.false(number))
        self.explained[number] = self.failing & ~missed & ~false
        self.shows[number] = false & ~self.failing
        self.unlogged[number] = union(change & ~seen for change, seen in zip(self.changes(number), self.seen))

    def score(self, number: int) -> Score:
        """The counts of a number, by this simulation."""
        missed, false = (sum(map(ones_in, words)) for words in (self.missed(number), self.false(number)))
        return Score(number, ones_in(self.explained[number]), self.wrong_bits - missed, missed, false)

    @functools.lru_cache(maxsize=32)
    def bridge_answers(self, it: Bridge) -> list:
        """What each position shows if the chip has this bridge."""
        one, other = self.free[it.first], self.free[it.second]
        wins = {"and": one & other, "or": one | other, "dominant": one}[it.kind]
        changed = {line: wins for line in it.lines() if self.free[line] != wins}
        now = bench.behind(self.netlist, self.free, changed, self.full)
        return [now.get(line, self.free[line]) for line in self.netlist.shown]

    def bridge_counts(self, it: Bridge) -> tuple:
        """How many failing patterns a bridge explains, and how many passing ones it would fail, by this simulation."""
        unlike = union((answer ^ one) & seen for answer, one, seen in zip(self.bridge_answers(it), self.ones, self.seen))
        return ones_in(self.failing & ~unlike), ones_in(unlike & ~self.failing)

    def bridged(self) -> list:
        """The exact bridges, if no class predicts every observed bit."""
        return [] if any(map(self.perfect, self.suspects)) else self.exact

    def agree(self, holds: bool, what: str) -> None:
        """Raises a ValueError if the program and the simulation of the helpers differ."""
        if not holds:
            raise ValueError(f"{what} of the program aren't those of the simulation in tools/desk: one of the two is wrong")

    def perfect(self, it: Score) -> bool:
        """Whether a suspect predicts every observed bit."""
        return it.explained == self.failing_count and not it.missed and not it.false

    def failing_only(self) -> bool:
        """Whether the log lacks patterns and has none that passes."""
        return self.logged_count == self.failing_count < len(self.patterns)

    def counts(self) -> dict:
        """How many numbers, patterns and classes the result has, and how many members are equal and open."""
        unclear = sum(self.result.evidence.get(it) == "O" for it in self.result.classes)
        numbers, classes = len(self.result.classes), len(set(self.result.classes.values()))
        return {"numbers": numbers, "patterns": len(self.result.patterns), "classes": classes, "equal": numbers - classes - unclear, "open": unclear}

    def coverage(self) -> tuple[int, int, int, int]:
        """How many faults there are, and how many of them are detected by some pattern, are untestable, and are aborted."""
        hidden = [number for number, its_class in self.result.classes.items() if its_class == 0 and number]
        aborted = sum(self.result.evidence.get(it) == "O" for it in hidden)
        faults = len(self.result.classes) - 1
        return faults, faults - len(hidden), len(hidden) - aborted, aborted
