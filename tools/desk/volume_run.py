"""A run of tools/volume: what it needs first, the jobs for logs without an answer, and the tables of all answers."""

from __future__ import annotations

import os
import stat
import tempfile
from typing import Any, Callable, Dict, List, NamedTuple, Optional

from failures import uncreated
from outputs import put, same_file
from program import program_of
from report_made import made
from report_runs import Runs
from results import names_in
from telling import named
from volume_chip import Test
from volume_files import bridges_csv, chips_csv, nets_csv, volume_json
from volume_jobs import LARGEST, Jobs, Plan, batches, check_host
from volume_lot import FAILED, JOBS, KEPT, LOT, UNREAD, Lot, answer_name, answer_of, clean, lock, not_plain, save, sums_of, without_answer
from volume_page import page
from volume_sums import bridges, fault_shares, nets, patterns, positions
from volume_words import Sums, reasons, sentences

MADE = ("volume.html", "nets.csv", "bridges.csv", "chips.csv", "volume.json")
Answers = Dict[str, Dict[str, Any]]
Tell = Callable[[str], None]


class Refused(Exception):
    """Says why nothing is done, and has the status."""

    def __init__(self, reason: str, status: int = 1):
        super().__init__(reason)
        self.status = status


class Said(NamedTuple):
    """What is printed about a lot, how many logs have no answer yet, and what is said about these."""

    text: str
    left: int
    told: List[str]


def program() -> str:
    """The program, which has to be built: no job starts a proof."""
    name = os.path.abspath(program_of())
    if not (os.path.isfile(name) and os.access(name, os.X_OK)):
        raise Refused(f"there is no program {named(name)}: build it by ./diatest, or name one that is built by DIATEST")
    os.environ["DIATEST"] = name
    return name


def begin_folder(folder: str, read: List[str]) -> None:
    """Makes the folder of a lot. Refuses to write over files that are read, and over those of a folder that isn't of a lot."""
    cause = uncreated(folder, os.path.dirname(folder.rstrip("/")) or ".")
    if cause and not os.path.isdir(folder):
        raise Refused(cause)
    for name in (os.path.join(folder, it) for it in MADE):
        over = [it for it in read if same_file(it, name)]
        if over:
            raise Refused(f"{named(over[0])} is read and would be written over: name another folder", 2)
        if os.path.lexists(name) and not os.path.exists(os.path.join(folder, LOT)):
            raise Refused(f"{named(name)} is there and isn't of a lot: name another folder", 2)
    os.makedirs(os.path.join(folder, JOBS), exist_ok=True)


def accept(lot: Lot) -> None:
    """Makes the program read the test's files once before the logs. Raises an `Ended` with the program's status if it refuses one."""
    for name in lot.files().values():
        if os.path.exists(name) and not os.path.isdir(name) and not stat.S_ISREG(os.stat(name).st_mode):
            raise Refused(f"{named(name)} is no plain file, and each job reads it")
    with tempfile.TemporaryDirectory(prefix="volume-") as folder, Runs(folder, "volume") as runs:
        runs.start("expect", lot.netlist, lot.result, os.devnull, *lot.options()).lines()


def ready(netlist: str, result: str, applied: Optional[str], logs: List[str], folder: str, tell: Tell) -> Lot:
    """The lot, once it has all that its jobs need."""
    its_program = program()
    once = list(dict.fromkeys(logs))
    if len(once) < len(logs):
        tell(f"logs that are named twice, and count once: {len(logs) - len(once)}")
    lot = Lot(folder, netlist, result, applied, once, {})
    accept(lot)
    begin_folder(folder, [*lot.files().values(), *once])
    return lot._replace(sums=sums_of(lot.files(), its_program))


def hosts_of(plan: Plan, folder: str, tell: Tell) -> Optional[Plan]:
    """The plan with those hosts that answer; None if none does. Refuses the run if a host lacks something."""
    up = []
    for host in plan.hosts:
        found = check_host(plan, host, folder)
        if found.lacks:
            raise Refused(f"host {host}: {found.said}")
        if found.said:
            tell(f"host {host} is left out: {found.said}")
        else:
            up.append(host)
    return None if plan.hosts and not up else plan._replace(hosts=up)


def held(lot: Lot) -> Answers:
    """The answers that still hold, and what replaces them for logs that can't be read."""
    found: Answers = {}
    for log in lot.logs:
        cause = not_plain(log)
        answer = without_answer(log, UNREAD, cause) if cause else answer_of(lot, log)
        if answer and (cause or answer["status"] in KEPT):
            found[log] = answer
    return found


def do(lot: Lot, plan: Plan, left: List[str], largest: int) -> Answers:
    """Runs the jobs for the logs that were saved as left, in batches. Returns the answers, and for a log whose job failed why it has none."""
    for name in (answer_name(lot.folder, it) for it in left):
        if os.path.exists(name):
            os.unlink(name)
    jobs, parts, found = Jobs(plan, lot.folder), batches(len(left), largest), {}
    for (first, end), ended in zip(parts, jobs.run(parts, len(left))):
        for log in left[first:end]:
            at = f" on {ended.host}" if ended.host else ""
            said = f"its job ended with status {ended.status}{at}" + (f": {ended.told}" if ended.told else "")
            found[log] = answer_of(lot, log) or without_answer(log, FAILED, said)
    return found


def run(lot: Lot, plan: Plan, tell: Tell) -> Answers:
    """Runs all jobs that are left. The logs that then have no answer are tried once more, each alone. Returns all answers."""
    locked = lock(lot.folder)
    try:
        clean(lot.folder)
        answers = held(lot)
        for largest in (LARGEST, 1):
            left = [it for it in lot.logs if answers.get(it, {}).get("kind", FAILED) == FAILED]
            if not left:
                break
            save(lot, left)
            up = hosts_of(plan, lot.folder, tell)
            if up:
                answers.update(do(lot, up, left, largest))
            elif largest == LARGEST:
                raise Refused("no host answers")
        return answers
    finally:
        os.close(locked)


def listing(lot: Lot) -> List[str]:
    """The list of faults."""
    with tempfile.TemporaryDirectory(prefix="volume-") as folder, Runs(folder, "volume") as runs:
        return runs.start("faults", lot.netlist).lines()


def tables(lot: Lot, answers: Answers) -> Said:
    """Writes the page and the tables."""
    test, found = Test(lot), [answers[it] for it in lot.logs]
    expected = fault_shares(test.result, names_in(listing(lot), test.result.classes))
    pairs = bridges(found, len(test.netlist.kinds) + len(test.netlist.gates))
    sums = Sums(found, nets(found, expected), pairs, patterns(found), positions(found))
    texts = (page(test, sums, made()), nets_csv(sums), bridges_csv(sums), chips_csv(sums), volume_json(lot, sums))
    for name, text in zip(MADE, texts):
        put(os.path.join(lot.folder, name), text)
    return Said(" ".join(sentences(sums)), len(sums.left()), reasons(sums))
