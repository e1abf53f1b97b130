"""A lot: the files of its test, its logs, and the folder with one answer for each log. An answer that still holds isn't made again."""

from __future__ import annotations

import errno
import fcntl
import hashlib
import json
import os
import stat
import urllib.parse
from typing import Any, Dict, List, NamedTuple, Optional, Tuple

from failures import unread
from report_case import checksum
from outputs import put
from telling import named

HERE = os.path.dirname(os.path.realpath(__file__))
LOT, JOBS, LOCK = "lot.json", "jobs", "lock"
LONGEST = 150  # bytes of a log's name that are kept in the name of its answer
KEPT = (0, 6)  # statuses that the same files give again: nothing failed, or the log is refused
NO_ANSWER = 1  # the status of a log without an answer
REFUSED, UNREAD, FAILED = "refused", "unread", "failed"  # kinds of logs that say nothing about a chip: the last has no answer yet


class Lot(NamedTuple):
    """The words of a lot, as the user wrote them, and the checksums of all that an answer is made from, except its log."""

    folder: str
    netlist: str
    result: str
    applied: Optional[str]
    logs: List[str]
    sums: Dict[str, Optional[str]]

    def options(self) -> List[str]:
        """The option that the commands take."""
        return ["--applied", self.applied] if self.applied is not None else []

    def files(self) -> Dict[str, str]:
        """The files of the test by what each is."""
        found = {"netlist": self.netlist, "result": self.result}
        if self.applied is not None:
            found["applied"] = self.applied
        return found


def value_json(found: Any) -> str:
    """A value as JSON; a list of things with fields has each on a line of its own."""
    if isinstance(found, list) and found and isinstance(found[0], dict):
        return "[\n{}\n]".format(",\n".join(map(json.dumps, found)))
    return json.dumps(found)


def as_json(found: Dict[str, Any]) -> str:
    """Named values as JSON, each on a line of its own. Names that aren't UTF-8 can be read back."""
    return "{{\n{}\n}}\n".format(",\n".join(f"{json.dumps(name)}: {value_json(it)}" for name, it in found.items()))


def tools_sum() -> str:
    """The checksum of the helpers' modules: if one of them changes, answers may."""
    found = hashlib.sha256()
    for name in sorted(it for it in os.listdir(HERE) if it.endswith(".py")):
        found.update(checksum(os.path.join(HERE, name)).encode())
    return found.hexdigest()


def sums_of(files: Dict[str, str], program: str) -> Dict[str, Optional[str]]:
    """The checksums of the test's files, of the program and of the helpers."""
    found = {kind: checksum(files[kind]) if kind in files else None for kind in ("netlist", "result", "applied")}
    return {**found, "program": checksum(program), "tools": tools_sum()}


def save(lot: Lot, left: List[str]) -> None:
    """Writes the lot for its jobs, with the logs that are still to be done."""
    put(os.path.join(lot.folder, LOT), as_json({**lot._asdict(), "left": left}))


def load(folder: str) -> Tuple[Lot, List[str]]:
    """The lot that was saved in a folder, and the logs that are still to be done."""
    with open(os.path.join(folder, LOT), encoding="utf-8") as file:
        saved = json.load(file)
    left = saved.pop("left")
    return Lot(**saved), left


def answer_name(folder: str, log: str) -> str:
    """The name of the file with a log's answer. Different words for logs have different ones."""
    name = urllib.parse.quote(os.fsencode(log), safe="")
    if len(name) > LONGEST:
        name = f"{hashlib.sha256(os.fsencode(log)).hexdigest()[:16]}~{name[-LONGEST:]}"
    return os.path.join(folder, JOBS, f"{name}.json")


def read_answer(name: str) -> Dict[str, Any]:
    """The answer under a name; an empty one if there is none, or if it isn't complete."""
    try:
        with open(name, encoding="utf-8") as file:
            found = json.load(file)
    except (OSError, ValueError):
        return {}
    return found if isinstance(found, dict) else {}


def not_plain(log: str) -> Optional[str]:
    """Why a log can't be read, or can't be read more than once, if so."""
    cause = unread(log)
    if cause or stat.S_ISREG(os.stat(log).st_mode):
        return cause
    return f"{named(log)} is no plain file, and a log is read several times"


def answer_of(lot: Lot, log: str) -> Optional[Dict[str, Any]]:
    """The answer of a log, if it is of this log as it is now, and of this test."""
    found = read_answer(answer_name(lot.folder, log))
    if found.get("of") != lot.sums or found.get("log") != log:
        return None
    try:
        return found if found.get("sum") == checksum(log) else None
    except OSError:
        return None


def without_answer(log: str, kind: str, said: str) -> Dict[str, Any]:
    """What replaces the answer for a log that has none."""
    return {"log": log, "status": NO_ANSWER, "kind": kind, "said": said}


def clean(folder: str) -> None:
    """Removes what a killed run left beside the names of answers."""
    for it in os.listdir(os.path.join(folder, JOBS)):
        if ".json.new-" in it:
            os.unlink(os.path.join(folder, JOBS, it))


def lock(folder: str) -> int:
    """Locks a folder as long as the returned descriptor is open. Raises a ValueError if another run has locked it."""
    found = os.open(folder, os.O_RDONLY)
    try:
        try:
            fcntl.flock(found, fcntl.LOCK_EX | fcntl.LOCK_NB)
        except OSError as error:
            if error.errno != errno.EBADF:
                raise
            os.close(found)  # NFS locks only files that are open for writing
            found = os.open(os.path.join(folder, JOBS, LOCK), os.O_RDWR | os.O_CREAT, 0o666)
            fcntl.flock(found, fcntl.LOCK_EX | fcntl.LOCK_NB)
    except OSError as error:
        if error.errno in (errno.EWOULDBLOCK, errno.EACCES):
            raise ValueError(f"another run works in the folder {named(folder)}") from None
    return found
