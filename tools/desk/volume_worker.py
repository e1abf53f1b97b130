"""volume_worker.py do FOLDER FIRST END: answers some of the logs of the lot in a folder, from one place to before another.
volume_worker.py check FOLDER SUM: says whether the program and the lot with this checksum can be read here, else what can't.

Each answer is a file that gets its name when it is whole. The status is 1 if some log has no answer then; why is told on standard error."""

from __future__ import annotations

import os
import signal
import sys
from typing import Any, Dict, List

import quiet  # noqa: F401
from failures import why
from outputs import put
from report_case import checksum
from telling import named
from volume_chip import Test, of_log
from volume_jobs import LACKS, OK
from volume_lot import LOT, Lot, answer_name, answer_of, as_json, load


def answer(lot: Lot, test: Test, log: str) -> Dict[str, Any]:
    """The answer for a log, with the checksums by which it still holds."""
    return {"log": log, "of": lot.sums, "sum": checksum(log), **of_log(test, log)}


def do(folder: str, first: int, end: int) -> int:
    """Makes the answers for a part of the logs that are left. Returns the status."""
    lot, left = load(folder)
    test, failed = Test(lot), 0
    for log in left[first:end]:
        try:
            if answer_of(lot, log) is None:
                put(answer_name(folder, log), as_json(answer(lot, test, log)))
        except OSError as error:
            failed = 1
            print(f"{named(error.filename or log)} can't be read or written: {why(error)}", file=sys.stderr)
    return failed


def lacks(folder: str, sum_of: str) -> str:
    """What a job would lack here; empty if nothing."""
    program, name = os.environ.get("DIATEST", ""), os.path.join(folder, LOT)
    if not (os.path.isfile(program) and os.access(program, os.X_OK)):
        return f"{LACKS}there is no program {named(program)}: build it there first, by ./diatest"
    if not os.path.isfile(name) or checksum(name) != sum_of:
        return f"{LACKS}the folder {named(os.path.abspath(folder))} isn't the one that it is here"
    if checksum(program) != load(folder)[0].sums["program"]:
        return f"{LACKS}the program {named(program)} is another one than here"
    return ""


def main(words: List[str]) -> int:
    for number in (signal.SIGINT, signal.SIGTERM):
        signal.signal(number, lambda number, _: sys.exit(128 + number))  # so that nothing is left in the folder for temporary files
    if len(words) == 3 and words[0] == "check":
        print(lacks(words[1], words[2]) or OK)
        return 0
    if len(words) == 4 and words[0] == "do":
        return do(words[1], int(words[2]), int(words[3]))
    print(__doc__, file=sys.stderr)
    return 2


if __name__ == "__main__":
    sys.exit(main(sys.argv[1:]))
