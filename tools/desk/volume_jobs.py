"""The jobs of a lot: batches of its logs, by GNU parallel on this machine or on several hosts, else one after another."""

from __future__ import annotations

import contextlib
import os
import re
import shlex
import shutil
import signal
import subprocess
import time
from typing import Dict, List, NamedTuple, Optional, Tuple

from report_case import checksum
from telling import say
from volume_lot import JOBS, LOT

WORKER = os.path.join(os.path.dirname(os.path.realpath(__file__)), "volume_worker.py")
LARGEST = 16  # logs of a batch: what they share is read once
BATCHES = 4  # that each processor gets at least, so that all end at about the same time
RETRIES = 3  # hosts on which a failing job is tried
SSH = "ssh -o BatchMode=yes -o ConnectTimeout=10"  # no question for a password, and no long wait for a host that is down
OK, LACKS = "all is there", "this lacks: "  # what the worker says on a host
PART = re.compile(r" (\d+) (\d+)$")  # the end of a job's command
TOLD = re.compile(r"(\d+)\t(.*\S)")  # a line of a job's standard error, after its number
NONE = "GNU parallel isn't installed (Debian's package parallel)"
OTHER = "{} isn't GNU parallel: moreutils has a program of the same name, and Debian's package parallel has the right one"


class Plan(NamedTuple):
    """How jobs are run: by GNU parallel, if it is there; how many at once; and on which hosts, as --sshlogin takes them."""

    parallel: Optional[str]
    jobs: Optional[int]
    hosts: List[str]


class Ended(NamedTuple):
    """How a job ended: its status, the host if there are several, and what it wrote on standard error."""

    status: int
    host: str
    told: str


class Host(NamedTuple):
    """What is wrong with a host, if something is. `lacks` says whether the host lacks something; else it doesn't answer."""

    said: str
    lacks: bool


def gnu_parallel() -> Tuple[Optional[str], str]:
    """GNU parallel; None if it isn't there, with the reason."""
    found = shutil.which("parallel")
    if not found:
        return None, NONE
    try:
        told = subprocess.run([found, "--version"], stdin=subprocess.DEVNULL, capture_output=True, timeout=60).stdout
    except (OSError, subprocess.TimeoutExpired):
        told = b""
    return (found, "") if told.startswith(b"GNU parallel") else (None, OTHER.format(found))


def words_of(*words: str) -> str:
    """A command of the worker's as a line for the shell."""
    return " ".join(map(shlex.quote, ["python3", "-B", WORKER, *words]))


def batches(count: int, largest: int) -> List[Tuple[int, int]]:
    """The first place of each batch and the place after its last one. The first batch begins at place 0."""
    each = max(1, min(largest, -(-count // (BATCHES * (os.cpu_count() or 1)))))
    return [(first, min(first + each, count)) for first in range(0, count, each)]


def over(hosts: List[str]) -> List[str]:
    """The words for hosts: the same folder and program on each."""
    words = [it for host in hosts for it in ("--sshlogin", host)]
    return [*words, "--workdir", os.getcwd(), "--env", "DIATEST"] if hosts else []


def environment() -> Dict[str, str]:
    """The environment of GNU parallel."""
    return {"PARALLEL_SSH": SSH, **os.environ}


def check_host(plan: Plan, host: str, folder: str) -> Host:
    """Asks a host whether it has all that a job needs."""
    words = [str(plan.parallel), "--nonall", *over([host]), words_of("check", folder, checksum(os.path.join(folder, LOT)))]
    ran = subprocess.run(words, stdin=subprocess.DEVNULL, capture_output=True, text=True, errors="replace", env=environment())
    printed, told = ran.stdout.splitlines(), [it for it in ran.stderr.splitlines() if it.strip()]
    lacks = [it[len(LACKS) :] for it in printed if it.startswith(LACKS)]
    if lacks or OK in printed:
        return Host(lacks[0] if lacks else "", bool(lacks))
    return Host(told[-1] if told else "it says nothing", False)


def split_hosts(words: List[str]) -> List[str]:
    """The hosts of --sshlogin, one by one."""
    return [it for word in words for it in word.split(",") if it]


class Jobs:
    """Runs of the jobs of the lot in a folder, and how each ended."""

    def __init__(self, plan: Plan, folder: str):
        self.plan, self.folder = plan, folder
        self.before, self.began, self.shown = self.answers(), time.monotonic(), 0

    def answers(self) -> int:
        """How many answers there are."""
        return sum(it.endswith(".json") for it in os.listdir(os.path.join(self.folder, JOBS)))

    def run(self, parts: List[Tuple[int, int]], total: int) -> List[Ended]:
        """Runs a job for each part. Returns how each ended, in the same order."""
        return self.by_parallel(parts, total) if self.plan.parallel else [self.alone(part, total) for part in parts]

    def alone(self, part: Tuple[int, int], total: int) -> Ended:
        """Runs one job."""
        words = ["python3", "-B", WORKER, "do", self.folder, *map(str, part)]
        with subprocess.Popen(words, stdin=subprocess.DEVNULL, stderr=subprocess.PIPE, text=True, errors="replace") as child:
            told = self.follow(child, total)
        status = child.returncode if child.returncode >= 0 else 128 - child.returncode
        return Ended(status, "", (told.strip().splitlines() or [""])[-1])

    def by_parallel(self, parts: List[Tuple[int, int]], total: int) -> List[Ended]:
        """Runs all jobs by GNU parallel."""
        log, lines = os.path.join(self.folder, "jobs.tsv"), os.path.join(self.folder, "jobs.list")
        with open(lines, "w", encoding="utf-8", errors="surrogateescape") as file:
            file.writelines(words_of("do", self.folder, *map(str, it)) + "\0" for it in parts)
        words = [str(self.plan.parallel), "--null", "--arg-file", lines, "--joblog", log, "--halt", "never", *over(self.plan.hosts)]
        words += ["--tagstring", "{#}", *(["--retries", str(RETRIES)] if len(self.plan.hosts) > 1 else [])]
        words += ["--jobs", str(self.plan.jobs)] if self.plan.jobs else []
        pipes = {"stdin": subprocess.DEVNULL, "stdout": subprocess.DEVNULL, "stderr": subprocess.PIPE}
        with subprocess.Popen(words, text=True, errors="replace", env=environment(), **pipes) as child:
            told = self.follow(child, total)
        found = logged(log, told)
        return [found.get(it, Ended(child.returncode, "", told.strip().partition("\n")[0])) for it in parts]

    def follow(self, child: subprocess.Popen, total: int) -> str:
        """Waits for a child, and shows how far the lot is. Returns the child's standard error. An interrupt stops the child's jobs too."""
        try:
            while True:
                try:
                    told = child.communicate(timeout=1)[1]
                    self.clear()
                    return told
                except subprocess.TimeoutExpired:
                    self.show(total)
        except BaseException:
            self.clear()
            stop(child)
            raise

    def show(self, total: int) -> None:
        """Shows how far the lot is, on one line of the terminal."""
        if os.isatty(2):
            text = f"{self.answers() - self.before:,} of {total:,} logs, {int(time.monotonic() - self.began)} s"
            say(f"\r{text:{self.shown}}\r")
            self.shown = len(text)

    def clear(self) -> None:
        """Clears the line of the terminal."""
        if self.shown:
            say(f"\r{'':{self.shown}}\r")
        self.shown = 0


def stop(child: subprocess.Popen) -> None:
    """Stops a child. GNU parallel ignores the signal until its first job has begun, so it is sent until the child ends."""
    while child.poll() is None:
        child.send_signal(signal.SIGTERM)
        with contextlib.suppress(subprocess.TimeoutExpired):
            child.wait(timeout=0.5)


def logged(name: str, told: str) -> Dict[Tuple[int, int], Ended]:
    """How jobs ended, by their parts: from the log that GNU parallel writes, and from the last line that each job wrote on standard error."""
    last = {number: line for number, line in TOLD.findall(told)}
    found = {}
    try:
        with open(name, encoding="utf-8", errors="replace") as file:
            rows = [it.split("\t", 8) for it in file.read().splitlines()[1:]]
    except OSError:
        return {}
    for row in rows:
        part = PART.search(row[-1])
        if len(row) == 9 and part:
            status, killed = int(row[6]), int(row[7])
            host = "" if row[1] == ":" else row[1]
            found[int(part[1]), int(part[2])] = Ended(status or killed and 128 + killed, host, last.get(row[0], ""))
    return found
