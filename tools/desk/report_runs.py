"""The commands that a report runs in parallel, and the files that they read."""

import os
import shutil
import stat
import subprocess
import tempfile
from typing import BinaryIO

from program import built
from results import TOP
from telling import say
from usage import HELPER


class Ended(Exception):
    """A command that didn't end with status 0, and what it printed."""

    def __init__(self, status: int, printed: str):
        super().__init__(printed)
        self.status = status if status >= 0 else 128 - status


def read(file: BinaryIO) -> bytes:
    """The whole content of an open file."""
    file.seek(0)
    return file.read()


class Run:
    """A command that was started. What it prints goes to a file, so that it never waits for a reader."""

    def __init__(self, runs: "Runs", words: tuple[str, ...]) -> None:
        self.runs = runs
        self.out, self.error = (tempfile.TemporaryFile(dir=runs.folder) for _ in range(2))
        self.child = subprocess.Popen([runs.command, *words], stdout=self.out, stderr=self.error, env=runs.environment)

    def succeeds(self) -> bool:
        """Waits for the end, and says whether the status is 0."""
        return self.child.wait() == 0

    def lines(self, quiet: bool = False) -> list:
        """Waits for the end, and returns the lines that it printed. Its standard error is passed on, unless `quiet`."""
        status, printed = self.child.wait(), read(self.out).decode("latin-1")
        if not quiet:
            say(self.runs.told(read(self.error).decode("utf-8", "surrogateescape")))
        if status:
            raise Ended(status, self.runs.told(printed))
        return printed.splitlines()

    def stop(self) -> None:
        """Stops the command if it still runs."""
        if self.child.poll() is None:
            self.child.terminate()
            self.child.wait()
        self.out.close()
        self.error.close()


class Runs:
    """The commands of a report, in a folder for the files that they leave. Those that still run at the end of its `with` are stopped."""

    command = f"{TOP}/diatest"

    def __init__(self, folder: str, helper: str):
        self.folder, self.started = folder, []
        self.copies = {}  # the user's words for what is read from pipes, by the names of the copies
        program = built()
        if program is None:
            raise Ended(1, "")
        self.environment = {**os.environ, "DIATEST": program, HELPER: helper}

    def __enter__(self) -> "Runs":
        return self

    def __exit__(self, *_: object) -> None:
        for it in self.started:
            it.stop()

    def start(self, *words: str) -> Run:
        """Starts a command."""
        self.started.append(Run(self, words))
        return self.started[-1]

    def told(self, text: str) -> str:
        """A text with the user's words in place of the names of copies."""
        for copy, word in self.copies.items():
            text = text.replace(copy, word)
        return text

    def readable(self, kind: str, name: str) -> str:
        """A name under which a file can be read as often as needed: its own, or that of a copy if it is a pipe or a device. No command takes the
        name for an option."""
        if name.startswith("-"):
            name = f"./{name}"
        try:
            mode = os.stat(name).st_mode
        except OSError:
            return name  # the program says why
        if stat.S_ISREG(mode) or stat.S_ISDIR(mode):
            return name
        copy = os.path.join(self.folder, kind)
        with open(name, "rb") as source, open(copy, "wb") as target:
            shutil.copyfileobj(source, target)
        self.copies[copy] = name
        return copy
