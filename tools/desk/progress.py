"""Shows how far a run of `gen` or `topup` is, by the lines of the result that it has written."""

from __future__ import annotations

import os
import time

from telling import PIECE, say

HEAD = 64  # bytes of a line that are needed to count it
FIRST = 3  # seconds before anything is shown
AT_ONCE = 64  # pieces that are read in a second


def stamp(name: str) -> tuple[int, int, int] | None:
    """Values that differ if a file is another than before; None if there is no file."""
    try:
        it = os.stat(name)
        return it.st_ino, it.st_mtime_ns, it.st_size
    except OSError:
        return None


class Progress:
    """Reads the result as it grows, and shows the counts on one line of the terminal."""

    def __init__(self, name: str) -> None:
        self.name, self.before, self.began = name, stamp(name), time.monotonic()
        self.offset, self.rest, self.shown = 0, b"", 0
        self.last, self.patterns, self.member, self.open = None, 0, None, set()

    def count(self, line: bytes) -> None:
        """Counts a line, given its beginning."""
        fields = line.split(b" ", 5)
        if fields[0] == b"diatest" and len(fields) > 4:
            self.last = int(fields[4]) - 1
        elif fields[0] == b"pattern":
            self.patterns += 1
        elif fields[0] == b"same" and len(fields) > 3:
            self.member = int(fields[1])
            (self.open.add if fields[3] == b"O" else self.open.discard)(self.member)

    def read(self) -> None:
        """Reads the new lines."""
        with open(self.name, "rb") as file:
            file.seek(self.offset)
            for _ in range(AT_ONCE):
                piece = file.read(PIECE)
                self.offset += len(piece)
                *lines, rest = (self.rest + piece).split(b"\n")
                for line in lines:
                    self.count(line[:HEAD])
                self.rest = rest[:HEAD]
                if len(piece) < PIECE:
                    break

    def line(self, seconds: int) -> str:
        """The counts as a text."""
        if self.last is None:
            return f"no line is written yet, {seconds} s"
        text = f"{self.patterns} patterns, {seconds} s"
        return text if self.member is None else f"fault {self.member} of {self.last}, {len(self.open)} open, {text}"

    def show(self) -> None:
        """Shows the counts, once the run has taken a while and has begun to write the file."""
        seconds = int(time.monotonic() - self.began)
        if seconds < FIRST or stamp(self.name) in (None, self.before):
            return
        self.before = ()
        try:
            self.read()
        except (OSError, ValueError):
            return
        text = self.line(seconds)
        say(f"\r{text:{self.shown}}\r")
        self.shown = len(text)

    def clear(self) -> None:
        """Clears the line of the terminal."""
        if self.shown:
            say(f"\r{'':{self.shown}}\r")
        self.shown = 0
