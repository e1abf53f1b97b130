"""Writes on standard error: sentences, and the line of a file with a caret. Only a piece of a file is held in memory."""

from __future__ import annotations

import io
import os
import stat

PIECE = 1 << 20
BEFORE, BEHIND = 48, 32  # bytes of a line that are shown before and after the caret


def say(text: str) -> None:
    """Writes a text on standard error, if there is one."""
    try:
        os.write(2, text.encode("utf-8", "surrogateescape"))
    except OSError:
        pass


def tell(sentence: str) -> None:
    """Writes a sentence on standard error, after `diatest:`."""
    say(f"diatest: {sentence}\n")


def shown(text: bytes) -> str:
    """Bytes as printable characters, others escaped."""
    named = {9: "\\t", 10: "\\n", 13: "\\r"}
    return "".join(chr(it) if 32 <= it < 127 else named.get(it, f"\\x{it:02x}") for it in text)


def named(name: str) -> str:
    """The name of a file, without what would disturb a terminal."""
    return name if name and name.isprintable() else "'" + shown(os.fsencode(name)) + "'"


def plain_file(name: str) -> io.BufferedReader | None:
    """A file that can be read again from its beginning, opened; else None."""
    try:
        return open(name, "rb") if stat.S_ISREG(os.stat(name).st_mode) else None
    except OSError:
        return None


def line_start(file: io.BufferedReader, number: int) -> int:
    """The offset of a line, counted from 1; the file's length if there are fewer lines."""
    file.seek(0)
    offset, left = 0, number - 1
    while left and (piece := file.read(PIECE)):
        ends = piece.count(b"\n")
        if ends < left:
            left -= ends
            offset += len(piece)
            continue
        at = -1
        for _ in range(left):
            at = piece.index(b"\n", at + 1)
        return offset + at + 1
    return offset


def caret(file: io.BufferedReader, byte: int) -> str:
    """The part of a line around a byte, and a caret under it. The byte may be the file's end."""
    start = max(0, byte - BEFORE)
    file.seek(start)
    before, behind = file.read(byte - start), file.read(BEHIND)
    whole = b"\n" in before or start == 0
    before = ("" if whole else "...") + shown(before[before.rfind(b"\n") + 1 :])
    end = behind.find(b"\n")
    more = "..." if end < 0 and len(behind) == BEHIND else ""
    behind = behind if end < 0 else behind[: max(end, 1)]
    if not before and not behind:
        return "  (the end of the file)\n  ^"
    return f"  {before}{shown(behind)}{more}\n  {'':{len(before)}}^"


def bytes_caret(file: io.BufferedReader, byte: int) -> str:
    """The bytes around one, in base 16, and a caret under it."""
    first = max(0, byte - 8)
    file.seek(first)
    line = " ".join(f"{it:02x}" for it in file.read(16))
    return f"  {line}\n  {'':{3 * (byte - first)}}^"
