"""Reads logs, lists of vectors and lists of fault numbers for the helpers. A wrong line is refused with its place and what mends it."""

from __future__ import annotations

import io
import os
import re
from typing import Dict, List

import mends
from refusals import BITS, END, LARGEST, LIST_WORDS, NUMBER, SEEN, SEEN_WORDS, first_wrong
from telling import caret, named

LOG, LIST = (NUMBER, rb" ", SEEN, END), (BITS, END)
LOG_LINE, LIST_LINE = (re.compile(b"".join(b"(%s)" % it for it in form)) for form in (LOG, LIST))
OTHERS = re.compile(r"0 0 free|faults [0-9]+ roots [0-9]+")  # the first line and the last one of `faults`


def at_line(name: str, line: int) -> str:
    """The place of a line."""
    return f"{named(name)}, line {line}"


def refused(name: str, line: int, text: bytes, place: int, sentence: str) -> ValueError:
    """The error for a wrong line: its place, a caret under the byte, and a sentence."""
    return ValueError(f"{at_line(name, line)}:\n{caret(io.BytesIO(text), place)}\n{sentence}")


def mend_of(name: str, line: int, text: bytes, width: int, among: tuple) -> str:
    """What is wrong with a line or its file, and what mends it; else how many bits a right line has. A pipe is read once, so nothing mends it."""
    if os.path.isfile(name):
        with open(name, "rb") as file:
            encoded = mends.of_file(file.read(8), name)
        mend = encoded or mends.of_line(text, among, name, width, line)
        if mend:
            return mend
    return f" Here a line has {width} bit{'' if width == 1 else 's'}{' behind its number' if among is mends.NUMBERED else ''}."


def lines_of(name: str) -> List[bytes]:
    """The lines of a file, each with its LF."""
    with open(name, "rb") as file:
        return file.readlines()


def bits_of(name: str, line: int, text: bytes, bits: bytes, width: int) -> str:
    """The bits of a line. Raises a ValueError if there aren't `width` of them."""
    found = "" if bits == b"-" else bits.decode("ascii")
    if len(found) != width:
        place = len(text) - 1 - len(bits) + min(width, len(found))
        raise refused(name, line, text, place, f"Each line has {width} bits, and this one has {len(found)}.")
    return found


def vectors_of(name: str, width: int) -> List[str]:
    """The vectors of a list, each of `width` bits."""
    found = []
    for line, text in enumerate(lines_of(name), 1):
        right = LIST_LINE.fullmatch(text)
        if not right:
            mend = mend_of(name, line, text, width, mends.VECTORS)
            raise refused(name, line, text, first_wrong(text, LIST), f"{LIST_WORDS}.{mend}")
        found.append(bits_of(name, line, text, right[1], width))
    return found


def log_of(name: str, width: int) -> Dict[int, str]:
    """The bits of each pattern in a log. Patterns may be missing, and bits may be x."""
    found: Dict[int, str] = {}
    before = -1
    for line, text in enumerate(lines_of(name), 1):
        right = LOG_LINE.fullmatch(text)
        if not right:
            mend = mend_of(name, line, text, width, mends.NUMBERED)
            raise refused(name, line, text, first_wrong(text, LOG), f"{SEEN_WORDS}.{mend}")
        number = int(right[1]) if len(right[1]) < 11 else LARGEST + 1
        if number > LARGEST:
            raise refused(name, line, text, 0, f"The number is above {LARGEST}, the largest that there is.")
        if number <= before:
            raise refused(name, line, text, 0, f"The number has to be above {before}, that of the line before.")
        found[number] = bits_of(name, line, text, right[3], width)
        before = number
    return found


def numbers_of(name: str, last: int) -> List[int]:
    """The fault numbers in a file: the first word of each line, so that the lines of `faults` are accepted too. Remarks begin with #."""
    found: Dict[int, int] = {}
    with open(name, encoding="utf-8-sig", errors="surrogateescape") as file:
        for line, text in enumerate(file, 1):
            word = text.split("#")[0].split(maxsplit=1)[:1]
            if not word or OTHERS.fullmatch(text.strip()):
                continue
            number = int(word[0]) if word[0].isascii() and word[0].isdigit() and len(word[0]) < 11 else -1
            if not 0 < number <= last:
                raise ValueError(f"{at_line(name, line)}: {named(word[0])} is no fault number: they are 1 to {last}")
            if number in found:
                raise ValueError(f"{at_line(name, line)}: {number} is in line {found[number]} already")
            found[number] = line
    return sorted(found)
