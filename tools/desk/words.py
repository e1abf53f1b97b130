"""Says what is wrong with words that the program doesn't understand."""

from __future__ import annotations

import difflib
import re
from typing import Iterable

from telling import named
from usage import COMMANDS, HELPERS, NUMBERS, FileOption, helper_line

NUMBER = re.compile(r"\+?[0-9]+|[+-]?0+")
VALUE, NAME = re.compile(r"[^-].*|-0*[1-9][0-9]*|", re.DOTALL), re.compile(r"[^-].*|-?", re.DOTALL)  # what may follow an option
KINDS = COMMANDS["dict"].words.split()[0].split("|")


def near(word: str, among: Iterable[str]) -> str:
    """Which of some words is nearest to a word, as the end of a sentence; empty if none is near."""
    found = [it for it in among if word.startswith(it) or it.startswith(word) and word] or difflib.get_close_matches(word, among, 1)
    return f"; the nearest is {found[0]}" if found else ""


def unknown(word: str) -> str:
    """What is wrong with a word that isn't a command."""
    names = {it: it for it in COMMANDS} | {it: helper_line(it).split()[0] for it in HELPERS}
    found = [it for it in names if word.startswith(it) or it.startswith(word) and word] or difflib.get_close_matches(word, names)
    meant = f"; the nearest {'is' if len(found) == 1 else 'are'} {', '.join(names[it] for it in found)}" if found else ""
    return f"there is no command {named(word)}{meant}"


def in_range(text: str, least: int, most: int) -> bool:
    """Whether a text is a number in a range."""
    return bool(NUMBER.fullmatch(text)) and len(text.lstrip("+-0")) < 19 and least <= int(text) <= most


def wrong_number(what: str, text: str, least: int, most: int) -> str | None:
    """What is wrong with a number, if something is."""
    if in_range(text, least, most):
        return None
    grouped = text.replace(",", "").replace("_", "").replace("'", "")
    mend = f": write {grouped}" if grouped != text and in_range(grouped, least, most) else ""
    return f"{what} takes a number from {least} to {most}, and {named(text)} isn't one{mend}"


def split(name: str, words: list[str]) -> tuple[list[tuple[str, str | None]], list[str]]:
    """The options of a command with their values, None if one is missing, and its other words."""
    known = {f"--{it.name}": NAME if isinstance(it, FileOption) else VALUE for it in COMMANDS[name].options}
    options, others, plain, at = [], [], False, 0
    while at < len(words):
        word, at = words[at], at + 1
        if plain or not word.startswith("-") or word == "-":
            others.append(word)
        elif word == "--":
            plain = True
        else:
            option, equals, value = word.partition("=")
            value = value if equals else None
            if option in known and not equals and at < len(words) and known[option].fullmatch(words[at]):
                value, at = words[at], at + 1
            options.append((option, value))
    return options, others


def wrong_option(name: str, options: list[tuple[str, str | None]]) -> str | None:
    """What is wrong with the first option that isn't right."""
    known, seen = {f"--{it.name}": it for it in COMMANDS[name].options}, set()
    for option, value in options:
        if option not in known:
            taken = f"its options are {', '.join(known)}" if known else "it has none"
            return f"{name} has no option {named(option)}: {taken}"
        if option in seen:
            return f"{option} is given twice"
        seen.add(option)
        if value is None:
            return f"{option} needs a {'name' if isinstance(known[option], FileOption) else 'number'} after it"
        found = None if isinstance(known[option], FileOption) else wrong_number(option, value, known[option].least, known[option].most)
        if found:
            return found
    return None


def wrong_count(name: str, others: list[str]) -> str | None:
    """What is wrong with how many names there are."""
    wanted = COMMANDS[name].words.split()
    if len(others) < len(wanted):
        return f"{name} takes {COMMANDS[name].words}: the {wanted[len(others)]} is missing"
    if len(others) > len(wanted):
        return f"{name} takes {COMMANDS[name].words}: {named(others[len(wanted)])} is a word too many"
    return None


def wrong(words: list[str]) -> str | None:
    """What is wrong with the words of a run, or None."""
    for word in words:
        try:
            word.encode("utf-8")
        except UnicodeEncodeError:
            return f"{named(word)} isn't UTF-8"
    name = words[0]
    if name not in COMMANDS:
        return unknown(name)
    options, others = split(name, words[1:])
    found = wrong_option(name, options)
    if not found and name == "dict" and others and others[0] not in KINDS:
        found = f"the kind of a dictionary is passfail, full or samediff, and not {named(others[0])}{near(others[0], KINDS)}"
    found = found or wrong_count(name, others)
    return found or (wrong_number("N", others[0], *NUMBERS["n"][:2]) if name == "synth" else None)
