"""The printed parts of pages: where they are, and how they are printed anew."""

import re
from typing import Callable, Iterable, Iterator, NamedTuple

import command_pages
import crate_pages
from sources import ROOT

PRINTERS: dict[str, Callable[[], Iterable[str]]] = {
    "crates": crate_pages.print_crates,
    "files": crate_pages.print_files,
    "types": crate_pages.print_types,
    "definitions": crate_pages.print_definitions,
    "calls": crate_pages.print_calls,
    "commands": command_pages.print_commands,
    "ranges": command_pages.print_ranges,
    "numbers": command_pages.print_numbers,
}
# Which page has which parts.
PAGES = {
    "tools/desk/usage.py": ("numbers",),
    "docs/MAP.md": ("crates", "files"),
    "docs/WORDS.md": ("types",),
    "docs/DEFINITIONS.md": ("definitions",),
    "docs/PROVED.md": ("calls",),
    "docs/FORMATS.md": ("commands", "ranges"),
}
PART = re.compile(r"^(?P<open><!-- printed: (?P<page>[\w ]+) -->|# printed: (?P<code>[\w ]+))\n(?P<text>.*?)^(?P<close><!-- end -->|# end)$", re.M | re.S)
OPEN = re.compile(r"^(?:<!-- |# )printed: ", re.M)


class Printed(NamedTuple):
    """A page as it is and as it is printed, with the names of the parts that differ."""

    name: str
    now: str
    anew: str
    different: tuple[str, ...]


def printed(name: str) -> Printed:
    """A page, printed anew."""
    now, different, seen = (ROOT / name).read_text(), [], []

    def anew(part: re.Match) -> str:
        which = part["page"] or part["code"]
        if which not in PRINTERS:
            return part[0]
        seen.append(which)
        between = "\n" if part["page"] else ""
        lines = "\n".join(PRINTERS[which]()).strip("\n")
        text = f"{part['open']}\n{between}{lines}\n{between}{part['close']}"
        if text != part[0]:
            different.append(which)
        return text

    text = PART.sub(anew, now)
    if tuple(seen) != PAGES[name] or len(OPEN.findall(now)) != len(seen):
        wanted = ", ".join(f"`printed: {it}`" for it in PAGES[name])
        raise SystemExit(f"{name}: it has to have the parts {wanted}, each once, in this order, and each with its end")
    return Printed(name, now, text, tuple(different))


def pages() -> Iterator[Printed]:
    """All pages with printed parts."""
    return map(printed, PAGES)
