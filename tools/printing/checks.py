"""Checks what no printed part of a page covers: the folders of crates/, the paths that CHANGING names, and names with two meanings."""

import re
from typing import Iterator

from crate_pages import public_types
from sources import CRATES, ROOT, crates, items_of

SECTIONS, ENDINGS = ("src", "specs", "proofs"), (".rt", ".antt")
# The names that CHANGING gives to a crate that is still to be made.
PLACEHOLDER = re.compile(r"NAME$|tests_\.\.\.$")
# Names that callers of two crates rely on.
FIXED = {"Mark"}


def strays() -> Iterator[str]:
    """What crates/ has and crates.txt doesn't name, and what crates/ lacks."""
    listed = {it.name for it in crates()}
    there = {it.name for it in CRATES.iterdir()}
    yield from (f"crates/{name} isn't in crates.txt: add its line or remove it" for name in sorted(there - listed))
    yield from (f"crates/{name} is missing, and crates.txt names it" for name in sorted(listed) if not (CRATES / name).is_dir())


def paths_named(page: str) -> Iterator[str]:
    """The whole paths below crates/ that the first cells of a page's tables name. A path that begins with `src`, `specs` or `proofs` belongs
    to the crate named before it in the cell, or above the table as in "In `dia_runs`:". A file without a folder is in the folder of the path
    before it."""
    listed, above = {it.name for it in crates()}, None
    for line in page.splitlines():
        said = re.match(r"In `(\w+)`[:,]", line)
        above = said.group(1) if said else None if line.startswith("## ") else above
        crate, folder = above, None
        for named in re.findall(r"`([^`]+)`", line.split("|")[1] if line.startswith("|") else ""):
            first = named.split("/")[0]
            if first in listed or PLACEHOLDER.match(first):
                crate, path = first, named
            elif first in SECTIONS:
                path = f"{crate}/{named}"
            elif "/" not in named and named.endswith(ENDINGS):
                path = f"{folder}/{named}"
            else:
                continue
            folder = path.rpartition("/")[0]
            yield path


def paths_gone() -> Iterator[str]:
    """The paths that CHANGING names and that are missing."""
    for path in paths_named((ROOT / "docs" / "CHANGING.md").read_text()):
        first = path.split("/")[0]
        if first != "None" and not PLACEHOLDER.match(first) and not (CRATES / path).exists():
            yield f"docs/CHANGING.md: {path} isn't there"


def second_meanings() -> Iterator[str]:
    """The public types whose name another crate also gives to a type, public or not."""
    declared: dict[str, set[str]] = {}
    for crate in sorted(CRATES.iterdir()):
        for file in sorted((crate / "src").rglob("*.rt")):
            for it in items_of(file):
                if it.kind != "fn":
                    declared.setdefault(it.name, set()).add(crate.name)
    public: dict[str, set[str]] = {}
    for name, crate, _ in public_types():
        public.setdefault(name, set()).add(crate)
    for name, owners in sorted(public.items()):
        for other in sorted(declared[name] - (owners if name in FIXED else {min(owners)})):
            yield f"{name} is a type of {min(owners)} and of {other}: give one of them another name"
