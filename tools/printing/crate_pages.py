"""Prints what MAP, WORDS, DEFINITIONS and PROVED repeat from the sources."""

import re
from typing import Iterator

from sources import (
    CRATES,
    Crate,
    Definition,
    Item,
    crates,
    definitions_of,
    files_of,
    head_of,
    items_of,
    of_tests,
    public_items,
    root_of,
    specs_of,
)

WORD = re.compile(r"\w+")
CALLED = re.compile(r"(pub )?(?:const |unsafe )?fn \w+")
# The clauses `view` and `invariant` are left out: their definitions are about a type's fields, and no contract of another crate cites them.
CLAUSES = ("ensures", "requires", "ghost from_gives", "ghost Value", "ghost sure_tells", "ghost state")


def names(items: list[str]) -> str:
    """Names as words of code."""
    return ", ".join(f"`{it}`" for it in items)


def cell(text: str) -> str:
    """The first paragraph of a text, for a table."""
    return re.sub(r"(?<!\\)\|", r"\\|", text.split("\n")[0])


def whole(text: str) -> str:
    """A text on one line."""
    return text.replace("\n", " ")


def as_phrase(text: str) -> str:
    """A text as the words after a colon: it begins with a small letter, and a single sentence has no stop."""
    small = text[0].lower() + text[1:] if text[0].isupper() and not text[1:2].isupper() else text
    return small if ". " in small else small.rstrip(".")


def print_crates() -> Iterator[str]:
    """A row for each crate: what it depends on in this repository, and what it says about itself."""
    listed = crates()
    own = {it.name for it in listed}
    yield "| Crate | Stands on | What it has |"
    yield "|---|---|---|"
    for it in listed:
        yield f"| `{it.name}` | {names([low for low in it.below if low in own])} | {cell(head_of(root_of(it.name)))} |"


def print_files() -> Iterator[str]:
    """For each crate a table of its files: what each says about itself, and what it has that others can use."""
    group = ""
    for crate in crates():
        if crate.group != group:
            group = crate.group
            yield from ("", f"### {group}")
        yield from file_table(crate)


def file_table(crate: Crate) -> Iterator[str]:
    """The table of one crate, if it has other files than its root."""
    files = files_of(crate.name)
    if not files:
        return
    yield from ("", f"| `{crate.name}` | Has |", "|---|---|")
    source = CRATES / crate.name / "src"
    for file in files:
        owners = dict.fromkeys(it.owner for it in public_items(crate.name, file))
        given = f" {names(list(owners))}" if owners else ""
        head = "Laws:" if file.name == "laws.rt" else cell(head_of(file))
        yield f"| `{file.relative_to(source)}` | {head}{given} |"


def public_types() -> Iterator[tuple[str, str, Item]]:
    """Each public type with its crate, also one that its crate doesn't export at its root."""
    for crate in crates():
        for file in [*files_of(crate.name), root_of(crate.name)]:
            if not crate.name.startswith("tests_"):
                yield from ((it.name, crate.name, it) for it in items_of(file) if it.public and it.kind != "fn")


def print_types() -> Iterator[str]:
    """A row for each public type: its crate, and the comment above it."""
    yield "| Type | Crate | What it is |"
    yield "|---|---|---|"
    for name, crate, item in sorted(public_types(), key=lambda it: (it[0].lower(), it[1])):
        yield f"| `{name}` | `{crate}` | {cell(item.says)} |"


def cited_words() -> set[str]:
    """The words of the clauses of all public calls."""
    found: set[str] = set()
    for crate in crates():
        for file in [] if crate.name.startswith("tests_") else files_of(crate.name):
            public, of_trait = False, False
            for line in file.read_text().splitlines():
                text = line.strip()
                of_trait = text.startswith("pub trait ") if line and line[0] not in " }" else of_trait
                call = CALLED.match(text)
                public = bool(call.group(1)) or of_trait if call else public and not text.startswith("pub(crate) fn")
                if text.startswith(CLAUSES) and (public or text.startswith("ghost")):
                    found |= set(WORD.findall(text))
    return found


def all_definitions() -> dict[str, list[Definition]]:
    """By name the definitions of all crates."""
    found: dict[str, list[Definition]] = {}
    for crate in crates():
        for file in specs_of(crate.name):
            for it in definitions_of(file)[1]:
                found.setdefault(it.name, []).append(it)
    return found


def definitions_needed() -> set[str]:
    """The names of the definitions that the clauses of public calls cite, and of the definitions that these cite."""
    known = all_definitions()
    cited = {it for it in cited_words() if it in known}
    return cited | {it for name in cited for one in known[name] for it in WORD.findall(one.body) if it in known}


def definition_lines(shown: list[Definition]) -> Iterator[str]:
    """A line for each definition that has a comment, and one for the others together."""
    yield from (f"- `{it.name}`: {as_phrase(it.says)}" for it in shown if it.says)
    bare = [it.name for it in shown if not it.says]
    if bare:
        yield f"- {names(bare)}"


def print_definitions() -> Iterator[str]:
    """For each crate its files of definitions, with the definitions that the contracts of public calls cite and the comment above each."""
    needed = definitions_needed()
    for crate in crates():
        files = [] if crate.name.startswith("tests_") else specs_of(crate.name)
        beside = []
        if files:
            yield from ("", f"### {crate.name}")
        for file in files:
            head, found = definitions_of(file)
            shown = [it for it in found if it.name in needed]
            if shown:
                yield from ("", f"**{file.stem}**: {head}" if head else f"**{file.stem}**", "", *definition_lines(shown))
            else:
                beside.append(file.stem)
        if beside:
            yield from ("", f"Also in this folder: {names(beside)}.")


def call_line(item: Item) -> str:
    """A call with the comment above it, and the names of its clauses."""
    clauses = f" ({', '.join(item.clauses)})" if item.clauses else ""
    return f"- `{item.name}`: {whole(item.says)}{clauses}"


def call_lines(title: str, items: list[Item]) -> Iterator[str]:
    """The calls under a title: a line for each that has a comment, and one for the others together."""
    if items:
        yield from ("", f"{title}:", "", *(call_line(it) for it in items if it.says))
        bare = [it.name for it in items if not it.says]
        if bare:
            yield f"- {names(bare)}"


def print_calls() -> Iterator[str]:
    """For each crate its laws and its calls, with the comment above each and the names of its clauses."""
    for crate in crates():
        files = files_of(crate.name)
        if of_tests(crate.name) or not files:
            continue
        yield from ("", f"### {crate.name}", "", whole(head_of(root_of(crate.name))))
        items = [(file, it) for file in files for it in public_items(crate.name, file) if it.kind == "fn"]
        yield from call_lines("Laws", [it for file, it in items if file.name == "laws.rt"])
        yield from call_lines("Calls", [it for file, it in items if file.name != "laws.rt"])
