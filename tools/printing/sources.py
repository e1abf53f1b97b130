"""Reads the sources: the crates and their files, public items with the comments above them, and definitions."""

import pathlib
import re
from typing import Iterator, NamedTuple

ROOT = pathlib.Path(__file__).resolve().parent.parent.parent
CRATES = ROOT / "crates"
TYPE = re.compile(r"(pub |pub\(crate\) |)(?:unsafe )?(struct|enum|trait|type) (\w+)")
CALL = re.compile(r"(pub |)(?:const |unsafe )?fn (\w+)")
BLOCK = re.compile(r"(?:impl(?:<.*?>)? |(?:pub(?:\(crate\))? )?trait )(\w+)")
CLAUSE = re.compile(r"\s*ensures (?:(\w+) )?\{")
EXPORT = re.compile(r"^pub use (\w+(?:::\w+)*?)::(?:\{([^}]*)\}|(\w+));", re.M)
DEFINITION = re.compile(r"(?:(?:abbrev|unfoldable|opaque|transparent) pub|pub(?: record| data)?) ([\w-]+)")


class Crate(NamedTuple):
    """A crate of crates.txt."""

    name: str
    group: str  # the comment above it
    below: tuple[str, ...]  # the crates that it depends on, those of the kit too


class Item(NamedTuple):
    """A type or a call, with the comment above it."""

    name: str  # of a method with its type, as `Keeper::keep`
    kind: str  # struct, enum, trait, type or fn
    says: str  # a line for each paragraph
    clauses: tuple[str, ...]  # the names of its `ensures`
    public: bool

    @property
    def owner(self) -> str:
        """The name that a crate exports so that this can be used."""
        return self.name.partition("::")[0]


class Definition(NamedTuple):
    """A public definition of specs/, with the comment above it."""

    name: str
    says: str
    body: str


def crates() -> list[Crate]:
    """The crates in the order of crates.txt."""
    listed, group = [], ""
    for line in (ROOT / "crates.txt").read_text().splitlines():
        if line.startswith("#"):
            group = line[1:].strip()
        elif line.strip():
            name, _, below = line.partition(":")
            listed.append(Crate(name.split()[0], group, tuple(below.split())))
    return listed


def of_tests(crate: str) -> bool:
    """Whether a crate has nothing but tests."""
    return crate.startswith("tests_") or crate == "sample_circuits"


def files_of(crate: str) -> list[pathlib.Path]:
    """The files of a crate's modules, sorted by path."""
    source = CRATES / crate / "src"
    if crate.startswith("tests_"):
        return sorted((source / "tests").rglob("*.rt"))
    return sorted(it for it in source.rglob("*.rt") if it.name not in ("lib.rt", "main.rt"))


def root_of(crate: str) -> pathlib.Path:
    """The file that names a crate's modules."""
    source = CRATES / crate / "src"
    return source / ("lib.rt" if (source / "lib.rt").exists() else "main.rt")


def paragraphs(lines: list[str]) -> str:
    """The lines of a comment, a line for each paragraph."""
    return "\n".join(" ".join(it.split()) for it in "\n".join(lines).split("\n\n"))


def head_of(file: pathlib.Path) -> str:
    """What a file of code says about itself: the comment at its head, without its drawings."""
    said, drawn = [], False
    for line in file.read_text().splitlines():
        if not line.startswith("//") or line.startswith("///"):
            break
        text = line.lstrip("/!").strip()
        if not drawn and not text.startswith("```"):
            said.append(text)
        drawn ^= text.startswith("```")
    return paragraphs(said)


def exported(crate: str) -> set[str]:
    """The names that a crate exports."""
    names = set()
    for _, several, one in EXPORT.findall(root_of(crate).read_text()):
        names |= {it.split(" as ")[-1].strip() for it in (several or one).split(",") if it.strip()}
    return names


def clauses_below(lines: list[str], at: int) -> tuple[str, ...]:
    """The names of the clauses of the call whose first line this is."""
    indent, found = re.match(r"\s*", lines[at]).group(), []
    for line in filter(str.strip, lines[at + 1 :]):
        clause = CLAUSE.match(line)
        if clause and clause.group(1):
            found.append(clause.group(1))
        if line.startswith(indent + "{") or (not line.startswith(indent)) or line.rstrip().endswith("};"):
            break
    return tuple(found)


def items_of(file: pathlib.Path) -> Iterator[Item]:
    """The types and calls of a file, with the comment above each. The calls of a public trait are public."""
    lines, said, block, open_trait = file.read_text().splitlines(), [], "", False
    for at, line in enumerate(lines):
        text = line.strip()
        if text.startswith("///"):
            said.append(text[3:].strip())
            continue
        if not text or text.startswith("#["):
            said = said if text else []
            continue
        if not line.startswith(" "):
            found = TYPE.match(text)
            head = BLOCK.match(text)
            block = head.group(1) if head and text.endswith("{") and " for " not in text else "" if text != "{" else block
            open_trait = bool(head) and "trait " in text and text.startswith("pub ")
            if found:
                yield Item(found.group(3), found.group(2), paragraphs(said), (), found.group(1) == "pub ")
        call = CALL.match(text)
        if call and (not line.startswith(" ") or (block and line.startswith("    ") and line[4] != " ")):
            name = f"{block}::{call.group(2)}" if line.startswith(" ") else call.group(2)
            public = call.group(1) == "pub " or (open_trait and line.startswith(" "))
            yield Item(name, "fn", paragraphs(said), clauses_below(lines, at), public)
        said = []


def public_items(crate: str, file: pathlib.Path) -> list[Item]:
    """What a file has that the crate exports."""
    names = exported(crate)
    return [it for it in items_of(file) if it.public and it.owner in names]


def specs_of(crate: str) -> list[pathlib.Path]:
    """The files of a crate's definitions."""
    folder = CRATES / crate / "specs"
    return sorted(it for it in folder.rglob("*.antt") if it.name != "Lib.antt" and "declared" not in it.parts)


def unfolded(file: pathlib.Path) -> Iterator[str]:
    """The lines of a file of definitions, without the indentation of what a `module` with parameters or a `mutual` holds."""
    depth = 0
    for line in file.read_text().splitlines():
        if line.strip():
            depth = min(depth, (len(line) - len(line.lstrip())) // 2)
        line = line[2 * depth :]
        yield line
        depth += line.startswith("module ") or line.endswith("mutual")


def definitions_of(file: pathlib.Path) -> tuple[str, list[Definition]]:
    """The comment at the head of a file of definitions, and its public definitions."""
    head, found, said, begun = "", [], [], False
    for line in unfolded(file):
        if line.startswith("--"):
            said.append(line[2:].strip())
            continue
        named = DEFINITION.match(line)
        if named:
            found.append(Definition(named.group(1), " ".join(said), line))
        elif found and line.strip():
            found[-1] = found[-1]._replace(body=found[-1].body + "\n" + line.split(" -- ")[0])
        if line.startswith("use ") and not begun:
            head = " ".join(said)
        begun = begun or bool(named) or line.startswith("use ")
        said = []
    return head, found
