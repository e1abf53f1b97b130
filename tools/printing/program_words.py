"""Reads which words each command takes from the definitions that the program gives to `clap`.

In crates/request_words/src this reads the arms of `verb_named` and `definition`, and the functions that they call, down to those of
arguments.rt, which are known here by name. Anything else there is refused, so that nothing is overlooked."""

import ast
import re
from typing import NamedTuple

from sources import CRATES

SOURCE = CRATES / "request_words" / "src"
KIND = re.compile(r'"(\w+)" => Some\(EntryKind::')
NAMED = re.compile(r'"(\w+)" => Some\((Verb::\w+)\)')
ARM = re.compile(r"(Verb::\w+) => (.+?),\n", re.S)
FUNCTION = re.compile(r"^(?:pub\(crate\) )?fn (\w+)(?:<[^>]*>)?\(([^)]*)\) -> [^\n]*Command[^\n]*\n(.*?)^\}", re.M | re.S)
CONSTANT = re.compile(r"^(?:pub )?const (\w+): u\d+ = ([\d_]+);", re.M)
LET = re.compile(r"let (\w+) = (.*)", re.S)


class Number(NamedTuple):
    """A number among the words: the name of its place or of its option, its range and its default."""

    name: str
    least: int
    most: int
    default: int | None  # None if it can't be left out


class Taken(NamedTuple):
    """What a command takes."""

    names: tuple[str, ...] = ()
    numbers: tuple[Number, ...] = ()  # those among the names, and then those of options
    texts: tuple[str, ...] = ()  # the options with a text

    def option_names(self) -> list[str]:
        """The names of its options."""
        return [it.name for it in self.numbers if it.default is not None] + list(self.texts)


class Unread(Exception):
    """Names what the sources have and this module can't read."""


def with_arg(taken: Taken, arg: Taken) -> Taken:
    """What is taken with one more argument."""
    return Taken(taken.names + arg.names, taken.numbers + arg.numbers, taken.texts + arg.texts)


def with_names(taken: Taken, *names: str) -> Taken:
    """What is taken with more names."""
    return with_arg(taken, Taken(names))


def with_option(taken: Taken, name: str, default: str, least: int, most: int) -> Taken:
    """What is taken with one more number, which has a default."""
    return with_arg(taken, Taken(numbers=(Number(name, least, most, int(default)),)))


KNOWN = {
    "bare_command": lambda _name: Taken(),
    "two_names": lambda _name, *names: Taken(names),
    "name_arg": lambda name: Taken((name,)),
    "number_arg": lambda name, most: Taken((name,), (Number(name, 1, most, None),)),
    "with_names": with_names,
    "with_option": with_option,
    "with_text_option": lambda taken, name: with_arg(taken, Taken(texts=(name,))),
}


class Definitions:
    """The functions and constants that define the commands."""

    def __init__(self) -> None:
        texts = {it: (SOURCE / f"{it}.rt").read_text() for it in ("request", "commands")}
        limits = (CRATES / "result_records" / "src" / "limits.rt").read_text()
        self.request = texts["request"]
        self.constants = {name: int(value) for name, value in CONSTANT.findall(texts["commands"] + limits)}
        self.functions = {name: (parameters, body) for name, parameters, body in FUNCTION.findall(texts["commands"])}

    def value(self, node: ast.expr, known: dict[str, object]) -> object:
        """The value of an expression with these variables."""
        match node:
            case ast.Constant(value=value):
                return value
            case ast.Name(id=name) if name in known or name in self.constants:
                return known[name] if name in known else self.constants[name]
            case ast.Call(func=ast.Name(id=name), args=[ast.Name(id="alloc"), *rest]):
                return self.call(name, [self.value(it, known) for it in rest])
            case ast.Call(func=ast.Attribute(value=command, attr="arg"), args=[arg]):
                return with_arg(self.value(command, known), self.value(arg, known))
        raise Unread(ast.unparse(node))

    def call(self, name: str, values: list) -> object:
        """What a function returns for these values."""
        if name in KNOWN:
            return KNOWN[name](*values)
        if name not in self.functions:
            raise Unread(name)
        parameters, body = self.functions[name]
        names = [it.split(":")[0].strip() for it in parameters.split(",") if it.strip()]
        known = dict(zip(names[1:], values))
        steps = body[body.index("\n{\n") + 3 :] if not body.startswith("{\n") else body[2:]
        for step in steps.split(";"):
            let = LET.match(step.strip())
            result = self.expression(let.group(2) if let else step, known)
            if let:
                known[let.group(1)] = result
        return result

    def expression(self, text: str, known: dict[str, object]) -> object:
        """The value of an expression of the source with these variables."""
        try:
            return self.value(ast.parse(text.replace("?", "").strip(), mode="eval").body, known)
        except SyntaxError:
            raise Unread(text.strip()) from None

    def commands(self) -> dict[str, Taken]:
        """What each command takes, in the order of the sources."""
        verbs = {verb: name for name, verb in NAMED.findall(self.request)}
        begin = self.request.index("fn definition<")
        arms = ARM.findall(self.request[begin : self.request.index("\n}\n", begin)] + "\n")
        found = {verbs.pop(verb): self.expression(text, {}) for verb, text in arms}
        if verbs:
            raise Unread(f"no definition of {', '.join(verbs.values())}")
        return found


def program_words() -> dict[str, Taken]:
    """What each command of the program takes."""
    try:
        return Definitions().commands()
    except (Unread, KeyError, ValueError, TypeError, AttributeError) as error:
        raise SystemExit(f"tools/printing/program_words.py can't read the commands in {SOURCE}: {error}") from error


def dictionary_kinds() -> list[str]:
    """The words that the program takes for the kind of a dictionary, in the order of the sources."""
    return KIND.findall((SOURCE / "arguments.rt").read_text())
