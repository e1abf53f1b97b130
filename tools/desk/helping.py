"""What the helpers with options share: their words, how they end, and the files that they write."""

from __future__ import annotations

import argparse
import os
import re
import signal
import sys
from typing import Callable, Dict, List, NamedTuple, NoReturn

from failures import Unwritten, hand_out, unwritten, why
from outputs import FORCE, Output, Outputs, Refused, refuse_another, refuse_same
from refusals import kind_of
from report_runs import Ended
from telling import named, say
from usage import helper_line
from words import wrong_number

SAID = (  # what argparse says, in plain words
    (r"the following arguments are required: ([^,]*)$", r"\1 is missing"),
    (r"the following arguments are required: (.*)$", r"\1 are missing"),
    (r"unrecognized arguments: (.*)$", r"\1 isn't understood"),
    (r"argument ([^:]*): expected .*$", r"\1 needs a word after it"),
    (r"argument ([^:]*): not allowed with argument (.*)$", r"\1 and \2 can't be given together"),
    (r"argument ([^:]*): ignored explicit argument .*$", r"\1 takes no value"),
)
STOPS = (signal.SIGHUP, signal.SIGINT, signal.SIGTERM)


Words = argparse.Namespace  # the parsed words of a run


class Misused(Exception):
    """Says which word of a helper isn't understood."""


class Stopped(BaseException):
    """A signal that ends the helper."""

    def __init__(self, number: int):
        super().__init__(number)
        self.number = number


class Made(NamedTuple):
    """What is written under a name: its kind in words, and its bytes."""

    kind: str
    content: bytes


class Parser(argparse.ArgumentParser):
    """Parses the words of a helper. The help goes to standard output."""

    def __init__(self, name: str, description: str):
        form = argparse.RawDescriptionHelpFormatter
        super().__init__(usage=helper_line(name).replace("%", "%%"), description=description, formatter_class=form, allow_abbrev=False)

    def error(self, message: str) -> NoReturn:
        """Ends with what is wrong with the words."""
        word = message.partition("unrecognized arguments: ")[2]
        for form, plain in SAID:
            message = re.sub(form, plain, message, flags=re.DOTALL)
        name = word.startswith("-") and os.path.lexists(word)
        raise Misused(message + (f": write the name of a file so: ./{word}" if name else ""))

    def parse(self, words: List[str]) -> Words:
        """Parses words. Those after -- are names; one of these that begins with - gets ./ before it."""
        at = words.index("--") if "--" in words else len(words)
        behind = [f"./{it}" if it.startswith("-") else it for it in words[at + 1 :]]
        return self.parse_intermixed_args([*words[:at], *behind])

    def print_help(self, file: object = None) -> None:
        """Prints the help."""
        hand_out(self.format_help())


def number_of(what: str, text: str, least: int, most: int) -> int:
    """The number that a text is. Raises a ValueError if it is none in this range."""
    wrong = wrong_number(what, text, least, most)
    if wrong:
        raise ValueError(wrong)
    return int(text)


def stop(number: int, _frame: object) -> NoReturn:
    """Handles a signal."""
    raise Stopped(number)


def handle() -> None:
    """Makes signals end the helper by an exception, so that it leaves nothing behind. An ignored signal stays ignored. What is written to a
    closed standard error is dropped."""
    if sys.stderr is None:
        sys.stderr = open(os.devnull, "w", encoding="utf-8")
    for number in STOPS:
        if signal.getsignal(number) != signal.SIG_IGN:
            signal.signal(number, stop)


def sentence_of(error: OSError) -> str:
    """Says which open or read failed, and why."""
    what = f"{named(error.filename)} can't be read" if error.filename else "a file can't be read or written"
    return f"{what}: {why(error)}"


def run(name: str, work: Callable[[], None]) -> NoReturn:
    """Does the work of a helper, and ends. If the work can't be done, a sentence on standard error says why."""
    status = 1
    try:
        handle()
        work()
        sys.exit(0)
    except Stopped as error:
        signal.signal(error.number, signal.SIG_DFL)
        os.kill(os.getpid(), error.number)
        wrong = "it was stopped"
    except Misused as error:
        status, wrong = 2, f"{error}\nusage: {helper_line(name)}"
    except Refused as error:
        status, wrong = 2, str(error)
    except Ended as error:
        say(str(error))
        sys.exit(error.status)
    except OSError as error:
        wrong = sentence_of(error)
    except (ValueError, Unwritten) as error:
        wrong = str(error)
    except MemoryError:
        wrong = "there was no memory for it"
    say(f"{name}: {wrong}\n")
    sys.exit(status)


def write(output: Output, content: bytes) -> None:
    """Writes a file under the name that it has until it is complete."""
    try:
        with open(output.written, "wb") as file:
            file.write(content)
    except OSError as error:
        raise ValueError(unwritten(output.name) or f"{named(output.name)} can't be written: {why(error)}") from None


def write_files(name: str, made: Dict[str, Made], read: List[str], force: bool) -> None:
    """Writes files beside their names, and renames them when all are complete. Without `force` it refuses to write over a file that is read or
    one of another kind."""
    if not force:
        refuse_same(read, list(made), FORCE)
        refuse_another({it: one.kind for it, one in made.items()}, kind_of, FORCE)
    outputs = Outputs({it: it for it in made})
    try:
        unsafe = None if force else outputs.unsafe()
        if unsafe:
            raise Refused(f"{unsafe}; with {FORCE} it is written in its place")
        for it, one in made.items():
            write(outputs.by_label[it], one.content)
        told, whole = outputs.replace()
    except BaseException:
        outputs.drop()
        raise
    for it in told:
        say(f"{name}: {it}\n")
    if not whole:
        sys.exit(1)
