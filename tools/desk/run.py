"""run.py PROGRAM WORD..: runs DIATEST with the words, and explains on standard error what its output leaves open.

The status is the program's, and what it prints is passed on byte for byte. Its files are written beside their names, and renamed when the
status is 0. If standard output can't be written, the program's next write fails, or its last writes are known to have failed. In both cases
the status is 8, as without this script. A run that would write over a file that it reads isn't started, unless --force is among the words."""

import quiet  # noqa: F401, I001 (the first, so that an interrupt this early prints no traceback)

import os
import select
import signal
import subprocess
import sys

from failures import unread, unwritten, why
from outputs import FORCE, Output, Outputs, Refused, refuse_another, refuse_same
from progress import Progress, stamp
from refusals import PARTIAL, WANTED, explain, kind_of
from telling import named, say, tell
from usage import COMMANDS, files_of, places_of, read_by, usage
from words import wrong

KEPT = 1 << 16  # bytes of the console that are kept; a refusal is the first line
REFUSED = (3, 4, 5, 6, 10)
STOPS = (signal.SIGHUP, signal.SIGINT, signal.SIGQUIT, signal.SIGTERM)
RESULTS = ("gen", "grade", "topup", "synth")
ENDED = {**dict.fromkeys(RESULTS, "RESULT"), "compact": "NEW", "adapt": "PLAN"}  # by command the file whose last line is `end`


class Console:
    """Passes on what the program prints, and keeps the beginning."""

    def __init__(self) -> None:
        self.kept, self.error = b"", None

    def hand_on(self, piece: bytes) -> None:
        self.kept += piece[: KEPT - len(self.kept)]
        while piece and not self.error:
            try:
                piece = piece[os.write(1, piece) :]
            except BlockingIOError:
                select.select([], [1], [])
            except OSError as error:
                self.error = error


class Run:
    """A run of the program."""

    def __init__(self, program: str, words: list[str]) -> None:
        self.child, self.signal, self.console = None, None, Console()
        self.handle(self.pass_on)
        force, words = take_force(words)
        self.wrong = wrong(words) if words else None
        known = words[:1] != [] and words[0] in COMMANDS
        self.command, self.words = words[0] if known else None, [program, *words]
        places = places_of(words[0], words[1:]) if known else {}
        self.files = files_of(words[0], words[1:]) if known else {}
        made = COMMANDS[words[0]].made.split() if known and not self.wrong else []
        self.outputs = self.begun(made, force)
        for label in made:
            self.words[2 + places[label]] = self.outputs.by_label[label].written
        shown = self.command in ("gen", "topup") and made and os.isatty(2)
        self.progress = Progress(self.outputs.by_label["RESULT"].written) if shown else None

    def begun(self, made: list[str], force: bool) -> Outputs:
        """The files that the run writes. Refuses a run that would destroy one."""
        read = [self.files[it] for it in read_by(self.command, self.files)] if made else []
        if not force:
            refuse_same(read, [self.files[it] for it in made], FORCE)
            refuse_another({self.files[it]: self.written_as(it) for it in made}, kind_of, FORCE)
        outputs = Outputs({it: self.files[it] for it in made})
        unsafe = None if force else outputs.unsafe()
        if unsafe:
            outputs.drop()
            raise Refused(f"{unsafe}; with {FORCE} it is written in its place")
        return outputs

    def written_as(self, label: str) -> str:
        """The kind of file that the run writes under a name of the usage."""
        written = {"convert": "dictionary", "compact": "result"}[self.command] if label == "NEW" else label.lower()
        return WANTED[written]

    def handle(self, handler: object) -> None:
        """Sets what is done at each signal that stops a run, unless the signal is ignored."""
        for number in STOPS:
            if signal.getsignal(number) != signal.SIG_IGN:
                signal.signal(number, handler)

    def pass_on(self, number: int, _frame: object) -> None:
        """Passes a signal on to the program."""
        self.signal = number
        if self.child:
            self.child.send_signal(number)

    def start(self) -> None:
        """Starts the program with a pipe in place of standard output. It has this script's other open descriptors too."""
        self.child = subprocess.Popen(self.words, stdout=subprocess.PIPE, bufsize=0, close_fds=False)
        if self.signal:
            self.child.send_signal(self.signal)

    def follow(self) -> None:
        """Passes on what the program prints until it ends, and shows how far it is."""
        pipe = self.child.stdout.fileno()
        while not self.console.error:
            if not select.select([pipe], [], [], 1 if self.progress else None)[0]:
                self.progress.show()
                continue
            piece = os.read(pipe, 1 << 16)
            if self.progress:
                self.progress.clear()
            if not piece:
                break
            self.console.hand_on(piece)
        self.child.stdout.close()
        self.child.wait()

    def status(self) -> int:
        """The status of the run: 8 if what the program printed couldn't be passed on and no signal ended it, else the program's."""
        return 8 if self.console.error and self.child.returncode >= 0 else self.child.returncode

    def explain(self) -> None:
        """Explains what the program's output leaves open."""
        status = self.status()
        if status < 0:
            self.tell_killed(-status)
        elif self.console.error:
            tell(f"standard output can't be written: {why(self.console.error)}")
        elif status == 2:
            if self.wrong:
                tell(self.wrong)
            say(usage(self.command))
        elif not self.command:
            return
        elif status in REFUSED:
            self.outputs.drop()
            self.handle(signal.SIG_DFL)  # finding the place may take a while
            say(explain(self.command, self.files, self.console.kept.decode("utf-8", "surrogateescape")))
        elif status in (7, 8):
            self.tell_failed(status)
        elif status == 0:
            self.tell_empty()
        elif status == 9:
            tell("there wasn't enough memory")

    def tell_empty(self) -> None:
        """Says which list or log that was read is empty."""
        if is_empty(self.files.get("VECTORS", "")):
            tell(f"{named(self.files['VECTORS'])} has no vectors")
        if self.command in PARTIAL and is_empty(self.files["LOG"]):
            tell(f"{named(self.files['LOG'])} is empty, so it says nothing about the chip")

    def tell_failed(self, status: int) -> None:
        """Says which file couldn't be read or written, and why."""
        tried = read_by(self.command, self.files) if status == 7 else COMMANDS[self.command].made.split()
        causes = filter(None, map(unread if status == 7 else unwritten, (self.files[it] for it in tried)))
        tell(next(causes, f"a {'read' if status == 7 else 'write'} failed, and its cause can't be seen any more"))

    def tell_killed(self, number: int) -> None:
        """Says that a signal ended the program, unless it is one that stops a run."""
        if self.signal == signal.SIGINT and os.isatty(2):
            say("\n")  # after what the terminal shows of the key
        if number not in STOPS:
            tell(f"the program was ended by {signal.Signals(number).name}")

    def finish(self) -> int:
        """Renames the new files to their names if the run succeeded; else says what its files are now. Returns the status."""
        status = self.status()
        if status == 0:
            told, whole = self.outputs.replace()
            for it in told:
                tell(it)
            return 0 if whole else 8
        for label, output in self.outputs.by_label.items():
            self.tell_left(label, output, status)
        return status

    def tell_left(self, label: str, output: Output, status: int) -> None:
        """Says what a file is now after a run that failed, and removes what was written beside it, unless that is complete."""
        name = named(output.name)
        state = f"{name} is as it was before" if output.older else f"there is no {name} yet"
        if not output.beside:
            if status < 0 and output.plain:
                tell(state if stamp(output.target) == output.older else f"{name} may be incomplete")
            return
        if self.child.returncode == 0 or label == ENDED.get(self.command) and output.ends():
            tell(f"{state}; the new file is complete: {named(output.written)}")
            return
        output.drop()
        if status < 0 or status in (8, 9) and output.older:
            tell(state + self.so_far())

    def so_far(self) -> str:
        """How far a stopped run came, if that was counted."""
        counted = self.progress and self.progress.member is not None
        return f": the run was stopped at fault {self.progress.member} of {self.progress.last}" if counted else ""


def is_empty(name: str) -> bool:
    """Whether a name is that of a plain file without a byte."""
    return os.path.isfile(name) and os.path.getsize(name) == 0


def take_force(words: list[str]) -> tuple[bool, list[str]]:
    """Whether --force is among the words, and the words without it."""
    end = words.index("--") if "--" in words else len(words)
    left = [it for at, it in enumerate(words) if at >= end or it != FORCE]
    return len(left) < len(words), left


def end(status: int) -> None:
    """Ends as the program did."""
    if status >= 0:
        sys.exit(status)
    if -status in STOPS:
        signal.signal(-status, signal.SIG_DFL)
        os.kill(os.getpid(), -status)
    sys.exit(128 - status)


def main() -> None:
    try:
        run = Run(sys.argv[1], sys.argv[2:])
    except Refused as error:
        tell(str(error))
        sys.exit(2)
    try:
        run.start()
    except OSError as error:
        run.outputs.drop()
        tell(f"{named(sys.argv[1])} can't be run: {why(error)}")
        sys.exit(1)
    run.follow()
    try:
        run.explain()
    except Exception as error:  # whatever can't be shown, the run ends as the program did
        tell(f"the cause can't be shown ({error})")
    try:
        status = run.finish()
    except OSError as error:
        tell(f"{named(error.filename)} can't be removed: {why(error)}")
        status = run.status() or 8
    end(status)


main()
