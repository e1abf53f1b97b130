"""The files that a run writes. Each is written beside its name, and renamed when the run has succeeded.

So a run that fails or is stopped leaves the older file as it was, and two runs at once leave the complete file of one of them. What isn't a
plain file (a device, a pipe, an open descriptor such as /dev/stdout) is written directly."""

import errno
import fcntl
import os
import stat
from typing import Callable

from failures import why
from progress import stamp
from telling import named, plain_file

LINKS = 40  # symbolic links that are followed
LONGEST = 200  # bytes of a name that are kept in the name beside it
FORCE = "--force"


class Refused(Exception):
    """Says why a run isn't started."""


def target(name: str) -> "str | None":
    """The file that a name leads to through symbolic links; None if that is an open descriptor, or no file that can be created."""
    for _ in range(LINKS):
        folder, last = os.path.split(name)
        if last in ("", ".", "..") or not os.path.isdir(folder or "."):
            return None
        if os.path.realpath(folder or ".").startswith("/proc/"):
            return None
        if not os.path.islink(name):
            return name
        name = os.path.join(folder, os.readlink(name))
    return None


def is_plain(name: str) -> "bool | None":
    """Whether a name is that of a plain file; None if there is no file."""
    try:
        return stat.S_ISREG(os.stat(name).st_mode)
    except FileNotFoundError:
        return None
    except OSError:
        return False


def same_file(one: str, other: str) -> bool:
    """Whether two names are those of one plain file, by its device and inode."""
    try:
        return is_plain(one) and os.path.samefile(one, other)
    except OSError:
        return False


def refuse_same(read: list[str], made: list[str], force: str) -> None:
    """Refuses a run that would write over a file that it reads. `read` and `made` are names, and `force` is the option that allows it."""
    for output in made:
        for it in read:
            if same_file(it, output):
                both = named(output) if it == output else f"{named(output)}, which is the same file as {named(it)},"
                raise Refused(f"{both} is read by this run, which would write over it; give the new file another name, or add {force}")


def refuse_another(made: dict[str, str], kind_of: Callable[[str], "str | None"], force: str) -> None:
    """Refuses a run that would write over a file of another kind, or over a log that may be a chip's. `made` has the kind that is written under
    each name."""
    for name, kind in made.items():
        older = kind_of(name) if target(name) and is_plain(name) else None
        if older and (older != kind or kind == "a log"):
            raise Refused(f"{named(name)} looks like {older}, and {kind} would be written over it; give the new file another name, or add {force}")


class Output:
    """A file that a run writes. `written` is the name that the program is given."""

    def __init__(self, name: str) -> None:
        self.name, self.target, self.older = name, target(name), None
        self.written, self.error = name, None
        self.plain = self.target is not None and is_plain(self.target) is not False
        if self.plain:
            self.older = stamp(self.target)
            self.begin()

    @property
    def beside(self) -> bool:
        """Whether the file is written beside its name."""
        return self.written != self.name

    def begin(self) -> None:
        """Creates the file beside the name, if the program could write the file itself."""
        folder, last = os.path.split(self.target)
        if not os.access(self.target if self.older else folder or ".", os.W_OK, effective_ids=os.access in os.supports_effective_ids):
            return
        try:
            front = os.path.join(folder, os.fsdecode(os.fsencode(last)[:LONGEST]))
            self.written = self.create(f"./{front}" if front.startswith("-") else front)
        except OSError as error:
            self.error = error

    def create(self, front: str) -> str:
        """Creates a file whose name begins with `front`, with the owner and the permissions of the older file. Returns its name."""
        count = os.getpid()
        while True:
            try:
                made = os.open(f"{front}.new-{count}", os.O_CREAT | os.O_EXCL | os.O_WRONLY, 0o666)
                break
            except FileExistsError:
                count += 1
        try:
            if self.older:
                self.like_older(made)
        except OSError:
            os.unlink(f"{front}.new-{count}")
            raise
        finally:
            os.close(made)
        return f"{front}.new-{count}"

    def like_older(self, made: int) -> None:
        """Gives an open file the owner and the permissions of the older one."""
        older = os.stat(self.target)
        for owner in (-1, older.st_uid):
            try:
                os.fchown(made, owner, older.st_gid)
            except OSError:
                break  # only root may change a file's owner; others may only set its group to one of their own
        os.fchmod(made, stat.S_IMODE(older.st_mode))

    def unsafe(self) -> "str | None":
        """Why a run that fails would destroy the older file, if it would."""
        if not self.older or not self.error:
            return None
        return f"no file can be written beside {named(self.name)} ({why(self.error)}), so a run that fails would destroy it"

    def replace(self) -> "str | None":
        """Renames the new file to its name. Returns what is to be said about that."""
        now = stamp(self.target)
        if now:
            with open(self.written, "rb") as file:
                os.fsync(file.fileno())  # so that no crash leaves an empty file in place of the older one
        os.replace(self.written, self.target)
        if now and now != self.older:
            return f"{named(self.name)} was written by another program during this run; it is now the file of this run"
        return f"{named(self.name)} is a new file, which replaces the older one" if now else None

    def ends(self) -> bool:
        """Whether the last line of what was written is `end`."""
        file = plain_file(self.written)
        if not file:
            return False
        with file:
            file.seek(max(0, file.seek(0, os.SEEK_END) - 5))
            return file.read() == b"\nend\n"

    def drop(self) -> None:
        """Removes the file beside the name."""
        if self.beside:
            try:
                os.unlink(self.written)
            except OSError as error:
                if error.errno != errno.ENOENT:
                    raise


class Outputs:
    """The files of a run, by what the usage calls them. Two names of one file are one output."""

    def __init__(self, names: dict[str, str]) -> None:
        by_target = {}
        self.by_label = {}
        for label, name in names.items():
            key = os.path.realpath(name)
            self.by_label[label] = by_target[key] = by_target.get(key) or Output(name)
        self.all = list(by_target.values())

    def unsafe(self) -> "str | None":
        """Why an older file isn't safe, if one isn't."""
        return next(filter(None, (it.unsafe() for it in self.all)), None)

    def replace(self) -> tuple[list[str], bool]:
        """Renames each new file to its name, while no other run does so in this folder. Returns what is to be said, and whether all are renamed."""
        beside, told, whole = [it for it in self.all if it.beside], [], True
        lock = self.locked(beside)
        for it in beside:
            try:
                told.append(it.replace())
            except OSError as error:
                whole = False
                told.append(f"{named(it.name)} can't be replaced: {why(error)}; the new file is complete: {named(it.written)}")
        if lock is not None:
            os.close(lock)
        return list(filter(None, told)), whole

    def locked(self, beside: list[Output]) -> "int | None":
        """The open folder, locked if that is possible; None if there is only one file or the folder can't be opened."""
        if len(beside) < 2:
            return None
        try:
            folder = os.open(os.path.dirname(beside[0].written) or ".", os.O_RDONLY)
        except OSError:
            return None
        try:
            fcntl.flock(folder, fcntl.LOCK_EX)
        except OSError:
            pass
        return folder

    def drop(self) -> None:
        """Removes what was written beside the names."""
        for it in self.all:
            it.drop()


def put(name: str, text: str) -> None:
    """Writes a text beside a name, and renames it when it is complete. What isn't a plain file is written directly."""
    output = Output(name)
    try:
        with open(output.written, "w", encoding="utf-8", errors="backslashreplace", newline="") as file:
            file.write(text)
        if output.beside:
            output.replace()
    except OSError as error:
        output.drop()
        error.filename = error.filename or name
        raise
    except BaseException:
        output.drop()
        raise
