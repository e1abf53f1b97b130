"""Says why a file can't be read or written."""

from __future__ import annotations

import errno
import os
import select
import stat

from telling import named

WHY = {
    errno.ENOENT: "there is no such file",
    errno.ENOTDIR: "there is no such file, since a part of the name is no folder",
    errno.EISDIR: "it is a folder",
    errno.EACCES: "there is no permission",
    errno.EPERM: "there is no permission",
    errno.EROFS: "its file system can only be read",
    errno.ENOSPC: "the disk is full",
    errno.EDQUOT: "the quota of the disk is used up",
    errno.EFBIG: "it would be larger than a file may be here",
    errno.EBADF: "it is closed",
    errno.EPIPE: "its reader has closed it",
}


class Unwritten(Exception):
    """Why standard output can't be written."""


def why(error: OSError) -> str:
    """The cause of a failed call."""
    return WHY.get(error.errno) or (error.strerror or "the cause isn't known").lower()


def unread(name: str) -> str | None:
    """Why a file can't be read, if it can't."""
    try:
        kind = os.stat(name).st_mode
        if stat.S_ISREG(kind) or stat.S_ISDIR(kind):
            with open(name, "rb") as file:
                file.read(1)
    except OSError as error:
        return f"{named(name)} can't be read: {why(error)}"
    return None


def uncreated(name: str, folder: str) -> str | None:
    """Why a file can't be created in a folder, if it can't."""
    if not os.path.isdir(folder):
        return f"{named(name)} can't be created: there is no folder {named(folder)}"
    if not os.access(folder, os.W_OK | os.X_OK):
        return f"{named(name)} can't be created: there is no permission to write in the folder {named(folder)}"
    return None


def unwritten(name: str) -> str | None:
    """Why a file can't be written, if it can't. It is neither created nor changed."""
    folder = os.path.dirname(name) or "."
    try:
        kind = os.stat(name).st_mode
        if stat.S_ISCHR(kind):
            return f"{named(name)} can't be written: it is a device that took no more bytes"
        if stat.S_ISREG(kind) or stat.S_ISDIR(kind):
            os.close(os.open(name, os.O_WRONLY))
    except FileNotFoundError as error:
        cause = uncreated(name, folder) if name else f"{named(name)} can't be created: {why(error)}"
        return cause or full(name, folder)
    except OSError as error:
        return f"{named(name)} can't be written: {why(error)}"
    return full(name, folder)


def full(name: str, folder: str) -> str | None:
    """Why a file can't grow, if its disk has no room. This is tried with a file that has no name."""
    try:
        with open(os.open(folder, os.O_TMPFILE | os.O_WRONLY), "wb", buffering=0) as file:
            wanted, piece = 1 << 20, bytes(1 << 20)
            while wanted > 0:
                wanted -= file.write(piece[:wanted])
    except OSError as error:
        if error.errno in (errno.ENOSPC, errno.EDQUOT, errno.EFBIG):
            return f"{named(name)} can't be written: {why(error)}"
    return None


def hand_out(text: str) -> None:
    """Writes a text on standard output."""
    left = text.encode("utf-8", "surrogateescape")
    while left:
        try:
            left = left[os.write(1, left) :]
        except BlockingIOError:
            select.select([], [1], [])
        except OSError as error:
            raise Unwritten(f"standard output can't be written: {why(error)}") from None
