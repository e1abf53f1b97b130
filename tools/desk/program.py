"""Finds the program that the helpers run."""

from __future__ import annotations

import os
import signal
import subprocess

from results import TOP


def program_of() -> str:
    """The name of the program: the one that DIATEST names, that of an installation, or the one that `tools/build` leaves."""
    installed = f"{TOP}/program"
    return os.environ.get("DIATEST") or (installed if os.path.exists(installed) else f"{TOP}/crates/diatest/out/diatest")


def deaf() -> None:
    """Makes a child process ignore the interrupt of a terminal, since another signal stops it."""
    signal.signal(signal.SIGINT, signal.SIG_IGN)


def built() -> str | None:
    """The name of the program, which is built first if it must be; None if the build fails. An interrupt stops the build too."""
    name = program_of()
    if os.environ.get("DIATEST") or name == f"{TOP}/program":
        return name
    build = subprocess.Popen([f"{TOP}/tools/build"], preexec_fn=deaf)
    try:
        return None if build.wait() else name
    except BaseException:
        build.terminate()
        build.wait()
        raise
