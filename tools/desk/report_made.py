"""Says when a page is made, and by what."""

import datetime
import os
import re
import shutil
import subprocess

from program import program_of
from report_case import checksum
from results import TOP


def commit() -> "str | None":
    """The commit of these tools, if it is known."""
    if os.path.exists(f"{TOP}/version"):
        with open(f"{TOP}/version", encoding="utf-8") as file:
            return re.search("commit ([0-9a-f]+)|$", file.read())[1]
    if not shutil.which("git"):
        return None
    it = subprocess.run(["git", f"--git-dir={TOP}/.git", "rev-parse", "--short", "HEAD"], capture_output=True, text=True)
    return None if it.returncode else it.stdout.strip()


def made() -> str:
    """When the page is made, and by what."""
    seconds, tools = os.environ.get("SOURCE_DATE_EPOCH"), commit()
    day = datetime.datetime.fromtimestamp(int(seconds), datetime.timezone.utc).date() if seconds else datetime.date.today()
    return f"{day}, by the program with SHA-256 {checksum(program_of())[:16]}" + (f", tools of commit {tools}" if tools else "")
