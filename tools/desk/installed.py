"""Puts an installation under a folder, and removes one. Its files are listed in lib/diatest/manifest: a line has a checksum and a path, or
`folder` and the path of a folder that was made for the installation."""

import hashlib
import os
import shutil
from typing import Callable, Iterable

import completion
import manual
from telling import named
from usage import HELPERS, HERE

LIBRARY = "lib/diatest"
MANIFEST = f"{LIBRARY}/manifest"
PAGES = ("README.md", "docs/DESK.md", "docs/FORMATS.md", "docs/TUTORIAL.md", "docs/WORDS.md")


class Refused(Exception):
    """Says why nothing is installed or removed."""


def checksum(path: str) -> "str | None":
    """The checksum of a file, or of the target of a link; None if there is neither."""
    if os.path.islink(path):
        return hashlib.sha256(b"link " + os.fsencode(os.readlink(path))).hexdigest()
    try:
        with open(path, "rb") as file:
            return hashlib.sha256(file.read()).hexdigest()
    except FileNotFoundError:
        return None


def copied(program: str) -> dict[str, str]:
    """The files to copy: by path under the folder the file that each is copied from."""
    found = {f"{LIBRARY}/program": program, f"{LIBRARY}/diatest": f"{HERE}/diatest"}
    for it in (*HELPERS, "from-verilog.ys", "uninstall"):
        found[f"{LIBRARY}/tools/{it}"] = f"{HERE}/tools/{it}"
    for it in sorted(os.listdir(f"{HERE}/tools/desk")):
        if os.path.isfile(f"{HERE}/tools/desk/{it}"):
            found[f"{LIBRARY}/tools/desk/{it}"] = f"{HERE}/tools/desk/{it}"
    return found | {f"{LIBRARY}/{it}": f"{HERE}/{it}" for it in PAGES}


def written(version: str) -> dict[str, str]:
    """The files to make: by path their texts."""
    return {
        f"{LIBRARY}/version": version,
        "share/man/man1/diatest.1": manual.page(version.strip().replace("diatest, ", "", 1)),
        "share/bash-completion/completions/diatest": completion.bash(),
        "share/zsh/site-functions/_diatest": completion.zsh(),
    }


def linked() -> dict[str, str]:
    """The links for the PATH: by path their targets."""
    links = {f"bin/diatest-{it}": f"../{LIBRARY}/tools/{it}" for it in HELPERS}
    return {"bin/diatest": f"../{LIBRARY}/diatest"} | links


def listed(prefix: str) -> tuple[dict[str, str], list[str]]:
    """The checksums of an installation's files by their paths, and its folders."""
    files, folders = {}, []
    try:
        with open(f"{prefix}/{MANIFEST}", encoding="utf-8") as file:
            for line in file:
                first, path = line.rstrip("\n").split(" ", 1)
                if first == "folder":
                    folders.append(path)
                else:
                    files[path] = first
    except FileNotFoundError:
        pass
    return files, folders


def note(prefix: str, files: dict[str, str], folders: list[str]) -> None:
    """Writes the list of an installation's files, so that an interrupted installation can be removed."""
    with open(f"{prefix}/{MANIFEST}.new", "w", encoding="utf-8") as file:
        file.writelines(f"folder {it}\n" for it in folders)
        file.writelines(f"{sum_of} {path}\n" for path, sum_of in files.items())
    os.replace(f"{prefix}/{MANIFEST}.new", f"{prefix}/{MANIFEST}")


def make_folders(prefix: str, paths: Iterable[str], folders: list[str]) -> None:
    """Makes the folders of these files, and adds to `folders` those that weren't there."""
    for path in paths:
        parts = path.split("/")[:-1]
        for count in range(1, len(parts) + 1):
            folder = "/".join(parts[:count])
            if not os.path.isdir(f"{prefix}/{folder}"):
                os.mkdir(f"{prefix}/{folder}")
                os.chmod(f"{prefix}/{folder}", 0o755)
                folders.append(folder)


def put(path: str, fill: Callable[[str], None], noted: Callable[[str], None]) -> None:
    """Makes a file beside a path by `fill`, passes its checksum to `noted`, and then renames the file to the path."""
    new = f"{path}.new-{os.getpid()}"
    try:
        fill(new)
        noted(checksum(new))
        os.replace(new, path)
    finally:
        if os.path.lexists(new):
            os.unlink(new)


def write(path: str, text: str) -> None:
    with open(path, "w", encoding="utf-8") as file:
        file.write(text)
    os.chmod(path, 0o644)


def copy(source: str, path: str) -> None:
    shutil.copyfile(source, path)
    os.chmod(path, 0o755 if os.access(source, os.X_OK) else 0o644)


def fills(program: str, version: str) -> dict[str, Callable[[str], None]]:
    """By path the call that makes each file of an installation."""
    found = {it: lambda to, source=source: copy(source, to) for it, source in copied(program).items()}
    found |= {it: lambda to, text=text: write(to, text) for it, text in written(version).items()}
    return found | {it: lambda to, target=target: os.symlink(target, to) for it, target in linked().items()}


def foreign(prefix: str, paths: Iterable[str], files: dict[str, str]) -> list[str]:
    """Those of the paths that exist although this installation didn't make them, or that were changed since."""
    return [it for it in paths if os.path.lexists(f"{prefix}/{it}") and checksum(f"{prefix}/{it}") != files.get(it)]


def install(prefix: str, program: str, version: str, force: bool) -> int:
    """Puts an installation under a folder, in place of an earlier one. Returns how many files it has."""
    os.makedirs(prefix, exist_ok=True)
    files, folders = listed(prefix)
    made = fills(program, version)
    strange = [] if force else foreign(prefix, [it for it in made if not os.path.isdir(f"{prefix}/{it}")], files)
    strange += [it for it in made if os.path.isdir(f"{prefix}/{it}")]
    if strange:
        raise Refused(f"{named(f'{prefix}/{strange[0]}')} exists and isn't part of an installation: remove it, or add --force")
    make_folders(prefix, made, folders)
    note(prefix, files, folders)
    for path, fill in made.items():
        put(f"{prefix}/{path}", fill, lambda sum_of, path=path: note(prefix, files | {path: sum_of}, folders))
        files[path] = checksum(f"{prefix}/{path}")
    for path in [it for it in files if it not in made]:
        if checksum(f"{prefix}/{path}") == files[path]:
            os.unlink(f"{prefix}/{path}")
        del files[path]
    note(prefix, files, folders)
    return len(made)


def uninstall(prefix: str) -> tuple[int, list[str]]:
    """Removes an installation. Returns how many files were removed, and which are left since they were changed."""
    files, folders = listed(prefix)
    if not files:
        raise Refused(f"there is no installation under {named(prefix)}: no file {named(f'{prefix}/{MANIFEST}')} lists one")
    left = foreign(prefix, files, files)
    gone = [it for it in files if it not in left and os.path.lexists(f"{prefix}/{it}")]
    for path in gone:
        os.unlink(f"{prefix}/{path}")
    os.unlink(f"{prefix}/{MANIFEST}")
    for folder in reversed(folders):
        try:
            os.rmdir(f"{prefix}/{folder}")
        except OSError:
            pass  # it has something else
    return len(gone), left
