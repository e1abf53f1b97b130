"""What bash and zsh complete after `diatest`, made from the table of commands.

completion.py bash|zsh prints it."""

from __future__ import annotations

import sys

from usage import COMMANDS, HELPERS, FileOption
from words import KINDS

BASH = """# Completion of diatest for bash.
_diatest() {
  local word=${COMP_WORDS[COMP_CWORD]} options=
  COMPREPLY=()
  if [ "$COMP_CWORD" -eq 1 ]; then
    COMPREPLY=($(compgen -W "%(commands)s help --version --help" -- "$word"))
    return
  fi
  case ${COMP_WORDS[1]} in
    help) COMPREPLY=($(compgen -W "%(helped)s" -- "$word")); return ;;
%(cases)s
  esac
  case $word in
    -*) COMPREPLY=($(compgen -W "$options --help" -- "$word")); return ;;
  esac
  if [ "${COMP_WORDS[1]}/$COMP_CWORD" = dict/2 ]; then
    COMPREPLY=($(compgen -W "%(kinds)s" -- "$word"))
    return
  fi
  local IFS=$'\\n'
  COMPREPLY=($(compgen -f -- "$word"))
}
complete -o filenames -F _diatest diatest
"""

ZSH = """#compdef diatest
# Completion of diatest for zsh.
_diatest() {
  local -a commands
  commands=(
%(described)s
    'help:tells the words of a command'
  )
  if (( CURRENT == 2 )); then
    _describe command commands
    return
  fi
  local first=$words[2]
  shift words
  (( CURRENT-- ))
  case $first in
    help) _values command %(helped)s ;;
%(cases)s
  esac
}
_diatest "$@"
"""


def options_of(name: str) -> list[tuple[str, str]]:
    """The options of a command, with what each does."""
    options = [(f"--{it.name}", it.work) for it in COMMANDS[name].options]
    return options + ([("--force", "allows to write over a file that the run reads, or one of another kind")] if COMMANDS[name].made else [])


def quoted(text: str) -> str:
    """A text for between single quotes of zsh, with brackets and colons escaped."""
    for it in "[]:":
        text = text.replace(it, "\\" + it)
    return text.replace("'", "'\\''")


def bash() -> str:
    """The file for bash."""
    cases = [f"    {name}) options=\"{' '.join(it for it, _ in options_of(name))}\" ;;" for name in COMMANDS if options_of(name)]
    helped = " ".join([*COMMANDS, *HELPERS])
    return BASH % {"commands": " ".join(COMMANDS), "helped": helped, "cases": "\n".join(cases), "kinds": " ".join(KINDS)}


def zsh_case(name: str) -> str:
    """What zsh completes after a command."""
    values = {f"--{it.name}": ":file:_files" if isinstance(it, FileOption) else ":number:" for it in COMMANDS[name].options}
    words = [f"'{option}[{quoted(work)}]{values.get(option, '')}'" for option, work in options_of(name)]
    words += [f"'1:kind:({' '.join(KINDS)})'"] if name == "dict" else []
    return f"    {name}) _arguments {' '.join([*words, repr('*:file:_files')])} ;;"


def zsh() -> str:
    """The file for zsh."""
    described = [f"    '{name}:{quoted(command.work)}'" for name, command in COMMANDS.items()]
    helped = " ".join([*COMMANDS, *HELPERS])
    return ZSH % {"described": "\n".join(described), "helped": helped, "cases": "\n".join(map(zsh_case, COMMANDS))}


if __name__ == "__main__":
    print({"bash": bash, "zsh": zsh}[sys.argv[1]](), end="")
