"""The shell's own commands: what stands on a line by itself at the front of a statement."""

from __future__ import annotations

from collections.abc import Callable
from pathlib import Path

from ..statements import spelled
from .formats import FORMATS
from .loop import Quit, Shell

HELP = """\
A statement ends with ;  and may go over several lines. docs/language.md has the language.
  MATCH (n:Label) RETURN n.name;                      rows
  :schema                 the tables of the graph     :plan QUERY;        how a query is gone through
  :profile QUERY;         its rows, after what it took
  :param NAME VALUE;      $NAME stands for VALUE      :params             the parameters
  .mode table|markdown|csv|json|plain                 how rows are shown
  .output FILE            answers go to a file        .output             and to the screen again
  .read FILE              the lines of a file         .schema             the same as :schema
  .timing on|off          the time of each answer     .pager on|off       long answers through a pager
  .help, help, ?          this text                   .quit, exit         ends, as Ctrl-D does
Ctrl-C ends the statement that runs or is typed, and not the session; parameters stay as they are."""

# What is meant by a line by itself, with a ; or without one.
_MEANT = {
    **dict.fromkeys(("exit", "quit", ":exit", ":quit", ":q", "\\q"), ".quit"),
    **dict.fromkeys(("help", "?", ":help", ":?", "\\h", "\\?"), ".help"),
    **dict.fromkeys((":schema", "\\d"), ".schema"),
    **dict.fromkeys((":params", ":param"), ".params"),
}
_MOST_FILES = 16

Command = Callable[[Shell], None]


def command_of(line: str) -> Command | None:
    """The command that a line is, or None where it is none and belongs to a statement."""
    meant = _MEANT.get(line.removesuffix(";").rstrip().lower())
    words = (meant or line).split(maxsplit=1)
    if not words or not words[0].startswith("."):
        return None
    argument = words[1].strip() if len(words) == 2 else ""
    if words[0] not in _COMMANDS or (argument and words[0] in _WITHOUT):
        return lambda shell: shell.refuse(f"{line}: there is no such command; .help has them")
    command = _COMMANDS[words[0]]
    return lambda shell: command(shell, argument)


def _quit(_: Shell, __: str) -> None:
    raise Quit


def _mode(shell: Shell, word: str) -> None:
    if word in FORMATS:
        shell.settings.mode = word
    else:
        shell.refuse(f".mode is one of {', '.join(FORMATS)}")


def _timing(shell: Shell, word: str) -> None:
    if _is_switch(shell, ".timing", word):
        shell.settings.timing = word == "on"


def _pager(shell: Shell, word: str) -> None:
    if _is_switch(shell, ".pager", word):
        shell.settings.pager = word == "on"


def _is_switch(shell: Shell, name: str, word: str) -> bool:
    if word not in ("on", "off"):
        shell.refuse(f"{name} is on or off")
    return word in ("on", "off")


def _params(shell: Shell, _: str) -> None:
    """The parameters, as they would be set."""
    lines = [f":param {spelled(name)} {value};" for name, value in shell.session.parameters.items()]
    shell.show(lines or ["no parameter has a value;  :param name value;  gives one"])


def _output(shell: Shell, name: str) -> None:
    if not name:
        shell.close_output()
        return
    try:
        shell.open_output(name)
    except FileNotFoundError:
        shell.refuse(f".output {name}: there is no such folder")
    except OSError as error:
        shell.refuse(f".output {name}: {_why(error)}")


def _read(shell: Shell, name: str) -> None:
    if not name:
        shell.refuse(".read needs the name of a file")
        return
    with shell.reading_file() as depth:
        if depth > _MOST_FILES:
            shell.refuse(f".read {name}: {_MOST_FILES} files read one another already")
            return
        try:
            text = Path(name).read_text(encoding="utf-8")
        except UnicodeDecodeError:
            shell.refuse(f".read {name}: the file is not UTF-8")
        except OSError as error:
            shell.refuse(f".read {name}: {_why(error)}")
        else:
            shell.read(text)


def _why(error: OSError) -> str:
    """Why a file cannot be opened, in the words of the shell."""
    if isinstance(error, FileNotFoundError):
        return "there is no file of this name"
    if isinstance(error, IsADirectoryError):
        return "it is a folder"
    if isinstance(error, PermissionError):
        return "it may not be opened"
    return (error.strerror or str(error)).lower()


_COMMANDS: dict[str, Callable[[Shell, str], None]] = {
    ".help": lambda shell, _: shell.show(HELP.splitlines()),
    ".schema": lambda shell, _: shell.answer(":schema"),
    ".params": _params,
    ".quit": _quit,
    ".exit": _quit,
    ".mode": _mode,
    ".timing": _timing,
    ".pager": _pager,
    ".output": _output,
    ".read": _read,
}
_WITHOUT = frozenset((".help", ".schema", ".params", ".quit", ".exit"))
