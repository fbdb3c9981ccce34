"""The command line of graphq-shell."""

from __future__ import annotations

import argparse
from collections.abc import Sequence

from ..program import found_program
from ..session import Session
from ..words import words_of
from .commands import HELP, command_of
from .formats import FORMATS
from .lines import lines_of
from .loop import Settings, Shell

_EXAMPLES = f"""\
{HELP}

examples:
  graphq-shell --manifest examples/metro/metro.manifest
  graphq-shell --manifest examples/metro/metro.manifest --mode csv <question.cypher >answer.csv

exit status: 0 done, 1 some statement of a file or a pipe was refused, 2 wrong arguments, 3 the graph is refused, 4 a
file cannot be read, 5 the output cannot be written, 6 some statement had no memory, 69 graphq is missing.
docs/tools/graphq-shell.md has more."""


def parser() -> argparse.ArgumentParser:
    """The parser of the command line."""
    top = words_of("graphq-shell", "A prompt for graphq: history, completion, tables, hints, times.", _EXAMPLES)
    top.add_argument("--manifest", required=True, metavar="PATH", help="the graph")
    top.add_argument("--order", choices=("given", "greedy", "least"), help="as graphq has it")
    top.add_argument("--rows", metavar="N", help="as graphq has it")
    top.add_argument("--mode", choices=tuple(FORMATS), help="how rows are shown (table)")
    top.add_argument("--program", metavar="PATH", help="the program graphq")
    return top


def main(arguments: Sequence[str]) -> int:
    """Runs a shell by the arguments of the command line."""
    words = parser().parse_args(arguments)
    options = [("--order", words.order), ("--rows", words.rows)]
    more = [word for option, value in options if value for word in (option, value)]
    session = Session(found_program(words.program), ["--manifest", words.manifest, *more])
    lines, at_keyboard = lines_of(
        lambda: shell.schema, session.parameters, lambda text: command_of(text.strip()) is not None
    )
    settings = Settings(words.mode or "table", timing=at_keyboard, pager=at_keyboard)
    shell = Shell(session, words.manifest, lines, at_keyboard, settings, find_command=command_of)
    return shell.run()
