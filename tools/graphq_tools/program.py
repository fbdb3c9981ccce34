"""Finds the program graphq."""

from __future__ import annotations

import os
import shutil
import subprocess
from pathlib import Path

from .outcome import Refusal, Status

_TOP = Path(__file__).resolve().parent.parent.parent
# Where an installed package has the program.
_BROUGHT = Path(__file__).resolve().parent.parent / "graphq" / "bin" / "graphq"


def found_program(asked: str | None) -> str:
    """The program to run: the one asked for, that of the variable GRAPHQ, or the one of the sources beside the tools.

    It is never built here: that takes long, and whoever draws a picture is to be told and not to wait.
    """
    program = asked or os.environ.get("GRAPHQ") or _of_these_sources()
    if program is None:
        raise Refusal(
            "the program of these sources is not built yet: ./graphq builds it, where there is an rt; "
            f"--program {_TOP / 'release/graphq'} runs the released one, which is of other sources",
            Status.NOT_INSTALLED,
        )
    if not os.access(program, os.X_OK):
        raise Refusal(f"{program}: there is no such program; --program names another", Status.NOT_INSTALLED)
    return program


def _of_these_sources() -> str | None:
    """The program that the package brings; or the one of the sources beside the tools, built here or else released.

    Where there are no sources beside the tools, it is the one that is found by its name.
    """
    if _BROUGHT.is_file():
        return str(_BROUGHT)
    if not (_TOP / "release" / "make").is_file():
        return shutil.which("graphq")
    for option, program in (("--newer", "crates/graphq/out/graphq"), ("--check", "release/graphq")):
        if subprocess.run([str(_TOP / "release" / "make"), option], check=False).returncode == 0:
            return str(_TOP / program)
    return None
