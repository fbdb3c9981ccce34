"""The folder that a tool writes: made whole beside its place and then moved there, or not at all."""

from __future__ import annotations

import contextlib
import os
import shutil
import tempfile
from collections.abc import Iterator
from pathlib import Path

from .outcome import Refusal, Status, writing

# So many characters have at most so many bytes as a name of a file has room for, with what comes after.
MOST_STEM = 50


@contextlib.contextmanager
def new_folder(place: str) -> Iterator[Path]:
    """Gives a folder to write into, which becomes `place` at the end. `place` has to be new, or an empty folder."""
    target = Path(place)
    if not place or any(character.isspace() for character in place):
        raise Refusal(f"--out '{place}': a manifest cannot name files in a folder with a blank", Status.BAD_WORDS)
    if not place.isprintable() or any("\ud800" <= character <= "\udfff" for character in place):
        raise Refusal(f"--out {place!a}: a manifest cannot name files in it", Status.BAD_WORDS)
    with writing(target):
        if target.exists() and (not target.is_dir() or any(target.iterdir())):
            raise Refusal(f"--out {place}: it is there already and not empty", Status.CANNOT_WRITE)
        target.parent.mkdir(parents=True, exist_ok=True)
        making = Path(tempfile.mkdtemp(prefix=f".{target.name or 'graph'}.", dir=target.parent))
    try:
        yield making
        with writing(target):
            making.chmod(0o777 & ~_umask())
            if target.exists():
                target.rmdir()
            os.rename(making, target)
    finally:
        shutil.rmtree(making, ignore_errors=True)


def _umask() -> int:
    mask = os.umask(0)
    os.umask(mask)
    return mask


class FileNames:
    """Gives each table a file name that no other has, whatever the case."""

    def __init__(self) -> None:
        self._taken: set[str] = set()

    def take(self, stem: str, suffix: str = ".csv") -> str:
        """A new name made of `stem`, in small letters."""
        base = "".join(character if character.isalnum() or character in "-_" else "-" for character in stem.lower()[:MOST_STEM])
        name, number = base, 2
        while name in self._taken:
            name, number = f"{base}-{number}", number + 1
        self._taken.add(name)
        return name + suffix
