"""What is made once and kept for later runs: the C++ programs and the graphs, each by the checksum of what makes it."""
import hashlib
import os
import shutil
import subprocess
from collections.abc import Callable

from . import graphs

TOP = os.path.dirname(os.path.dirname(__file__))
SOURCES = {"floor": "floor", "bag": "tools", "once": "tools"}
OPTIONS = {"floor": ["-O3", "-march=native"], "bag": ["-O2"], "once": ["-O2"]}


def checksum(*files: str) -> str:
    """Twelve digits for what files hold."""
    total = hashlib.sha256()
    for file in files:
        with open(file, "rb") as source:
            total.update(source.read())
    return total.hexdigest()[:12]


class Kept:
    """A folder of what was made; `room` is a folder inside it for what is being made and for one run's files."""

    def __init__(self, folder: str, room: str) -> None:
        self.folder, self.room = folder, room

    def keep(self, name: str, make: Callable[[str], object]) -> str:
        """The path of `name`, made by `make(place)` where it is missing. Two runs at once do not disturb one another."""
        path, place = os.path.join(self.folder, name), os.path.join(self.room, name)
        if not os.path.exists(path):
            make(place)
            try:
                os.rename(place, path)
            except OSError:
                if not os.path.exists(path):
                    raise
        return path

    def program(self, name: str) -> str | None:
        """A C++ program, or nothing where there is no compiler."""
        if not shutil.which("g++"):
            return None
        folder = os.path.join(TOP, SOURCES[name])
        main = os.path.join(folder, "main.cpp" if name == "floor" else name + ".cpp")
        headers = sorted(os.path.join(folder, file) for file in os.listdir(folder) if file.endswith(".hpp"))
        command = ["g++", "-std=c++17", *OPTIONS[name], main, "-o"]
        return self.keep(f"{name}-{checksum(main, *headers)}", lambda place: subprocess.run([*command, place], check=True))

    def graph(self, kind: str, count: int, seed: int = 1) -> str:
        """The folder of a graph."""
        name = f"{kind}-{count}-{seed}-{checksum(graphs.__file__)}"
        return self.keep(name, lambda place: graphs.make(kind, count, place, seed))
