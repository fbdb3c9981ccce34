"""Builds the package graphq as a wheel, by the standard library alone, so that `pip install ./tools` needs no network.

A wheel holds the packages graphq and graphq_tools, and the program where one of these sources is there. What it is
called and which tools it brings stands in pyproject.toml.
"""

from __future__ import annotations

import base64
import hashlib
import runpy
import subprocess
import tomllib
import zipfile
from collections.abc import Iterator
from pathlib import Path
from typing import Any

HERE = Path(__file__).resolve().parent.parent
PACKAGES = ("graphq", "graphq_tools")
# The released program is for this platform.
PLATFORM = "manylinux_2_34_x86_64"


def _project() -> dict[str, Any]:
    with open(HERE / "pyproject.toml", "rb") as stream:
        project: dict[str, Any] = tomllib.load(stream)["project"]
    return project


def program() -> Path | None:
    """The program that is of the sources beside the tools: the one that was built here, or the released one."""
    make = HERE.parent / "release/make"
    for option, path in (("--newer", "crates/graphq/out/graphq"), ("--check", "release/graphq")):
        if make.is_file() and subprocess.run([str(make), option], check=False).returncode == 0:
            return HERE.parent / path
    return None


def extras() -> dict[str, list[str]]:
    """The extras and their modules, as packages.py has them."""
    found: dict[str, list[str]] = runpy.run_path(str(HERE / "graphq_tools/packages.py"))["EXTRAS"]
    return found


def _metadata(project: dict[str, Any]) -> str:
    lines = [
        "Metadata-Version: 2.1",
        f"Name: {project['name']}",
        f"Version: {project['version']}",
        f"Summary: {project['description']}",
        f"Requires-Python: {project['requires-python']}",
    ]
    lines += [f"Requires-Dist: {one}" for one in project.get("dependencies", [])]
    for extra, wanted in extras().items():
        lines.append(f"Provides-Extra: {extra}")
        lines += [f"Requires-Dist: {one}; extra == '{extra}'" for one in wanted]
    return "\n".join([*lines, ""])


def _entry_points(project: dict[str, Any]) -> str:
    lines = ["[console_scripts]", *(f"{name} = {place}" for name, place in project.get("scripts", {}).items())]
    return "\n".join([*lines, ""])


def _sources() -> Iterator[tuple[str, bytes, bool]]:
    """The files of the packages: where each goes, what is in it, and whether it is a program."""
    for package in PACKAGES:
        for path in sorted((HERE / package).rglob("*")):
            if path.is_file() and "__pycache__" not in path.parts:
                yield path.relative_to(HERE).as_posix(), path.read_bytes(), False
    found = program()
    if found is not None:
        yield "graphq/bin/graphq", found.read_bytes(), True


class _Wheel:
    """A wheel on its way out: its files, and the record of them."""

    def __init__(self, folder: str, platform: str) -> None:
        self._project = _project()
        stem = f"{self._project['name']}-{self._project['version']}"
        self._info = f"{stem}.dist-info"
        self._platform = platform
        self.name = f"{stem}-py3-none-{platform}.whl"
        self._record: list[str] = []
        self._file = zipfile.ZipFile(Path(folder, self.name), "w", zipfile.ZIP_DEFLATED)

    def add(self, name: str, data: bytes, executable: bool = False) -> None:
        """Adds a file. Its time is always the same, so that the same sources give the same wheel."""
        entry = zipfile.ZipInfo(name, (2020, 1, 1, 0, 0, 0))
        entry.external_attr = (0o100755 if executable else 0o100644) << 16
        entry.compress_type = zipfile.ZIP_DEFLATED
        self._file.writestr(entry, data)
        digest = base64.urlsafe_b64encode(hashlib.sha256(data).digest()).rstrip(b"=").decode()
        self._record.append(f"{name},sha256={digest},{len(data)}")

    def finish(self) -> str:
        """Adds what a wheel says of itself, and gives its name."""
        tag = f"py3-none-{self._platform}"
        about = f"Wheel-Version: 1.0\nGenerator: graphq_build\nRoot-Is-Purelib: true\nTag: {tag}\n"
        self.add(f"{self._info}/METADATA", _metadata(self._project).encode())
        self.add(f"{self._info}/WHEEL", about.encode())
        self.add(f"{self._info}/entry_points.txt", _entry_points(self._project).encode())
        record = "\n".join([*self._record, f"{self._info}/RECORD,,", ""])
        self._file.writestr(zipfile.ZipInfo(f"{self._info}/RECORD", (2020, 1, 1, 0, 0, 0)), record)
        self._file.close()
        return self.name


def build_wheel(
    wheel_directory: str, config_settings: dict[str, Any] | None = None, metadata_directory: str | None = None
) -> str:
    """Makes the wheel, and gives its name: what pip calls."""
    files = list(_sources())
    wheel = _Wheel(wheel_directory, PLATFORM if any(is_program for _, _, is_program in files) else "any")
    for name, data, is_program in files:
        wheel.add(name, data, is_program)
    return wheel.finish()


def build_editable(
    wheel_directory: str, config_settings: dict[str, Any] | None = None, metadata_directory: str | None = None
) -> str:
    """Makes a wheel that leads to the sources here: what `pip install -e` calls."""
    wheel = _Wheel(wheel_directory, "any")
    wheel.add("graphq.pth", f"{HERE}\n".encode())
    return wheel.finish()


def build_sdist(sdist_directory: str, config_settings: dict[str, Any] | None = None) -> str:
    """There is no archive of the sources alone: the program is of all of the repository."""
    raise NotImplementedError("an archive of the tools alone would lack the program: install from a clone")
