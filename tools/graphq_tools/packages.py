"""What the tools want beside Python, in one place: each module and program, with the package of Debian that brings it.

tools/setup installs the packages, a refusal names them, and `pip install './tools[import]'` asks for the modules of an extra.
"""

from __future__ import annotations

import importlib.util
import shutil
import sys

# What tools/setup installs; it reads these lines where there is no Python to ask.
MODULES = {
    "networkx": "python3-networkx",
    "numpy": "python3-numpy",
    "tqdm": "python3-tqdm",
    "prompt_toolkit": "python3-prompt-toolkit",
    "wcwidth": "python3-wcwidth",
}
PROGRAMS = {
    "dot": "graphviz",
    "sqlite3": "sqlite3",
}
# What the package of Python uses where it is there.
OPTIONAL_MODULES = {
    "pandas": "python3-pandas",
    "pyarrow": "pyarrow of PyPI",
    "nbclient": "python3-nbclient",
    "ipykernel": "python3-ipykernel",
}
# What the tests and tools/style want, and skip where it is missing.
TEST_MODULES = {
    "pip": "python3-pip",
    "flake8_comprehensions": "python3-flake8-comprehensions",
}
TEST_PROGRAMS = {
    "mypy": "mypy",
    "flake8": "flake8",
    "isort": "isort",
    "pyupgrade": "pyupgrade",
    "ruff": "ruff of PyPI",
    "psql": "postgresql",
}
# What `tools/setup --tests` does not install either: what Debian does not have, and a server.
LEFT_OUT = frozenset(("pyarrow of PyPI", "ruff of PyPI", "postgresql"))
# The extras of the package that pip installs, and the modules that each of them is for.
EXTRAS = {
    "import": ["networkx", "numpy", "tqdm"],
    "shell": ["prompt_toolkit", "wcwidth"],
    "tables": ["pandas"],
    "arrow": ["pyarrow"],
    "notebook": ["nbclient", "ipykernel"],
}


def package_of(what: str) -> str:
    """The package that brings a module or a program, by its name here."""
    return {**TEST_PROGRAMS, **PROGRAMS, **TEST_MODULES, **OPTIONAL_MODULES, **MODULES}[what]


def wanted() -> list[str]:
    """The packages of Debian that tools/setup installs."""
    return [*MODULES.values(), *PROGRAMS.values()]


def missing(tests: bool = False) -> list[str]:
    """Those of them that are missing, by what they bring and not by how they were installed; with those of the tests."""
    modules = {**MODULES, **OPTIONAL_MODULES, **TEST_MODULES} if tests else MODULES
    programs = {**PROGRAMS, **TEST_PROGRAMS} if tests else PROGRAMS
    found = [package for module, package in modules.items() if importlib.util.find_spec(module) is None]
    found += [package for program, package in programs.items() if shutil.which(program) is None]
    return [package for package in found if package not in LEFT_OUT]


if __name__ == "__main__":
    print("\n".join(missing("--tests" in sys.argv[1:])))
