#!/usr/bin/env python3
"""Which crates each crate imports, read from its sources and not from crates.txt.

    docs/imports.py          the picture of architecture.md: the crates whose code the program runs, by depth; behind each those that
                             its code calls and that no other of them calls, directly or not; and behind the crates of laws those
                             that cite them
    docs/imports.py --all    of each crate: what its code calls, what beside that its contracts and definitions name, and what
                             beside that its proofs cite
"""
from __future__ import annotations

import re
import sys
from collections.abc import Iterable, Iterator
from pathlib import Path

CRATES = Path(__file__).resolve().parent.parent / "crates"
CALLED = re.compile(r"^ *(?:pub(?:\(crate\))? )?use (gq_\w+)", re.M)
NAMED = re.compile(r"^ *(?:ghost |pub )*use Rattle\.(gq_\w+)", re.M)
Edges = dict[str, set[str]]


def texts(crate: str, folder: str) -> Iterator[str]:
    yield from (path.read_text() for path in (CRATES / crate / folder).rglob("*") if path.suffix in (".rt", ".antt"))


def found(names: re.Pattern[str], crates: Iterable[str], folder: str) -> Edges:
    return {crate: {name for text in texts(crate, folder) for name in names.findall(text)} - {crate} for crate in crates}


def below(edges: Edges, crate: str) -> set[str]:  # all that a crate calls, directly or not
    return edges[crate].union(*(below(edges, name) for name in edges[crate]))


def depth(edges: Edges, crate: str) -> int:
    return 1 + max((depth(edges, name) for name in edges[crate]), default=-1)


def own(edges: Edges, crate: str) -> set[str]:  # what a crate calls that nothing else which it calls does
    return edges[crate] - set().union(*(below(edges, name) for name in edges[crate]))


def line(crate: str, others: Iterable[str]) -> str:
    return f"{crate.removeprefix('gq_'):14}{' '.join(name.removeprefix('gq_') for name in sorted(others))}".rstrip()


def picture(code: Edges, cited: Edges) -> Iterator[str]:
    crates = sorted({"graphq"} | below(code, "graphq"), key=lambda crate: (depth(code, crate), crate))
    yield from (f"{depth(code, crate):2} {line(crate, own(code, crate))}" for crate in crates)
    for law in sorted(crate for crate in cited if crate.startswith("gq_law_")):
        yield f" § {line(law, (crate for crate, names in cited.items() if law in names))}"
    yield f"{len(crates)} crates, {sum(len(code[crate]) for crate in crates)} imports of code"


def lists(code: Edges, named: Edges, cited: Edges) -> Iterator[str]:
    for crate, names in code.items():
        yield f"{line(crate, names)} | {line('', named[crate] - names).strip()} | {line('', cited[crate] - named[crate]).strip()}"


def joined(one: Edges, other: Edges) -> Edges:
    return {crate: names | other[crate] for crate, names in one.items()}


def main() -> None:
    crates = sorted(path.name for path in CRATES.iterdir() if (path / "src").is_dir())
    code = found(CALLED, crates, "src")
    named = joined(code, joined(found(NAMED, crates, "src"), found(NAMED, crates, "specs")))
    cited = joined(named, found(NAMED, crates, "proofs"))
    print("\n".join(lists(code, named, cited) if sys.argv[1:] == ["--all"] else picture(code, cited)))


if __name__ == "__main__":
    main()
