#!/usr/bin/env python3
"""The reading list of the claim: what has to be read to know what `gq_shell::run` promises.

It follows every name from the signature and the clauses of `run`: to definitions of specs/, to types, traits and constants of
src/, and from a struct with an `impl Model` to its `Value`; a word that a definition binds is followed too where it names
something. It lists the kit's words and what it cannot resolve, and counts no blank lines, imports and bodies of functions.

    docs/reading.py                  each file, with its lines that are reached and all its lines: first what carries the rows, then
                                     grammar, binding, load, texts and session, then `:plan` and `:profile`; the kit; the total
    docs/reading.py --definitions    the same, with each definition by name
    docs/reading.py --unreached      what of specs/ no public function's clause uses, nor a definition that one reaches: specs/steps/
    docs/reading.py --inner          which public clauses, or definitions that one reaches, name a definition of specs/steps/ or of
                                     proofs/; it ends with 1 where there is one
"""
from __future__ import annotations

import argparse
import re
import sys
from collections.abc import Iterable, Iterator
from itertools import takewhile
from pathlib import Path
from typing import TypeAlias

CRATES = Path(__file__).resolve().parent.parent / "crates"
SOURCES: dict[str, Source] = {}  # each file by its path, as gq_shell/specs/Claim
KEYWORDS = set("→ × λ : = _ | let in record data where module mutual pub abbrev unfoldable unfolding as Type Unit tt ⊥ "
               "absurd ¬ 𝓛 cc grind Prim Some None Ok Err result self Self".split())
WORD = re.compile(r'"(?:\\.|[^"\\])*"|(\[\]|(?<![^\s()\[\]{},;])[^\s()\[\]{},;".\d][^\s()\[\]{},;"]*)')
LABEL = re.compile(r"([{;]\s*)\S+ =\s|⟦<(\w+).*?>⟧")
BINDER = re.compile(r"λ ([^.]*)\.|\blet (\S+)|[({]([^(){}:]+) :|^ *(?:(?:pub|abbrev|unfoldable) )*(\S+) :", re.M)
IMPORT = re.compile(r"^ *(ghost )?(?:pub(?:\(crate\))? )?use ([^\s;]+?)(?:\.\{([^}]*)\}| as (\S+?))?;?$", re.M)
OF_KIT = re.compile(r"(?:std|core|clap|csv|indexmap|itoa|memchr)\b")
NO_CODE = re.compile(r" *(?:--|//|#|infix|(?:pub )?mod |module _ |(?:unfoldable )?mutual$)")
ITEM = re.compile(r"(?:pub(?:\(crate\))? )?(fn|struct|enum|trait|type|const|impl)\b(?:<.*?>)? (?:(\w+).* for )?(\w+)")
FUNCTION = re.compile(r"^(?= *(?:pub(?:\(crate\))? )?(?:const )?fn )", re.M)
BODY = re.compile(r"^( *)(?:(?:\)|(?:pub(?:\(crate\))? )?(?:const )?fn ).*)?\{\n(?:(?!\1\S).*\n)*\1\}$", re.M)
CLAUSE = re.compile(r"\b(?:requires|ensures|ghost)\*?(?: \w+)?(?: ?[:=])? \{((?:[^{}]|\{(?:[^{}]|\{[^{}]*\})*\})*)\}")


Lines = list[tuple[int, str]]  # lines with their numbers
Meant: TypeAlias = "Item | tuple[str, str] | None"  # what a word means


def found(match: re.Match[str] | None) -> re.Match[str]:  # what has to be there
    assert match is not None
    return match


class Item:  # a definition or a contract: its lines by number, its text in antt, its words in Rust, and what it binds
    def __init__(self, source: Source, name: str, lines: Lines, text: str, words: Iterable[str], bound: set[str]) -> None:
        self.source, self.name, self.lines = source, name, {number for number, _ in lines}
        self.text, self.words, self.bound = text, words, bound
        source.items.append(self)

    def uses(self) -> Iterator[tuple[str, Meant]]:  # the words that it uses, each with what it means
        bound = self.bound.union(*(re.findall(r"[^\s(),]+", " ".join(names)) for names in BINDER.findall(self.text)))
        for word in {word.rstrip(".") for word in WORD.findall(LABEL.sub(r"\1\2", self.text))} - {""}:
            head, meant = word.split(".")[0], self.source.meaning(word)
            if head not in KEYWORDS and (meant or head not in bound):
                yield word, meant
        yield from ((word, self.source.meaning(word, is_rust=True)) for word in self.words)


class Source:  # a file: what its words bring from elsewhere, its items, and its definitions by the words that they declare
    def __init__(self, path: Path) -> None:
        self.path, self.text = path.relative_to(CRATES), path.read_text().replace("::", ".")
        self.crate, self.is_rust = self.path.parts[0], path.suffix == ".rt"
        if not self.is_rust:  # a comment behind code
            self.text = re.sub(r"(?<=\S) +-- .*$", "", self.text, flags=re.M)
        self.items: list[Item] = []
        self.declared: dict[str, Item] = {}
        self.imports: dict[str, tuple[str, str]] = {}
        self.uses: dict[str, tuple[str, str]] = {}
        for ghost, module, names, alias in IMPORT.findall(self.text):
            for name, _, other in (item.strip().partition(" as ") for item in names.strip(", \n").split(",")):
                last, of_rust = module.split(".")[-1], self.is_rust and not ghost
                crate = module.split(".")[0] if module.startswith("gq_") else self.crate
                home = f"Rattle.{crate}.specs.declared.{name or last}" if of_rust and not OF_KIT.match(module) else module
                words = dict.fromkeys((other or name or alias or last).split("◌"), (home, name))
                (self.uses if of_rust else self.imports).update(words)
        if self.is_rust:
            self.read_rust()
        else:
            self.read_antt()

    def pieces(self, form: str) -> Iterator[Lines]:
        for piece in re.finditer(form, self.text, re.M):
            start = self.text.count("\n", 0, piece.start()) + 1
            yield [(n, line) for n, line in enumerate(piece[0].split("\n"), start) if line and not IMPORT.match(line)]

    def read_antt(self) -> None:  # a paragraph is a definition, a signature and its cases; one that is indented stands in a block
        blocks = re.findall(r"^ *module _ .*", self.text, re.M)
        for lines in self.pieces(r"(?:.+\n)+"):
            code = [line for _, line in lines if not NO_CODE.match(line)]
            if code:
                is_data, name = found(re.match(r" *(?:(?:unfoldable|abbrev|pub) )*(?:(?:(data)|record) )?(\S+) ", code[0])).groups()
                cases = re.findall(rf"^{found(re.match(' *', code[0]))[0]}(\S.*?) =(?: |$)", "\n".join(code), re.M)
                text, bound = "\n".join(code + blocks * (code[0][0] == " ")), {*re.findall(r"[^\s()]+", " ".join(cases))}
                words = [*name.split("◌"), *re.findall(r"^ *(\S+) :", "\n".join(code[1:]) if is_data else "", re.M)]
                self.declared.update(dict.fromkeys(words, Item(self, name, lines, text, (), bound)))

    def read_rust(self) -> None:  # an item ends at the left edge; functions and impls have contracts, the others are definitions
        for lines in self.pieces(r"(?:.*\n)*?(?:[^\s/#].*)?[;}]\n"):
            code = [line for _, line in lines if not NO_CODE.match(line)]
            item = ITEM.match(code[0]) if code else None
            kind, trait, name = item.groups(default="") if item else ("use", "", "")
            text, lines = BODY.sub("", "\n".join(code)), list(takewhile(lambda line: line[1] != "{", lines))
            if trait == "Model":
                model = self.declared[name]
                model.text, model.words, model.bound = rust_parts(code[0], found(re.search("ghost Value .*", text))[0])
                model.lines.update(number for number, _ in lines)
            elif kind in ("fn", "impl"):
                for part in FUNCTION.split(text):
                    if trait or re.match(" *pub ", part):
                        Item(self, name, lines, *rust_parts(code[0], part))
            elif name:
                self.declared[name] = Item(self, name, lines, *rust_parts(code[0], text))

    def meaning(self, word: str, is_rust: bool = False) -> Meant:  # a definition, a module of the kit with its word, or None
        head, _, rest = word.partition(".")
        imports = self.uses if is_rust else {**self.uses, **self.imports}
        if head not in imports:
            return self.declared.get(head) or (("Rust's prelude", word) if is_rust else None)
        module, member = imports[head][0], imports[head][1] or rest.split(".")[0]
        if not module.startswith("Rattle.gq_"):
            return module, member or word
        _, crate, folder, *path = module.split(".")
        if folder == "proofs":
            return module, member or word
        if path[0] not in ("declared", "contracts"):
            return SOURCES["/".join([crate, "specs", *path])].meaning(member)
        name = member if "TheConstants" in path else [part for part in path if not re.match("The[A-Z]", part)][-1]
        named = {source.declared.get(name) for source in SOURCES.values() if source.crate == crate and source.is_rust}
        return next(iter(named - {None}), None)


# The clauses and ghost members of an item, the words of the rest, and what the item binds.
def rust_parts(head: str, text: str) -> tuple[str, set[str], set[str]]:
    rust = re.sub(r"'\w+|\"[^\"]*\"|^    [A-Z]\w*", "", CLAUSE.sub("", text), flags=re.M)
    bound = {*re.findall(r"\b[A-Z]\b", head + rust), *re.findall(r"\bghost (\w+)", text), *re.findall(r"(\w+):", rust)}
    words = {*re.findall(r"(?<!\.)\b[A-Z]\w*|\b\w+(?=\.\w*[A-Z])", rust)} - bound - {"Self"}
    return "\n".join(CLAUSE.findall(text)), words, bound


def public_items() -> list[Item]:  # a crate shows its root file's items, and what this passes on
    items: list[Item] = []
    for source in SOURCES.values():
        root = SOURCES.get(f"{source.crate}/src/lib")
        shown = re.findall(r"\w+", " ".join(re.findall(r"^pub use [^;]*", root.text if root else "", re.M)))
        items += (item for item in source.items if source.is_rust and (source is root or item.name in shown))
    return items


def inner_name(meant: Meant) -> str:  # where a definition stands that no public clause is to name
    if isinstance(meant, tuple):
        return f"{meant[1]} of {meant[0]}" if re.match(r"Rattle\.gq_\w+\.proofs\.", meant[0]) else ""
    return f"{meant.name} of {meant.source.path}" if meant and "steps" in meant.source.path.parts else ""


def show_inner() -> int:  # from the public clauses on, and not beyond a definition that none of them is to name
    todo, reached, lines = public_items(), set[Item](), set[str]()
    while todo:
        item = todo.pop()
        for _, meant in item.uses() if item not in reached else ():
            if name := inner_name(meant):
                lines.add(f"{item.source.path}: {item.name} names {name}")
            elif isinstance(meant, Item):
                todo.append(meant)
        reached.add(item)
    print(*(f"{line}\n" for line in sorted(lines)), sep="", end="")
    return int(bool(lines))


def reached_from(roots: Iterable[Item], without: Iterable[Item] = ()) -> tuple[set[Item], dict[str, set[str]], set[str]]:
    """What some items reach, but through none of these; the kit's words that they name, by module; and what is not resolved."""
    todo, passed, reached, kit, unresolved = list(roots), set(without), set[Item](), dict[str, set[str]](), set[str]()
    while todo:
        item = todo.pop()
        for word, meant in item.uses() if item not in reached | passed else ():
            if isinstance(meant, tuple):
                kit.setdefault(meant[0], set()).add(meant[1])
            elif meant:
                todo.append(meant)
            else:
                unresolved.add(f"unresolved: {word} in {item.name} of {item.source.path}\n")
        reached.add(item)
    return reached, kit, unresolved


def named(path: str, *names: str) -> list[Item]:
    return [item for item in SOURCES[path].items if item.name in names]


def show_files(chosen: set[Item], with_names: bool) -> tuple[int, str]:  # how many lines these items are, and the line of each file
    total, shown = 0, ""
    for source in SOURCES.values():
        if items := [item for item in source.items if item in chosen]:
            lines = len(set().union(*(item.lines for item in items)))
            total += lines
            shown += f"{lines:5} of {source.text.count(chr(10)):3}  {source.path}\n"
            shown += "".join(f"{'':17}{item.name}\n" for item in items if with_names)
    return total, shown


def show_claim(with_names: bool) -> None:  # in parts: who believes the first believes the rows of a bound query
    run = named("gq_shell/src/program", "run")
    reached, kit, unresolved = reached_from(run)
    rows = reached_from(named("gq_execute/specs/Replies", "IsPermitted"))[0]
    plain = reached_from(run, named("gq_reply/specs/Replies", "ShowsPlans", "IsProfile"))[0]
    total = 0
    for title, part in (("rows: which are permitted to a query that is bound", rows),
                        ("grammar, binding, load, texts and session", (reached & plain) - rows),
                        (":plan and :profile", reached - plain - rows)):
        lines, shown = show_files(part, with_names)
        total += lines
        print(f"{title}: {lines} lines\n{shown}")
    print(*(f"the kit's {module}: {' '.join(sorted(kit[module]))}\n" for module in sorted(kit)), *sorted(unresolved),
          f"{total} lines of {len(reached)} definitions", sep="")


def main(flags: list[str]) -> int:
    for path in sorted(CRATES.glob("*/s*/**/*.*t")):
        if "formers" not in path.parts:  # there the kit wants how a type may stand inside itself, which no clause names
            SOURCES[str(path.relative_to(CRATES).with_suffix(""))] = Source(path)
    if "--inner" in flags:
        return show_inner()
    if "--unreached" in flags:
        reached, _, unresolved = reached_from(public_items())
        others = {item for source in SOURCES.values() if not source.is_rust for item in source.items} - reached
        lines, shown = show_files(others, True)
        print(shown, *sorted(unresolved), f"{lines} lines of {len(others)} definitions", sep="")
        return 0
    show_claim("--definitions" in flags)
    return 0


def arguments() -> argparse.Namespace:
    parser = argparse.ArgumentParser(prog="docs/reading.py", description=__doc__,
                                     formatter_class=argparse.RawDescriptionHelpFormatter)
    what = parser.add_mutually_exclusive_group()
    what.add_argument("--definitions", action="store_true", help="each definition by name")
    what.add_argument("--unreached", action="store_true", help="what of specs/ nothing reaches")
    what.add_argument("--inner", action="store_true", help="what public clauses name and are not to")
    return parser.parse_args()


if __name__ == "__main__":
    sys.exit(main([f"--{name}" for name, said in vars(arguments()).items() if said]))
