"""The case files of gq_cases, and whether what a case wants is what the oracle permits.

crates/gq_cases/README.md says how they are written. Left out are cases of refused words and
loads, of failing calls, of inputs that are too long, of want of memory and of too many matches.
"""

from __future__ import annotations

import re
from collections.abc import Iterator
from dataclasses import dataclass, field, replace
from pathlib import Path

from .errors import TooMuch
from .graph import Graph, read_graph
from .replies import Permitted, Settings
from .session import Session, statements_of
from .transcripts import replies_of

ORDERS = {"all": ("given", "greedy", "least"), "both": ("given", "greedy")}
BEYOND = re.compile("fails .*|room .*|cut .*|status 7")
ENDS_BEYOND = ("usage: ", "load: ")
NOTHING_SAID = "error: Memory"
TEXT_LINE = re.compile(r"[|=*]([0-9]*) ?(.*)", re.DOTALL)


@dataclass(frozen=True)
class Case:
    """A case: what the program is given, and what it has to write."""

    title: str = ""
    files: dict[str, str] = field(default_factory=dict)
    words: tuple[str, ...] = ("--manifest", "g.manifest")
    orders: tuple[str, ...] = ("greedy",)
    input: str = ""
    output: str = ""
    in_any_order: bool = False
    is_beyond: bool = False

    def word_behind(self, option: str, default: str) -> str:
        """The value of an option."""
        words = dict(zip(self.words, self.words[1:], strict=False))
        return words.get(option, default)


def cases_in(path: Path) -> Iterator[Case]:
    """The cases of a file, with each byte as a character."""
    common, current, target = Case(), None, None
    for line in path.read_text(encoding="latin-1").split("\n"):
        head, _, rest = line.partition(" ")
        case = common if current is None else current
        if head == "case":
            if current is not None:
                yield current
            current, target = replace(common, title=rest or case.title), None
            continue
        if head == "file":
            target, case = rest, replace(case, files=case.files | {rest: ""})
        elif head == "input":
            target = None
        elif line.startswith("|") and target is not None:
            text = case.files[target] + text_of(line)
            case = replace(case, files=case.files | {target: text})
        else:
            case = with_line(case, line, path.parent)
        if current is None:
            common = case
        else:
            current = case
    if current is not None:
        yield current


def with_line(case: Case, line: str, folder: Path) -> Case:
    """A case with one more line, which is none of its files."""
    head, _, rest = line.partition(" ")
    match line[:1]:
        case "|":
            return replace(case, input=case.input + text_of(line))
        case "=" | "*" as mark:
            output = case.output + text_of(line)
            return replace(case, output=output, in_any_order=case.in_any_order or mark == "*")
    match head:
        case "words":
            return replace(case, words=tuple(rest.split()))
        case "orders":
            return replace(case, orders=ORDERS[rest])
        case "files":
            named = {name: (folder / name).read_text(encoding="latin-1") for name in rest.split()}
            return replace(case, files=case.files | named)
    return replace(case, is_beyond=case.is_beyond or BEYOND.fullmatch(line) is not None)


def text_of(line: str) -> str:
    """The lines that a line of text stands for."""
    found = TEXT_LINE.fullmatch(line)
    assert found is not None
    times, text = found.groups()
    end = "" if text.endswith("~") else "\n"
    text = re.sub("~(x..|r|t|$)", character, text) + end
    if not times:
        return text
    return "".join(text.replace("#", str(number + 1)) for number in range(int(times)))


def character(found: re.Match[str]) -> str:
    """The byte that a mark in a text stands for."""
    mark = found[1]
    return {"": "", "r": "\r", "t": "\t"}.get(mark) or (chr(int(mark[1:], 16)) if mark else "")


def objections(case: Case) -> Iterator[str]:
    """What a case wants that is not permitted; TooMuch where nothing is said of the case."""
    is_answered = not case.output.startswith(ENDS_BEYOND) and "--manifest" in case.words
    if case.is_beyond or not is_answered or NOTHING_SAID in case.output.split("\n"):
        raise TooMuch
    files = {decoded(name): decoded(text) for name, text in case.files.items()}
    graph = read_graph(files[decoded(case.word_behind("--manifest", ""))], files)
    for order in case.orders:
        order = case.word_behind("--order", order)
        rows = int(case.word_behind("--rows", str(Settings().rows)))
        yield from objections_to(case, graph, Settings(order, rows))


def objections_to(case: Case, graph: Graph, settings: Settings) -> Iterator[str]:
    """The same over its graph, with these settings."""
    session = Session(graph, settings)
    asked: list[tuple[bytes, Permitted]] = []
    for text in statements_of(case.input.encode("latin-1")):
        permitted = session.permitted(text)
        if permitted is not None:
            asked.append((text, permitted))
    replies = replies_of(decoded(case.output), [permitted for _, permitted in asked])
    for (text, permitted), reply in zip(asked, replies, strict=True):
        if case.in_any_order and permitted.listing is not None and len(reply) > 2:
            reply = [reply[0], *permitted.listing.arranged(reply[1:-1]), reply[-1]]
        objection = permitted.objection(reply)
        if objection is not None:
            statement = text.decode(errors="backslashreplace").strip()
            lines = [f"{case.title} ({settings.order}): {objection}", statement]
            yield "\n".join([*lines, *reply, "permitted", *permitted.lines()])


def decoded(text: str) -> str:
    """The characters of a text that has each byte as one."""
    return text.encode("latin-1").decode(errors="surrogateescape")
