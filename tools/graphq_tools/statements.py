"""Cuts what is typed into statements, as graphq cuts its input: at each `;` in no string, quoted name or comment."""

from __future__ import annotations

import re

MOST_BYTES = 65_536

# The next thing that may end a statement or hide its end: `;`, or what begins a string, a quoted name or a comment.
_NEXT = re.compile(r"""[;'"`]|//|/\*""")
_ENDS = {
    "'": re.compile(r"(?:[^'\\]|\\.)*'", re.DOTALL),
    '"': re.compile(r'(?:[^"\\]|\\.)*"', re.DOTALL),
    "`": re.compile(r"[^`]*`"),
    "//": re.compile(r"[^\n\r]*[\n\r]"),
    "/*": re.compile(r".*?\*/", re.DOTALL),
}
_WORD = re.compile(r"(?:[A-Za-z_]|(?!\s)[^\x00-\x7f])(?:[A-Za-z0-9_]|(?!\s)[^\x00-\x7f])*\Z")

# How what is open ends, where it does not end with its line.
_CLOSES = {"'": "'", '"': '"', "`": "`", "/*": "*/"}


def in_bytes(text: str) -> bytes:
    """The bytes that a text stands for, also where they are no UTF-8."""
    return text.encode("utf-8", "surrogateescape")


def spelled(name: str) -> str:
    """A name as a statement has it: in backquotes where it is no plain word."""
    return name if _WORD.match(name) else "`" + name.replace("`", "``") + "`"


def is_closed(statement: str) -> bool:
    """Whether a `;` after a statement would end it: no string, quoted name or comment in it is still open."""
    return split(f"{statement};") == ([statement], "")


def split(text: str) -> tuple[list[str], str]:
    """The statements that end in a text, without their `;`, and what stands after the last one."""
    statements, rest, _ = _cut(text)
    return statements, rest


def waits_for(text: str) -> str:
    """What has to come before a text ends as statements: the end of what is open in it, `;`, or nothing."""
    _, rest, opened = _cut(text)
    if opened:
        return _CLOSES.get(opened, "")
    return "" if is_blank(rest) else ";"


def _cut(text: str) -> tuple[list[str], str, str]:
    """The statements that end in a text, what stands after the last one, and what is open there, if anything."""
    statements, begin, at = [], 0, 0
    while found := _NEXT.search(text, at):
        if found[0] == ";":
            statements.append(text[begin : found.start()])
            begin = at = found.end()
            continue
        end = _ENDS[found[0]].match(text, found.end())
        if end is None:
            return statements, text[begin:], found[0]
        at = end.end()
    return statements, text[begin:], ""


def is_blank(text: str) -> bool:
    """Whether a text is white space and comments alone."""
    at = 0
    while at < len(text):
        if text[at].isspace():
            at += 1
            continue
        mark = text[at : at + 2]
        if mark not in ("//", "/*"):
            return False
        end = _ENDS[mark].match(text, at + 2)
        if end is None:
            return mark == "//"
        at = end.end()
    return True
