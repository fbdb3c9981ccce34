"""The tokens of a statement, each with its place in bytes, or the byte at which none begins."""

from __future__ import annotations

import re
from dataclasses import dataclass
from itertools import accumulate

from .errors import Refused

BLANK = "\t-\r \x85\xa0\u1680\u2000-\u200a\u2028\u2029\u202f\u205f\u3000"
LETTER = f"(?:[A-Za-z_]|[^\\x00-\\x7f{BLANK}])"
ESCAPE = r"\\(?:[\\'\"bfnrt]|u[0-9A-Fa-f]{4}|U[0-9A-Fa-f]{8})"
TOKEN = re.compile(
    rf"""
      (?P<blank>   [{BLANK}] | //[^\n\r]* | /\*.*?\*/ )
    | (?P<word>    {LETTER}(?:{LETTER}|[0-9])* )
    | (?P<quoted>  `(?:``|[^`])++` )
    | (?P<string>  '(?:{ESCAPE}|[^'\\])*' | "(?:{ESCAPE}|[^"\\])*" )
    | (?P<integer> (?:0x[0-9A-Fa-f]+|0|[1-9][0-9]*) (?!{LETTER}|[0-9]|\.[0-9]) )
    | (?P<sign>    <>|<=|>=|\.\.|/(?!\*)|[()\[\]{{}},:.|\-+*%<>=$] )
    """,
    re.VERBOSE | re.DOTALL,
)
CONTROLS = {"b": "\b", "f": "\f", "n": "\n", "r": "\r", "t": "\t"}
GREATEST = 2**63


@dataclass(frozen=True)
class Token:
    """A token: its kind, its source text, what it stands for, and where its bytes are."""

    kind: str
    text: str
    value: str | int
    start: int
    end: int


def lex(source: bytes) -> list[Token]:
    """The tokens of a statement, and one of the kind `end` behind them."""
    try:
        text = source.decode()
    except UnicodeDecodeError as error:
        raise Refused(f"Lex at byte {error.start}") from None
    byte_at = [0, *accumulate(len(character.encode()) for character in text)]
    tokens = []
    at = 0
    while at < len(text):
        found = TOKEN.match(text, at)
        value = value_of(found) if found else None
        if found is None or value is None:
            raise Refused(f"Lex at byte {byte_at[at]}")
        if found.lastgroup != "blank":
            ends = byte_at[at], byte_at[found.end()]
            tokens.append(Token(str(found.lastgroup), found[0], value, *ends))
        at = found.end()
    tokens.append(Token("end", "", "", len(source), len(source)))
    return tokens


def value_of(found: re.Match[str]) -> str | int | None:
    """What a token stands for, or nothing where there is no such token."""
    text = found[0]
    match found.lastgroup:
        case "quoted":
            return text[1:-1].replace("``", "`")
        case "integer":
            number = int(text, 0)
            return number if number <= GREATEST else None
        case "string":
            try:
                return re.sub(r"\\(u.{4}|U.{8}|.)", unescaped, text[1:-1])
            except ValueError:
                return None
    return text


def unescaped(found: re.Match[str]) -> str:
    """The character of an escape; a ValueError where there is no character of that code."""
    escape = found[1]
    if len(escape) == 1:
        return CONTROLS.get(escape, escape)
    code = int(escape[1:], 16)
    if code > 0x10FFFF or 0xD800 <= code <= 0xDFFF:
        raise ValueError(escape)
    return chr(code)
