"""What a statement is about, as far as it can be told without its grammar: patterns, names, properties and conditions.

A statement that graphq refuses has an outline too, so nothing here refuses anything.
"""

from __future__ import annotations

import re
from dataclasses import dataclass, field

from ..statements import in_bytes

RESERVED = frozenset(
    "MATCH OPTIONAL WHERE RETURN DISTINCT ORDER BY ASC ASCENDING DESC DESCENDING SKIP LIMIT AS AND OR XOR NOT IN IS "
    "NULL TRUE FALSE STARTS ENDS WITH CONTAINS EXISTS".split()
)

# The words that end what stands before them, outside parentheses.
_CLAUSES = frozenset("MATCH OPTIONAL WHERE RETURN ORDER SKIP LIMIT".split())

_LETTER = r"(?:[A-Za-z_]|(?!\s)[^\x00-\x7f])"
_TOKEN = re.compile(
    rf"""(?P<space>\s+|//[^\n\r]*|/\*.*?\*/)
    |(?P<string>'(?:[^'\\]|\\.)*'|"(?:[^"\\]|\\.)*")
    |(?P<quoted>`(?:[^`]|``)+`)
    |(?P<word>{_LETTER}(?:[0-9]|{_LETTER})*)
    |(?P<number>[0-9]+)
    |(?P<sign><>|<=|>=|\.\.|.)""",
    re.VERBOSE | re.DOTALL,
)


@dataclass(frozen=True)
class Token:
    """A token: what it is, its text, and where it begins, counted in characters."""

    kind: str
    text: str
    begin: int

    @property
    def end(self) -> int:
        """Where it ends."""
        return self.begin + len(self.text)

    @property
    def name(self) -> str:
        """The name that a word is, without its backquotes."""
        return self.text[1:-1].replace("``", "`") if self.kind == "quoted" else self.text

    @property
    def upper(self) -> str:
        """A word in capitals, as reserved words are told; nothing of what is no word."""
        return self.text.upper() if self.kind == "word" else ""

    def is_name(self) -> bool:
        """Whether it may be a variable."""
        return self.kind == "quoted" or (self.kind == "word" and self.upper not in RESERVED)

    def is_word(self) -> bool:
        """Whether it may be a label, a type or the name of a property."""
        return self.kind in ("quoted", "word")


@dataclass
class Pattern:
    """A node or a relationship of a pattern: its name, its labels or types, its map, and where it stands."""

    name: Token | None = None
    words: list[Token] = field(default_factory=list)
    # The entries of its map, each a key and the first token of its value.
    entries: list[tuple[Token, Token]] = field(default_factory=list)
    begin: int = 0
    end: int = 0


@dataclass
class Link:
    """A relationship of a pattern between the nodes at its left and its right, by its arrow: `-->`, `<--` or `--`."""

    pattern: Pattern
    left: Pattern
    arrow: str
    trail: bool = False
    right: Pattern = field(default_factory=Pattern)


@dataclass
class Clause:
    """A MATCH, an OPTIONAL MATCH or the path of an EXISTS."""

    kind: str
    nodes: list[Pattern] = field(default_factory=list)
    links: list[Link] = field(default_factory=list)

    def patterns(self) -> list[Pattern]:
        """Its nodes and relationships, as they stand in the text."""
        return sorted([*self.nodes, *(link.pattern for link in self.links)], key=lambda pattern: pattern.begin)


@dataclass
class Part:
    """A conjunct of a WHERE, a column or a sort item: its tokens, and whether its clause is optional."""

    kind: str
    tokens: list[Token] = field(default_factory=list)
    optional: bool = False


@dataclass
class Outline:
    """The outline of a statement."""

    text: str
    tokens: list[Token]
    clauses: list[Clause] = field(default_factory=list)
    parts: list[Part] = field(default_factory=list)
    # Names by themselves in expressions, and properties of variables there.
    names: list[Token] = field(default_factory=list)
    reads: list[tuple[Token, Token]] = field(default_factory=list)
    columns: list[Token] = field(default_factory=list)
    limited: bool = False

    def text_of(self, part: Part) -> str:
        """A part as it is written, on one line."""
        return " ".join(self.text[part.tokens[0].begin : part.tokens[-1].end].split()) if part.tokens else ""

    def variables(self) -> dict[str, list[Pattern]]:
        """The patterns of each name, those of nodes and those of relationships."""
        found: dict[str, list[Pattern]] = {}
        for clause in self.clauses:
            for pattern in clause.patterns():
                if pattern.name is not None:
                    found.setdefault(pattern.name.name, []).append(pattern)
        return found

    def is_relationship(self, name: str) -> bool:
        """Whether a name is that of a relationship."""
        links = [link for clause in self.clauses for link in clause.links]
        return any(link.pattern.name is not None and link.pattern.name.name == name for link in links)


def names_of(clause: Clause) -> set[str]:
    """The names that stand in the patterns of a clause."""
    return {pattern.name.name for pattern in clause.patterns() if pattern.name is not None}


def tokens_of(text: str) -> list[Token]:
    """The tokens of a text; a string or a name that does not end is signs and words."""
    return [
        Token(match.lastgroup or "sign", match[0], match.start())
        for match in _TOKEN.finditer(text)
        if match.lastgroup != "space"
    ]


def place_of_byte(text: str, byte: int) -> int:
    """Which character of a text a byte of it belongs to, counted from 0."""
    return len(in_bytes(text)[:byte].decode("utf-8", "surrogateescape"))


def outline_of(text: str) -> Outline:
    """The outline of a statement."""
    outline = Outline(text, tokens_of(text))
    _Reader(outline).read()
    return outline


class _Reader:
    """Goes through the tokens once, from clause to clause."""

    def __init__(self, outline: Outline) -> None:
        self._outline = outline
        self._tokens = outline.tokens
        self._at = 0

    def _peek(self, ahead: int = 0) -> Token:
        at = self._at + ahead
        return self._tokens[at] if at < len(self._tokens) else Token("end", "", 0)

    def _take(self) -> Token:
        token = self._peek()
        self._at += 1
        return token

    def _takes(self, sign: str) -> bool:
        if self._peek().text == sign:
            self._at += 1
            return True
        return False

    def read(self) -> None:
        optional = False
        while self._at < len(self._tokens):
            word = self._take().upper
            if word == "OPTIONAL":
                optional = True
                continue
            if word == "MATCH":
                clause = Clause("OPTIONAL MATCH" if optional else "MATCH")
                self._outline.clauses.append(clause)
                self._paths(clause)
            elif word == "WHERE":
                self._parts("WHERE", "AND")
            elif word == "RETURN":
                self._parts("RETURN", ",")
            elif word == "BY":
                self._parts("ORDER BY", ",")
            elif word == "LIMIT":
                self._outline.limited = True
            optional = False

    def _paths(self, clause: Clause) -> None:
        while self._at < len(self._tokens) and self._peek().upper not in _CLAUSES:
            if self._peek().text == "(":
                self._path(clause)
            else:
                self._at += 1

    def _path(self, clause: Clause) -> None:
        """A node, and then relationships and nodes as far as they go."""
        left = self._node()
        clause.nodes.append(left)
        while self._peek().text in ("-", "<"):
            link = self._link(left)
            if link is None or self._peek().text != "(":
                return
            link.right = left = self._node()
            clause.links.append(link)
            clause.nodes.append(left)

    def _node(self) -> Pattern:
        pattern = Pattern(begin=self._take().begin)
        self._detail(pattern, ")")
        pattern.end = self._tokens[self._at - 1].end
        return pattern

    def _link(self, left: Pattern) -> Link | None:
        begin = self._peek().begin
        back = self._takes("<")
        if not self._takes("-"):
            return None
        link = Link(Pattern(begin=begin), left, "<--" if back else "--")
        if self._takes("["):
            link.trail = self._detail(link.pattern, "]")
        if not self._takes("-"):
            return None
        if self._takes(">"):
            link.arrow = "-->"
        link.pattern.end = self._tokens[self._at - 1].end
        return link

    def _detail(self, pattern: Pattern, end: str) -> bool:
        """What stands inside the brackets of a pattern, up to their end; gives whether it is a trail."""
        trail = False
        if self._peek().is_name():
            pattern.name = self._take()
        while self._at < len(self._tokens) and not self._takes(end):
            token = self._take()
            if token.text in (":", "|") and self._peek().is_word():
                pattern.words.append(self._take())
            elif token.text == "{":
                self._map(pattern)
            elif token.text == "*":
                trail = True
            elif token.upper in _CLAUSES:
                # The bracket is open, and the next clause begins.
                self._at -= 1
                return trail
        return trail

    def _map(self, pattern: Pattern) -> None:
        while self._at < len(self._tokens) and not self._takes("}"):
            if self._peek().is_word() and self._peek(1).text == ":":
                pattern.entries.append((self._peek(), self._peek(2)))
                self._at += 1
            self._at += 1

    def _parts(self, kind: str, between: str) -> None:
        """Expressions, apart by `between` outside parentheses, up to the next clause."""
        optional = (
            kind == "WHERE" and bool(self._outline.clauses) and self._outline.clauses[-1].kind == "OPTIONAL MATCH"
        )
        part, depth = Part(kind, optional=optional), 0
        before = ""
        while self._at < len(self._tokens):
            token = self._peek()
            if token.upper in _CLAUSES and before not in (".", ":"):
                break
            if token.upper == "EXISTS" and self._peek(1).text == "(" and self._peek(2).text == "(":
                before = self._exists(part)
                continue
            self._at += 1
            depth += (token.text in ("(", "[", "{")) - (token.text in (")", "]", "}"))
            if depth <= 0 and (token.upper or token.text) == between and before not in (".", ":"):
                self._outline.parts.append(part)
                part, before = Part(kind, optional=optional), ""
                continue
            part.tokens.append(token)
            self._expression(token, before)
            before = token.text
        self._outline.parts.append(part)

    def _exists(self, part: Part) -> str:
        """The path of an EXISTS; the closing parenthesis is left to the expression."""
        part.tokens += [self._take(), self._take()]
        clause = Clause("EXISTS")
        self._outline.clauses.append(clause)
        self._path(clause)
        self._takes(")")
        return ")"

    def _expression(self, token: Token, before: str) -> None:
        if before in (".", ":", "$") or not token.is_word():
            return
        if before.upper() == "AS":
            self._outline.columns.append(token)
        elif token.is_name() and self._peek().text == "." and self._peek(1).is_word():
            self._outline.reads.append((token, self._peek(1)))
        elif token.is_name() and self._peek().text != "(":
            self._outline.names.append(token)
