"""Reads the statements of a Kùzu script that make tables and fill them."""

from __future__ import annotations

import re
from dataclasses import dataclass, field
from pathlib import Path

from ..csvfile import open_text
from ..outcome import BadRow

_TOKEN = re.compile(
    r"""(?P<blank>\s+|//[^\n\r]*|--[^\n\r]*|/\*.*?\*/)
    |(?P<string>'(?:[^'\\]|\\.)*'|"(?:[^"\\]|\\.)*")
    |(?P<quoted>`(?:[^`]|``)+`)
    |(?P<word>\w+)
    |(?P<sign>.)""",
    re.VERBOSE | re.DOTALL,
)
_ESCAPES = {"n": "\n", "t": "\t", "r": "\r"}
# The options of COPY: what a character is, what a number, and what else; and those that change nothing here.
CHARACTERS = ("DELIM", "DELIMITER", "SEP", "QUOTE", "ESCAPE")
OPTIONS = (*CHARACTERS, "SKIP", "HEADER", "HEADERS", "FROM", "TO", "PARALLEL", "AUTO_DETECT", "SAMPLE_SIZE")
MULTIPLICITIES = ("MANY_MANY", "MANY_ONE", "ONE_MANY", "ONE_ONE")


@dataclass(frozen=True)
class Token:
    """A word, a quoted name, a string (its text without the quotes) or a sign, with its line."""

    form: str
    text: str
    line: int


@dataclass
class NodeTable:
    """A table of nodes: its columns as pairs of a name and a type, and its key."""

    name: str
    columns: list[tuple[str, str]]
    key: str
    line: int


@dataclass
class RelTable:
    """A table of relationships between pairs of tables of nodes."""

    name: str
    pairs: list[tuple[str, str]]
    columns: list[tuple[str, str]]
    multiplicity: str
    line: int


@dataclass
class Copy:
    """Files that fill a table, with the options by their names in capitals."""

    table: str
    columns: list[str]
    files: list[str]
    line: int
    options: dict[str, str] = field(default_factory=dict)


Statement = NodeTable | RelTable | Copy


def _tokens(text: str) -> list[Token]:
    tokens, line = [], 1
    for match in _TOKEN.finditer(text):
        form, found = str(match.lastgroup), match[0]
        if form == "string":
            inner = re.sub(r"\\(.)", lambda one: _ESCAPES.get(one[1], one[1]), found[1:-1], flags=re.DOTALL)
            tokens.append(Token(form, inner, line))
        elif form == "quoted":
            tokens.append(Token("quoted", found[1:-1].replace("``", "`"), line))
        elif form != "blank":
            tokens.append(Token(form, found, line))
        line += found.count("\n")
    return tokens


class _Reader:
    """Goes through the tokens of a script."""

    def __init__(self, file: Path, tokens: list[Token]) -> None:
        self._file = file
        self._tokens = tokens
        self._at = 0

    def more(self) -> bool:
        return self._at < len(self._tokens)

    @property
    def line(self) -> int:
        if not self._tokens:
            return 1
        return self._tokens[min(self._at, len(self._tokens) - 1)].line

    def bad(self, why: str) -> BadRow:
        return BadRow(self._file, self.line, why)

    def next(self) -> Token:
        if not self.more():
            raise self.bad("the script ends inside a statement")
        self._at += 1
        return self._tokens[self._at - 1]

    def is_next(self, *texts: str) -> bool:
        """Whether these words or signs come next, in any case."""
        coming = self._tokens[self._at : self._at + len(texts)]
        return len(coming) == len(texts) and all(
            token.form in ("word", "sign") and token.text.upper() == text
            for token, text in zip(coming, texts, strict=True)
        )

    def take(self, *texts: str) -> bool:
        """Goes past these words or signs where they come next."""
        there = self.is_next(*texts)
        if there:
            self._at += len(texts)
        return there

    def want(self, *texts: str) -> None:
        if not self.take(*texts):
            found = self._tokens[self._at].text if self.more() else "the end"
            raise self.bad(f"{' '.join(texts)} is wanted, and not {found}")

    def name(self) -> str:
        token = self.next()
        if token.form not in ("word", "quoted"):
            self._at -= 1
            raise self.bad(f"a name is wanted, and not {token.text}")
        return token.text

    def type(self) -> str:
        """A type with its parameters and brackets, as in `DECIMAL(10, 2)` and `INT64[]`."""
        text = self.name().upper()
        depth = 0
        while self.more() and (depth or self.is_next("(") or self.is_next("[")):
            token = self.next()
            text += token.text
            depth += (token.text in "([") - (token.text in ")]") if token.form == "sign" else 0
        return text


def twice(names: list[str]) -> str | None:
    """The first name that stands twice among names."""
    return next((name for place, name in enumerate(names) if name in names[:place]), None)


def _skip_default(reader: _Reader) -> None:
    """Goes past `DEFAULT` and its value: a value that a file leaves out is null there all the same."""
    if reader.take("DEFAULT"):
        depth = 0
        while reader.more() and (
            depth or not (reader.is_next(",") or reader.is_next(")") or reader.is_next("PRIMARY"))
        ):
            token = reader.next()
            depth += (token.text in "([{") - (token.text in ")]}") if token.form == "sign" else 0


def _node_table(reader: _Reader, line: int) -> NodeTable:
    name = reader.name()
    reader.want("(")
    columns: list[tuple[str, str]] = []
    key = ""
    while True:
        if reader.take("PRIMARY", "KEY"):
            reader.want("(")
            key = reader.name()
            reader.want(")")
        else:
            columns.append((reader.name(), reader.type()))
            _skip_default(reader)
            if reader.take("PRIMARY", "KEY"):
                key = columns[-1][0]
        if not reader.take(","):
            break
    reader.want(")")
    if again := twice([column for column, _ in columns]):
        raise reader.bad(f"the table {name} has the column {again} twice")
    if key not in [column for column, _ in columns]:
        raise reader.bad(f"the table {name} has no PRIMARY KEY among its columns")
    return NodeTable(name, columns, key, line)


def _rel_table(reader: _Reader, line: int) -> RelTable:
    table = RelTable(reader.name(), [], [], "MANY_MANY", line)
    reader.want("(")
    while True:
        if reader.is_next("FROM"):
            reader.want("FROM")
            source = reader.name()
            reader.want("TO")
            table.pairs.append((source, reader.name()))
        elif any(reader.is_next(word) for word in MULTIPLICITIES):
            table.multiplicity = reader.next().text.upper()
        else:
            table.columns.append((reader.name(), reader.type()))
            _skip_default(reader)
        if not reader.take(","):
            break
    reader.want(")")
    if again := twice([column for column, _ in table.columns]):
        raise reader.bad(f"the table {table.name} has the column {again} twice")
    if len(set(table.pairs)) < len(table.pairs):
        raise reader.bad(f"the table {table.name} has a pair of FROM and TO twice")
    if not table.pairs:
        raise reader.bad(f"the table {table.name} has no FROM and TO")
    return table


def _files(reader: _Reader) -> list[str]:
    if not reader.take("["):
        token = reader.next()
        if token.form != "string":
            raise reader.bad("the name of a CSV file in quotes is wanted after FROM")
        return [token.text]
    files = [reader.next().text]
    while reader.take(","):
        files.append(reader.next().text)
    reader.want("]")
    return files


def _option(reader: _Reader) -> tuple[str, str]:
    """An option of COPY, and its value."""
    option = reader.name().upper()
    reader.take("=")
    value = reader.next().text
    if option not in OPTIONS:
        raise reader.bad(f"COPY has the option {option}, and is taken with {', '.join(OPTIONS)} alone")
    if option in CHARACTERS and (len(value) != 1 or value in "\r\n"):
        raise reader.bad(f"{option} is one character, and not '{value}'")
    if option == "SKIP" and not (value.isascii() and value.isdecimal() and len(value) < 10):
        raise reader.bad(f"SKIP is a number of records, and not '{value}'")
    if option in ("HEADER", "HEADERS") and value.lower() not in ("true", "false"):
        raise reader.bad(f"{option} is true or false, and not '{value}'")
    return option, value


def _copy(reader: _Reader, line: int) -> Copy:
    copy = Copy(reader.name(), [], [], line)
    if reader.take("("):
        copy.columns.append(reader.name())
        while reader.take(","):
            copy.columns.append(reader.name())
        reader.want(")")
    reader.want("FROM")
    copy.files = _files(reader)
    if reader.take("("):
        while not reader.take(")"):
            option, value = _option(reader)
            copy.options[option] = value
            reader.take(",")
    return copy


def read_script(file: Path) -> list[Statement]:
    """The statements of a script. One that neither makes a table nor copies into one is refused with its line."""
    with open_text(file) as stream:
        reader = _Reader(file, _tokens(stream.read()))
    statements: list[Statement] = []
    while reader.more():
        if reader.take(";"):
            continue
        line = reader.line
        if reader.take("CREATE", "NODE", "TABLE"):
            reader.take("IF", "NOT", "EXISTS")
            statements.append(_node_table(reader, line))
        elif reader.take("CREATE", "REL", "TABLE"):
            reader.take("GROUP")
            reader.take("IF", "NOT", "EXISTS")
            statements.append(_rel_table(reader, line))
        elif reader.take("COPY"):
            statements.append(_copy(reader, line))
        else:
            raise reader.bad("CREATE NODE TABLE, CREATE REL TABLE or COPY is wanted; no other statement is taken")
        if reader.more():
            reader.want(";")
    return statements
