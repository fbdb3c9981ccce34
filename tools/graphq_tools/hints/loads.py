"""What a refusal of a load means and what to do, in one line, with the line or the field that it is about."""

from __future__ import annotations

import itertools
import re
from collections.abc import Callable
from dataclasses import dataclass
from pathlib import Path

from ..csvfile import records
from ..manifest import MULTIPLICITIES, fields_of
from ..model import (
    MOST_BYTES,
    MOST_FIELDS,
    MOST_FILE_BYTES,
    MOST_LABELS,
    MOST_MANIFEST_BYTES,
    MOST_NODES,
    MOST_RELATIONSHIPS,
    MOST_TABLES,
    Field,
    single_source,
)
from ..names import is_plain
from ..outcome import Refusal
from ..replies import unescaped
from .spelling import like

_FORMS = "a line is `node LABELS FILE` or `rel TYPE FROM TO MULTIPLICITY FILE`"
_LINE = re.compile(
    r"load: (?P<refusal>\w+)(?: line (?P<line>[0-9]+)"
    r"| (?P<name>.*?)(?: record (?P<record>[0-9]+)(?: column (?P<column>[0-9]+))?)?)\Z",
    re.DOTALL,
)
_MOST_SHOWN = 60
_PLAIN = "graphq-import csv makes a graph of plain CSV files"


@dataclass
class _Case:
    """A refusal: the manifest, its words by lines, and what the line of the refusal names."""

    manifest: str
    lines: list[list[str]]
    line: int
    name: str
    record: int
    column: int

    def words(self) -> list[str]:
        """The words of the line that is refused."""
        return self.lines[self.line - 1] if 0 < self.line <= len(self.lines) else []

    def table(self) -> list[str]:
        """The words of the line that names the file."""
        return next((words for words in self.lines if words and words[-1] == self.name), [])

    def header(self) -> list[str]:
        """The first record of the file."""
        return next((record for _, record in records(self.name)), [])

    def cells(self) -> list[str]:
        """The record that is refused."""
        _, record = next(itertools.islice(records(self.name), self.record - 1, None))
        return record


def load_hint(line: str, manifest: str) -> str | None:
    """One line on what a refusal of a load means and what to do; None where the line is none.

    `line` is graphq's, as `load: NoSuchNode knows.csv record 2 column 2`, and `manifest` the file that it loaded. Its
    files are read as far as the record that the refusal names.
    """
    match = _LINE.match(line)
    if match is None or match["refusal"] not in SAYS:
        return None
    try:
        text = Path(manifest).read_text(encoding="utf-8", errors="replace")
    except OSError:
        text = ""
    lines = [[] if one.startswith("#") else one.rstrip("\r").split() for one in text.split("\n")]
    numbers = [int(match[part] or 0) for part in ("line", "record", "column")]
    case = _Case(manifest, lines, numbers[0], unescaped(match["name"] or ""), numbers[1], numbers[2])
    try:
        return SAYS[match["refusal"]](case)
    except (OSError, Refusal, StopIteration, IndexError):
        # What the refusal was about is no longer there.
        return None


def _shown(text: str) -> str:
    cut = text if len(text) <= _MOST_SHOWN else f"{text[:_MOST_SHOWN]}.."
    return f"'{cut}'" if cut.isprintable() else ascii(cut)


def _no_file(case: _Case) -> str:
    here = Path.cwd()
    if case.name == case.manifest:
        return f"there is no manifest of this name; names of files count from the folder of the call, {here}"
    places = [Path(case.manifest).resolve().parent, *Path(case.manifest).resolve().parents]
    found = next(
        (place for place in places if not Path(case.name).is_absolute() and (place / case.name).exists()), None
    )
    said = f"the names of files in a manifest count from the folder in which graphq is started, {here}"
    return f"{said}: start it in {found}, where the file is" if found else f"{said}, and there is no such file"


def _too_long(case: _Case) -> str:
    size = Path(case.name).stat().st_size
    if case.name == case.manifest:
        return f"it has {size:,} bytes, and a manifest at most {MOST_MANIFEST_BYTES:,}"
    if size > MOST_FILE_BYTES:
        return f"it has {size:,} bytes, and a file at most {MOST_FILE_BYTES:,}: split the table, or leave columns out"
    return f"with it the files of all tables have more than {MOST_BYTES:,} bytes: leave columns or tables out"


def _bad_line(case: _Case) -> str:
    words = case.words()
    said = f"{_shown(' '.join(words))}: {_FORMS}"
    if case.line == 1 and words and words[0] not in ("node", "rel") and "," in " ".join(words):
        return f"{said}; this is a CSV file, and {_PLAIN}"
    if words[:1] == ["node"] and len(words) == 3 or words[:1] == ["rel"] and len(words) == 6:
        bad = next((one for word in words[1:-1] for one in word.split(":") if not is_plain(one)), None)
        if bad is not None:
            return f"{_shown(bad)} is no name: names are letters, digits and _, and begin with no digit"
        if words[0] == "node":
            return f"{words[1]} is not one to {MOST_LABELS} labels joined by colons"
        if words[4] not in MULTIPLICITIES:
            return f"{words[4]} is no multiplicity: one of {', '.join(MULTIPLICITIES)}{like(words[4], MULTIPLICITIES)}"
    if words[:1] in (["node"], ["rel"]) and len(words) > (3 if words[0] == "node" else 6):
        return f"{said}, and there are {len(words)} words: the name of a file has no blanks"
    return said


def _label_repeated(case: _Case) -> str:
    word = case.words()[1]
    labels = word.split(":")
    if len(set(labels)) < len(labels):
        return f"a label stands twice in {word}: write it once"
    return f"an earlier line has the nodes {word} already: put both files into one, or give one of them another label"


def _type_repeated(case: _Case) -> str:
    _, type_name, source, target = case.words()[:4]
    return f"an earlier line has {type_name} from {source} to {target} already: put both files into one"


def _no_label(case: _Case) -> str:
    known = [words[1] for words in case.lines[: case.line - 1] if words[:1] == ["node"] and len(words) == 3]
    missing = next(word for word in case.words()[2:4] if word not in known)
    later = [words[1] for words in case.lines[case.line :] if words[:1] == ["node"] and len(words) == 3]
    if missing in later:
        return f"the line of the nodes {missing} has to stand before this one"
    return f"no earlier line has the nodes {missing}{like(missing, known)}"


def _too_many_tables(case: _Case) -> str:
    what = "nodes" if case.words()[:1] == ["node"] else "relationships"
    return f"a graph has at most {MOST_TABLES} tables of {what}: put several into one, told apart by a property"


def _bad_header(case: _Case) -> str:
    header, words = case.header(), case.table()
    if not header:
        return "the file has no header: its first line is as id:int,name:string"
    shown = _shown(",".join(header))
    if words[:1] == ["rel"] and header[:2] != ["from", "to"]:
        return f"the header of relationships begins with from,to, and this one is {shown}; {_PLAIN}"
    if not any(":" in field for field in header):
        return f"the header {shown} has no kinds, as in id:int,name:string; {_PLAIN}"
    try:
        fields = fields_of(case.name, header[2:] if words[:1] == ["rel"] else header)
    except Refusal as refusal:
        return _without_place(str(refusal))
    if words[:1] == ["node"] and fields and fields[0].kind == "bool":
        return "the first column is the key, and a key is an int or a string"
    return f"the header is {shown}: fields are name:int, name:string or name:bool"


def _without_place(text: str) -> str:
    """A refusal of the tools without the file and the line in front."""
    return re.sub(r"^.* line [0-9]+: ", "", text)


def _too_many_properties(case: _Case) -> str:
    return f"the header has {len(case.header())} fields, and a table at most {MOST_FIELDS} properties: leave some out"


def _too_many_rows(case: _Case) -> str:
    nodes = case.table()[:1] == ["node"]
    what, most = ("nodes", MOST_NODES) if nodes else ("relationships", MOST_RELATIONSHIPS)
    return f"a table has at most {most:,} {what}: split it into several"


def _field_count(case: _Case) -> str:
    cells = case.cells()
    more = ": a field with a comma in it stands in double quotes" if len(cells) > len(case.header()) else ""
    return f"{_shown(','.join(cells))} has {len(cells)} fields, and the header {len(case.header())}{more}"


def _field_of(case: _Case) -> Field:
    name, _, kind = case.header()[case.column - 1].rpartition(":")
    if not name:
        return Field(kind, _key_kind(case))
    return Field(name, kind)


def _key_kind(case: _Case) -> str:
    """The kind of the key that the column from or to has."""
    word = case.table()[1 + case.column]
    file = next(words[2] for words in case.lines if words[:2] == ["node", word])
    return next(record for _, record in records(file))[0].rpartition(":")[2]


def _bad_field(case: _Case) -> str:
    field, text = _field_of(case), case.cells()[case.column - 1]
    ways = {
        "int": "an int is digits, of 64 bits, and may have a - in front; declare the column :string, or leave it empty",
        "bool": "a bool is true or false; declare the column :string, or leave it empty",
        "string": "a text is UTF-8",
    }
    return f"{_shown(text)} in the column {field.name} is no {field.kind}: {ways.get(field.kind, '')}"


def _null_key(case: _Case) -> str:
    name = case.header()[0].rpartition(":")[0]
    return f"the key {name} is empty in {_shown(','.join(case.cells()))}: each node has one"


def _no_node(case: _Case) -> str:
    text, name = case.cells()[case.column - 1], case.header()[case.column - 1]
    word = case.table()[1 + case.column]
    if not text:
        return f"the column {name} is empty: each relationship has two ends"
    return f"{_shown(text)} in the column {name} is the key of no {word}: add the node, or leave the relationship out"


def _key_repeated(case: _Case) -> str:
    field = Field(*case.header()[0].rpartition(":")[::2])
    key = case.cells()[0]
    rows = itertools.islice(records(case.name), 1, case.record - 1)
    first = next(
        (number for number, (_, row) in enumerate(rows, 2) if _value(row[0], field) == _value(key, field)), None
    )
    there = f"in record {first}" if first else "in an earlier record"
    return f"the key {_shown(key)} stands {there} already: keys of a table differ"


def _value(text: str, field: Field) -> int | str:
    return int(text) if field.kind == "int" and re.fullmatch(r"-?[0-9]+", text) else text


def _not_single(case: _Case) -> str:
    words, cells = case.table(), case.cells()
    columns = [0] if single_source(words[4]) else []
    columns += [1] if words[4].startswith("one_") else []
    rows = [row[:2] for _, row in itertools.islice(records(case.name), 1, case.record - 1)]
    for column in columns:
        if any(row[column] == cells[column] for row in rows):
            end = ("from", "to")[column]
            return (
                f"{words[4]} allows {_shown(cells[column])} one relationship in the column {end}, and it has one: "
                "write many_many in the manifest, or leave one out"
            )
    return f"{words[4]} does not allow it after those before: write many_many in the manifest"


SAYS: dict[str, Callable[[_Case], str]] = {
    "NoFile": _no_file,
    "FileTooLong": _too_long,
    "BadLine": _bad_line,
    "LabelRepeated": _label_repeated,
    "TypeRepeated": _type_repeated,
    "NoSuchLabel": _no_label,
    "TooManyTables": _too_many_tables,
    "BadHeader": _bad_header,
    "TooManyProperties": _too_many_properties,
    "TooManyRows": _too_many_rows,
    "FieldCount": _field_count,
    "BadField": _bad_field,
    "NullKey": _null_key,
    "NoSuchNode": _no_node,
    "KeyRepeated": _key_repeated,
    "NotSingle": _not_single,
}
