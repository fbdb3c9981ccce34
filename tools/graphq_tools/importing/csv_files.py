"""Reads plain CSV files: one for each table of nodes, with a key in a column, and one for each type of relationships."""

from __future__ import annotations

import io
import shutil
import sys
from collections.abc import Sequence
from dataclasses import dataclass
from pathlib import Path

from ..model import MOST_FIELDS
from ..names import is_plain
from ..outcome import BadRow, Refusal, Status
from .blocks import BadRecord, Block, Blocks, Form
from .columns import Column
from .guesses import Guess
from .intake import Intake
from .tables import NodeRows

_NODE = "it is LABEL=FILE or LABEL=FILE:KEY, and LABEL alone for nodes that relationships name"
_FAMILIES = {"int": "int", "bool": "bool", "decimal": "decimal", "date": "moment", "datetime": "moment"}
_REL = "it is TYPE=FILE:FROM.COLUMN>TO.COLUMN, where FROM and TO are labels of --node"


@dataclass(frozen=True)
class NodeWord:
    """What a `--node` says: the labels, the file, which is empty for nodes that relationships name, and the key's column."""

    labels: tuple[str, ...]
    file: str
    key: str | None


@dataclass(frozen=True)
class RelWord:
    """What a `--rel` says: the type, the file, and for each end the nodes and the column, where they are said."""

    type: str
    file: str
    ends: tuple[tuple[str, str | None], tuple[str, str | None]]


def _file_and_rest(text: str) -> tuple[str, str | None]:
    """A file and what stands after it and a colon: the longest name of a file that is there, else all up to a colon."""
    parts = text.split(":")
    for count in range(len(parts), 0, -1):
        file = ":".join(parts[:count])
        if file == "-" or Path(file).is_file():
            return file, ":".join(parts[count:]) if count < len(parts) else None
    return parts[0], ":".join(parts[1:]) if len(parts) > 1 else None


def node_word(word: str, intake: Intake) -> NodeWord:
    """Reads the word of a `--node`."""
    names, sign, text = word.partition("=")
    labels = tuple(intake.labels.plain(name) for name in names.split(":") if name)
    if not labels or len(set(labels)) < len(labels):
        raise Refusal(f"--node {word}: {_NODE}", Status.BAD_WORDS)
    file, key = _file_and_rest(text) if sign else ("", None)
    return NodeWord(labels, file, key or None)


def rel_word(word: str, nodes: Sequence[NodeWord], intake: Intake) -> RelWord:
    """Reads the word of a `--rel`. Without ends both are nodes of the only label, or of that of nodes without one."""
    name, sign, text = word.partition("=")
    if not sign or not name or not text:
        raise Refusal(f"--rel {word}: {_REL}", Status.BAD_WORDS)
    file, ends = _file_and_rest(text)
    words = {":".join(node.labels) for node in nodes}
    if ends is None:
        if len(words) > 1:
            raise Refusal(f"--rel {word}: between which nodes? {_REL}", Status.BAD_WORDS)
        only = next(iter(words), intake.label)
        return RelWord(intake.types.plain(name), file, ((only, None), (only, None)))
    left, arrow, right = ends.partition(">")
    if not arrow or not left or not right:
        raise Refusal(f"--rel {word}: {_REL}", Status.BAD_WORDS)
    return RelWord(intake.types.plain(name), file, (_end(left), _end(right)))


def _end(text: str) -> tuple[str, str | None]:
    label, _, column = text.partition(".")
    return label, column or None


class CsvFiles:
    """The files of a call, each read from where it stands; standard input is kept, since it may be read more than once."""

    def __init__(self, form: Form, intake: Intake) -> None:
        self._form = form
        self._intake = intake
        self._input: Path | None = None

    def blocks(self, file: str) -> Blocks:
        """A file to be read, with its header."""
        blocks = self.without_header(file)
        blocks.read_header()
        for name in blocks.header:
            if name and blocks.header.count(name) > 1:
                raise BadRow(blocks.name, 1, f"there are two columns {name}")
        return blocks

    def without_header(self, file: str) -> Blocks:
        """A file to be read."""
        path = self._kept_input() if file == "-" else Path(file)
        return Blocks(path, self._form, "standard input" if file == "-" else file)

    def _kept_input(self) -> Path:
        if self._input is None:
            self._input = self._intake.files.spool()
            with open(self._input, "wb") as stream:
                if isinstance(sys.stdin, io.TextIOWrapper):
                    shutil.copyfileobj(sys.stdin.buffer, stream, 1 << 20)
        return self._input

    def close(self) -> None:
        """Lets standard input go."""
        if self._input is not None:
            self._input.unlink(missing_ok=True)


def _place(blocks: Blocks, column: str | None, default: int, table: str) -> int:
    """Where a column stands in a file."""
    if column is None:
        if default < len(blocks.header):
            return default
        raise BadRow(blocks.name, 1, "it has one column, and an edge has two ends", table)
    if column not in blocks.header:
        raise BadRow(blocks.name, 1, f"there is no column {column}: {', '.join(blocks.header)}", table)
    return blocks.header.index(column)


def columns_of(blocks: Blocks, places: Sequence[int], intake: Intake) -> list[Column]:
    """The columns of a file at these places that are taken, by its header.

    Their kinds are guessed while the rows are taken, or before that where what becomes of a value depends on its kind.
    """
    names = [name or f"column_{place + 1}" for place, name in enumerate(blocks.header)]
    chosen = intake.choices
    guesses = _guesses(blocks) if chosen.decimals is not None or chosen.dates_as_integers else None
    taken = []
    for place in places:
        if guesses is not None:
            kind = guesses[place].kind
            one = intake.property(names[place], _FAMILIES.get(kind, "string"), kind)
        elif intake.properties.plain(names[place]) in chosen.scaled:
            one = intake.property(names[place], "decimal", "decimal")
        else:
            one = intake.property(names[place], "string", "text")
            if one is not None and one.name not in chosen.as_text:
                taken.append(Column(place, one.name, None))
                continue
        if one is not None:
            taken.append(Column(place, one.name, one.treatment))
    return taken


def _guesses(blocks: Blocks) -> list[Guess]:
    """What all columns of a file are, by reading it once more."""
    guesses = [Guess(dates=True) for _ in blocks.header]
    for block in blocks.read():
        for guess, values in zip(guesses, block.columns, strict=True):
            guess.meet(values)
    return guesses


def _most(blocks: Blocks, columns: int, table: str) -> None:
    if columns > MOST_FIELDS:
        why = f"it has {columns} properties, and a table has {MOST_FIELDS} at most: leave some out by --drop"
        raise BadRow(blocks.name, 1, why, table)


def read_nodes(word: NodeWord, files: CsvFiles, intake: Intake) -> None:
    """Takes in the nodes of a file; several files of the same labels have the same columns."""
    name = ":".join(word.labels)
    table = intake.tables.nodes.get(name)
    if not word.file:
        if table is not None:
            raise Refusal(f"--node {name}: it is there twice", Status.BAD_WORDS)
        table = intake.tables.node(word.labels)
        table.made, table.key_name = True, intake.properties.plain(word.key or "id")
        return
    blocks = files.blocks(word.file)
    key = _place(blocks, word.key, 0, name)
    if table is None:
        table = intake.tables.node(word.labels)
        table.columns = columns_of(blocks, [place for place in range(len(blocks.header)) if place != key], intake)
        table.key = columns_of(blocks, [key], intake)[0]
        _most(blocks, len(table.columns) + 1, name)
    _same_columns(table, blocks, key, intake)
    table.sources.append(word.file)
    for block in blocks.read():
        blocks.bad.extend(table.add(block))
        stop_early(blocks, name, intake)
    if table.broken:
        blocks.bad.extend(_bad_keys(table, files))
    complain(blocks, name, intake)


def _bad_keys(table: NodeRows, files: CsvFiles) -> list[BadRecord]:
    """The records of the last file of a table that have no key, or one of an earlier row, by reading once more."""
    assert table.key is not None
    seen: set[str] = set()
    bad: list[BadRecord] = []
    for file in table.sources:
        bad.clear()
        for block in files.blocks(file).read():
            for row, key in enumerate(block.column(table.key.place)):
                if not key:
                    bad.append(BadRecord(block.number(row), "the key is empty"))
                elif key in seen:
                    bad.append(BadRecord(block.number(row), f"the key '{key}' is there already"))
                seen.add(key)
    return bad


def _same_columns(table: NodeRows, blocks: Blocks, key: int, intake: Intake) -> None:
    """Holds that a further file of a table has the columns of the first one at their places."""
    assert table.key is not None
    for column in [table.key, *table.columns]:
        here = blocks.header[column.place] if column.place < len(blocks.header) else ""
        if key != table.key.place or (here and intake.properties.plain(here) != column.name):
            raise BadRow(blocks.name, 1, f"its columns are not those of the first file of {table.word}", table.word)


def read_rels(word: RelWord, files: CsvFiles, of_nodes: set[str], intake: Intake) -> None:
    """Takes in the relationships of a file, one for each row; of a file of nodes, where both ends are there."""
    blocks = files.blocks(word.file)
    ends = (
        _place(blocks, word.ends[0][1], 0, word.type),
        _place(blocks, word.ends[1][1], 1, word.type),
    )
    source, target = (_nodes(label, word, intake) for label, _ in word.ends)
    table = intake.tables.rel(word.type, source, target)
    is_of_nodes = word.file in of_nodes
    places = [] if is_of_nodes else [place for place in range(len(blocks.header)) if place not in ends]
    if table.file.rows and (places or table.columns):
        raise BadRow(blocks.name, 1, f"{word.type} has a file already: join the two files", word.type)
    table.columns = columns_of(blocks, places, intake)
    _most(blocks, len(table.columns), word.type)
    without = 0
    for block in blocks.read():
        if is_of_nodes:
            block, count = _joined(block, ends)
            without += count
        blocks.bad.extend(table.add(block, ends))
        stop_early(blocks, word.type, intake)
    complain(blocks, word.type, intake)
    if without:
        rows = "a row" if without == 1 else f"{without:,} rows"
        intake.told.append(f"{word.type}: {rows} of {blocks.name} without an end, and so without a relationship")


def _nodes(label: str, word: RelWord, intake: Intake) -> NodeRows:
    """The nodes at an end. Where no `--node` is said at all, those that relationships name."""
    table = intake.tables.nodes.get(label)
    if table is not None:
        return table
    known = [name for name, one in intake.tables.nodes.items() if not one.made]
    if known or not all(map(is_plain, label.split(":"))):
        names = ", ".join(intake.tables.nodes) or "none"
        raise Refusal(
            f"--rel {word.type}={word.file}: no --node has the label {label} (there are: {names}); "
            f"--node {label} makes nodes of the ends",
            Status.BAD_WORDS,
        )
    table = intake.tables.node(tuple(label.split(":")))
    table.made = True
    return table


def _joined(block: Block, ends: tuple[int, int]) -> tuple[Block, int]:
    """The rows of a block that have both ends, and how many have not."""
    kept = [row for row, pair in enumerate(zip(*(block.column(end) for end in ends), strict=True)) if all(pair)]
    if len(kept) == block.rows:
        return block, 0
    columns: list[Sequence[str]] = [[column[row] for row in kept] for column in block.columns]
    numbers = [block.number(row) for row in kept]
    return block.with_columns(columns, numbers), block.rows - len(kept)


def stop_early(blocks: Blocks, table: str, intake: Intake) -> None:
    """Refuses the graph where so much of a file cannot be taken that more is not said."""
    if len(blocks.bad) >= intake.complaints.most:
        complain(blocks, table, intake)


def complain(blocks: Blocks, table: str, intake: Intake) -> None:
    """Refuses the graph where something in the file cannot be taken, with the lines in the order of the file."""
    if blocks.bad:
        bad = sorted(blocks.bad, key=lambda one: one.number)
        lines = blocks.lines_of({one.number for one in bad})
        for one in bad:
            intake.complaints.add(BadRow(blocks.name, lines.get(one.number, 1), one.why, table))
        intake.complaints.say()
    if blocks.comments and blocks.form.header:
        count = "a line" if blocks.comments == 1 else f"{blocks.comments:,} lines"
        intake.told.append(f"{blocks.name}: {count} among the rows taken for comments; --comments '' takes them for rows")


def read_csv(nodes: Sequence[str], rels: Sequence[str], form: Form, intake: Intake) -> None:
    """Takes in the graph that the words of `--node` and `--rel` say."""
    node_words = [node_word(word, intake) for word in nodes]
    rel_words = [rel_word(word, node_words, intake) for word in rels]
    if not node_words and not rel_words:
        raise Refusal("csv: there is neither a --node nor a --rel", Status.BAD_WORDS)
    files = CsvFiles(form, intake)
    try:
        for node in node_words:
            read_nodes(node, files, intake)
        for rel in rel_words:
            read_rels(rel, files, {node.file for node in node_words}, intake)
    finally:
        files.close()
