"""Reads edge lists as SNAP's collection has them: two ids a line, apart by tabs or blanks, with comments between."""

from __future__ import annotations

import re

from ..outcome import BadRow, Refusal, Status
from .blocks import BLANKS, Block, Form
from .columns import Column
from .csv_files import CsvFiles, complain, stop_early
from .intake import Intake

_ZEROS = re.compile(rb"\n0[0-9]"), re.compile(rb",0[0-9]")
_KINDS = {"int": "int", "bool": "bool", "string": "string", "decimal": "decimal", "date": "moment"}


def columns(word: str, intake: Intake) -> tuple[list[Column], int]:
    """Reads `NAME:KIND,NAME:KIND`: the columns after the two ids, and how many there are with those left out."""
    read, words = [], [one for one in word.split(",") if one]
    for place, one in enumerate(words):
        name, _, kind = one.partition(":")
        if not name or kind not in _KINDS:
            raise Refusal(f"--columns {one}: it is NAME:KIND with a KIND of {', '.join(_KINDS)}", Status.BAD_WORDS)
        taken = intake.property(name, _KINDS[kind], kind)
        if taken is not None:
            read.append(Column(place + 2, taken.name, taken.treatment))
    return read, len(words)


def read_edges(file: str, extra: str, intake: Intake) -> None:
    """Takes in a file of edges. The nodes are those that an edge names."""
    read, count = columns(extra, intake)
    nodes = intake.tables.node((intake.label,))
    nodes.made = True
    rels = intake.tables.rel(intake.type, nodes, nodes)
    rels.columns = read
    files = CsvFiles(Form(BLANKS, header=False), intake)
    try:
        blocks = files.without_header(file)
        for block in blocks.read(2 + count):
            blocks.bad.extend(rels.add(_plain_ids(block), (0, 1)))
            stop_early(blocks, intake.type, intake)
        complain(blocks, intake.type, intake)
    finally:
        files.close()
    if not rels.file.rows:
        raise BadRow(file, 1, "there is no edge in it")


def _plain_ids(block: Block) -> Block:
    """A block whose ids have no zeros in front: `007` is the integer 7, as it is in every file of the collection."""
    raw = block.raw
    if block.naturals() is not None:
        return block
    if raw is not None and raw[:1] != b"0" and not any(zero.search(raw) for zero in _ZEROS):
        return block
    ends = [list(map(_key, column)) for column in block.columns[:2]]
    same = ends[0] == list(block.columns[0]) and ends[1] == list(block.columns[1])
    return block if same else block.with_columns([*ends, *block.columns[2:]])


def _key(text: str) -> str:
    if text[0] == "0" and text.isdecimal() and text.isascii():
        return text.lstrip("0") or "0"
    return text
