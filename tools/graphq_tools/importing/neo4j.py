"""Reads CSV files with the headers of `neo4j-admin database import`."""

from __future__ import annotations

import re
from collections.abc import Iterator
from dataclasses import dataclass, field

from ..csvfile import records
from ..outcome import BadRow, Refusal, Status, at_line
from .builder import Nodes, Rels
from .intake import Intake, checked
from .kinds import as_integer
from .labels import flags
from .spool import Property

_FIELD = re.compile(
    r"(?P<name>[^:]*)(?::(?P<kind>[A-Za-z_]+(?:\[\])?)(?:\((?P<space>[^)]*)\))?(?:\{(?P<more>.*)\})?)?\Z"
)

_FAMILIES = {
    "int": "int",
    "long": "int",
    "short": "int",
    "byte": "int",
    "boolean": "bool",
    "string": "string",
    "char": "string",
    "float": "decimal",
    "double": "decimal",
    "date": "moment",
    "datetime": "moment",
    "localdatetime": "moment",
    "time": "text",
    "localtime": "text",
    "duration": "text",
}


@dataclass
class Form:
    """How the files are written."""

    delimiter: str = ","
    array_delimiter: str = ";"
    quote: str = '"'
    id_type: str = "actual"


@dataclass
class Source:
    """Files of one header, which is the first record of the first: what neo4j-admin takes after one `--nodes`."""

    files: list[str]
    names: list[str] = field(default_factory=list)


@dataclass
class Header:
    """A header: where its special fields stand, and its properties."""

    width: int
    ids: dict[str, tuple[int, str]]
    label: int | None
    type: int | None
    key_name: str | None
    key_kind: str | None
    places: list[int]
    properties: list[Property]


def is_relationships(file: str, form: Form) -> bool:
    """Whether the header at the front of a file is one of relationships."""
    for _, record in records(file, form.delimiter, form.quote):
        return any(":START_ID" in one for one in record)
    raise BadRow(file, 1, "there is no header")


def _family(kind: str) -> str:
    return "other" if kind.endswith("[]") else _FAMILIES.get(kind.lower(), "other")


def read_header(record: list[str], intake: Intake) -> Header:
    """Reads a header."""
    header = Header(len(record), {}, None, None, None, None, [], [])
    for place, text in enumerate(record):
        match = _FIELD.match(text.strip())
        if match is None:
            raise ValueError(f"'{text}' is no field of a header")
        name, kind, space = match["name"], match["kind"] or "string", match["space"] or ""
        if kind in ("ID", "START_ID", "END_ID"):
            if kind in header.ids:
                raise ValueError(f"there are two fields {kind}; graphq's keys are single values")
            header.ids[kind] = (place, space)
            if kind == "ID" and name:
                header.key_name = intake.properties.plain(name)
            if kind == "ID" and (found := re.search(r"id-type:\s*(\w+)", match["more"] or "")):
                header.key_kind = "string" if found[1].lower() == "string" else "int"
        elif kind == "LABEL":
            header.label = place
        elif kind == "TYPE":
            header.type = place
        elif kind != "IGNORE":
            one = intake.property(name, _family(kind), kind)
            if one is not None and (one.name in {known.name for known in header.properties}):
                raise ValueError(f"there are two fields {one.name}")
            if one is not None:
                header.places.append(place)
                header.properties.append(one)
    return header


def _rows(
    source: Source, form: Form, intake: Intake, wanted: tuple[str, ...]
) -> Iterator[tuple[str, int, Header, list[str]]]:
    """The records of a source after its header, which has the wanted special fields, each with its file and line."""
    header: Header | None = None
    for file in source.files:
        for line, record in checked(records(file, form.delimiter, form.quote), intake):
            if header is None:
                try:
                    header = read_header(record, intake)
                    for kind in wanted:
                        if kind not in header.ids:
                            raise ValueError(f"the header has no field :{kind}")
                except (ValueError, Refusal) as error:
                    raise at_line(file, line, error) from error
            elif len(record) != header.width:
                why = f"it has {len(record)} fields, and the header has {header.width}"
                intake.complaints.add(BadRow(file, line, why, ":".join(source.names)))
            else:
                yield file, line, header, record
        intake.complaints.say()
    if header is None:
        raise BadRow(source.files[0], 1, "there is no header")


def cells(header: Header, record: list[str]) -> list[str]:
    """The values of a record, in the order of the header's properties."""
    return [
        one.treatment.convert(record[place]) if record[place] else ""
        for place, one in zip(header.places, header.properties, strict=True)
    ]


def _labels(header: Header, record: list[str], source: Source, form: Form, intake: Intake) -> list[str]:
    own = record[header.label].split(form.array_delimiter) if header.label is not None else []
    labels = [intake.labels.plain(label.strip()) for label in [*source.names, *own] if label.strip()]
    return labels or [intake.label]


def read_nodes(source: Source, form: Form, intake: Intake) -> None:
    """Takes in the nodes of a source."""
    tables: dict[str, tuple[Nodes, list[int], list[str]]] = {}
    part = intake.part()
    for file, line, header, record in _rows(source, form, intake, ("ID",)):
        written = record[header.label] if header.label is not None else ""
        try:
            place, space = header.ids["ID"]
            if written not in tables:
                kept, others = intake.kept.split(_labels(header, record, source, form, intake), intake.label)
                table = intake.builder.nodes(kept)
                table.key_name = table.key_name or header.key_name
                table.key_kind = table.key_kind or header.key_kind or _key_kind(form)
                more = flags(others, [one.name for one in header.properties])
                places = intake.builder.place(table, [*header.properties, *more], part)
                tables[written] = table, places, ["true"] * len(more)
            table, places, true = tables[written]
            key = as_integer(record[place]) if table.key_kind == "int" and record[place] else record[place]
            intake.builder.add_node(table, space, key, places, [*cells(header, record), *true])
        except (ValueError, Refusal) as error:
            name = ":".join([*source.names, *written.split(form.array_delimiter)]).strip(":")
            intake.refuse(file, line, error, name or intake.label)


def count_labels(source: Source, form: Form, intake: Intake) -> None:
    """Counts the labels of the nodes of a source; what is wrong with it is said where it is taken in."""
    header: Header | None = None
    for file in source.files:
        for _, record in records(file, form.delimiter, form.quote):
            if header is None:
                header = read_header(record, intake)
            elif len(record) == header.width:
                intake.kept.count(_labels(header, record, source, form, intake))


def _key_kind(form: Form) -> str | None:
    return {"string": "string", "integer": "int"}.get(form.id_type)


def read_relationships(source: Source, form: Form, intake: Intake) -> None:
    """Takes in the relationships of a source. Their nodes have to be there."""
    tables: dict[tuple[str, int, int], tuple[Rels, list[int]]] = {}
    part = intake.part()
    for file, line, header, record in _rows(source, form, intake, ("START_ID", "END_ID")):
        try:
            (start, start_space), (end, end_space) = header.ids["START_ID"], header.ids["END_ID"]
            from_key, to_key = _key(record[start], form), _key(record[end], form)
            from_table = intake.builder.ends(start_space, from_key)
            to_table = intake.builder.ends(end_space, to_key)
            written = _type(header, record, source, intake)
            at = (written, id(from_table), id(to_table))
            if at not in tables:
                table = intake.builder.rels(intake.types.plain(written), from_table, to_table)
                tables[at] = table, intake.builder.place(table, header.properties, part)
            table, places = tables[at]
            table.add(from_key, to_key, places, cells(header, record))
        except (ValueError, Refusal) as error:
            intake.refuse(file, line, error, _type(header, record, source, intake))


def _type(header: Header, record: list[str], source: Source, intake: Intake) -> str:
    """The type of a relationship: that of its record, else that of the command line."""
    written = record[header.type] if header.type is not None else ""
    return written or (source.names or [intake.type])[0]


def _key(text: str, form: Form) -> str:
    return as_integer(text) if form.id_type == "integer" and text else text


def sources(words: list[str]) -> list[Source]:
    """Reads `[NAME[:NAME]=]FILE,FILE` words."""
    read = []
    for word in words:
        names, sign, listed = word.rpartition("=")
        files = [file for file in listed.split(",") if file]
        if not files:
            raise Refusal(f"neo4j: '{word}' names no file", Status.BAD_WORDS)
        read.append(Source(files, names.split(":") if sign else []))
    return read
