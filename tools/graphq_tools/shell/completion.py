"""What the shell completes: words of the language, the names of the graph, parameters, commands and files."""

from __future__ import annotations

import re
from collections.abc import Iterable, Sequence
from pathlib import Path

from ..hints.notes import tables_of
from ..hints.outline import outline_of
from ..schema import Nodes, Rels, Schema
from .formats import FORMATS

WORDS = (
    "MATCH OPTIONAL WHERE RETURN DISTINCT ORDER BY ASC DESC SKIP LIMIT AS AND OR XOR NOT IN IS NULL TRUE FALSE STARTS "
    "ENDS WITH CONTAINS"
).split()
FUNCTIONS = ("coalesce(", "exists((", "type(")
META = (":schema", ":plan ", ":profile ", ":param ", ":params")
COMMANDS = tuple(
    f".{name}" for name in ("help", "mode ", "output ", "pager ", "params", "quit", "read ", "schema", "timing ")
)
_CHOICES = {".mode": tuple(FORMATS), ".timing": ("on", "off"), ".pager": ("on", "off")}

_WORD = re.compile(r"[\w.:]*\Z")
_LABEL = re.compile(r"\(\s*\w*\s*(?::\s*\w+\s*)*:\s*(\w*)\Z")
_TYPE = re.compile(r"\[\s*\w*\s*:\s*(?:\w+\s*\|\s*:?\s*)*(\w*)\Z")
_READ = re.compile(r"(\w+)\.(\w*)\Z")
_NODE_MAP = re.compile(r"\(\s*\w*\s*((?::\s*\w+\s*)*)\{(?:[^{}()]*,)?\s*(\w*)\Z")
_REL_MAP = re.compile(r"\[\s*\w*\s*:([\w\s|:]*)\{(?:[^{}\[\]]*,)?\s*(\w*)\Z")
_MAP = re.compile(r"\{(?:[^{}]*,)?\s*(\w*)\Z")
_PARAMETER = re.compile(r"\$(\w*)\Z")
_SET = re.compile(r":param\s+(\w*)\Z")


def completions(before: str, schema: Schema, parameters: Iterable[str] = ()) -> list[tuple[str, int]]:
    """What may stand at the end of a text, each with how many characters at the text's end it takes the place of.

    After a colon in a node pattern come labels, in a relationship pattern types; after a dot the properties of the
    variable's labels or types, in a map those of its pattern; after a `$` parameters; and elsewhere words of the
    language, at the front of a line commands too.
    """
    line = before.rsplit("\n", 1)[-1]
    if line.startswith("."):
        return _of_command(line)
    if line.startswith(":") and " " not in line:
        return [(one, len(line)) for one in META if one.startswith(line)]
    if match := _SET.search(line) or _PARAMETER.search(before):
        return _fitting(parameters, match[1])
    if match := _LABEL.search(before):
        return _fitting(schema.labels(), match[1])
    if match := _TYPE.search(before):
        return _fitting(schema.types(), match[1])
    if (found := _properties(before, schema)) is not None:
        return found
    match = _WORD.search(before)
    typed = match[0] if match else ""
    if not typed:
        return []
    return [(one.lower() if typed.islower() else one, size) for one, size in _fitting([*WORDS, *FUNCTIONS], typed)]


def _of_command(line: str) -> list[tuple[str, int]]:
    """The commands that begin so, or what may stand after one."""
    command, blank, typed = line.partition(" ")
    if not blank:
        return [(one, len(line)) for one in COMMANDS if one.startswith(line)]
    if command in (".read", ".output"):
        return [(file, len(typed)) for file in _files(typed)]
    return _fitting(_CHOICES.get(command, ()), typed)


def _files(typed: str) -> list[str]:
    """The files whose names begin so; a folder ends with a slash."""
    folder, slash, begin = typed.rpartition("/")
    try:
        found = sorted(Path(folder or slash or ".").iterdir())
    except OSError:
        return []
    names = [f"{one.name}/" if one.is_dir() else one.name for one in found if one.name.startswith(begin)]
    return [f"{folder}{slash}{name}" for name in names if begin or not name.startswith(".")]


def _properties(before: str, schema: Schema) -> list[tuple[str, int]] | None:
    """The properties that may stand at the end of a text, or None where none may."""
    if match := _READ.search(before):
        outline = outline_of(before)
        known = match[1] in outline.variables()
        tables = tables_of(match[1], outline, schema) if known else []
        own = [one.name for table in tables for one in table.fields]
        return _fitting(dict.fromkeys(own) if own else schema.properties(), match[2])
    if match := _NODE_MAP.search(before):
        labels = [label.strip() for label in match[1].split(":") if label.strip()]
        return _fitting(_names(schema.nodes_with(labels)) or schema.properties(), match[2])
    if match := _REL_MAP.search(before):
        types = [word for word in re.split(r"[\s|:]+", match[1]) if word]
        return _fitting(_names(schema.rels_of(types)) or schema.properties(), match[2])
    match = _MAP.search(before)
    return _fitting(schema.properties(), match[1]) if match else None


def _names(tables: Sequence[Nodes] | Sequence[Rels]) -> list[str]:
    return list(dict.fromkeys(one.name for table in tables for one in table.fields))


def _fitting(known: Iterable[str], typed: str) -> list[tuple[str, int]]:
    return [(one, len(typed)) for one in known if one.lower().startswith(typed.lower())]
