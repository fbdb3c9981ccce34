"""The files of a graph that is imported: where rows are spooled, and how the tables and the manifest are written at the end."""

from __future__ import annotations

from collections.abc import Callable, Sequence
from dataclasses import dataclass
from pathlib import Path
from typing import Generic, TypeVar

from ..model import MOST_BYTES, MOST_MANIFEST_BYTES, Graph, NodeTable, RelTable
from ..outcome import Refusal, writing
from ..output import FileNames

Table = TypeVar("Table", NodeTable, RelTable)


@dataclass(frozen=True)
class Grown(Generic[Table]):
    """A table whose rows are all there: its labels or its type, how many rows, and what writes its file."""

    name: str
    rows: int
    finish: Callable[[Path], Table]


class GraphFiles:
    """The folder of a graph on its way in."""

    def __init__(self, folder: Path) -> None:
        self.notes: list[str] = []
        self.name = "graph"
        self._folder = folder
        self._spools = 0

    def spool(self) -> Path:
        """A new place for rows."""
        self._spools += 1
        return self._folder / f".rows-{self._spools}"

    def finish(self, place: str, nodes: Sequence[Grown[NodeTable]], rels: Sequence[Grown[RelTable]]) -> list[str]:
        """Writes all files and the manifest, whose names begin with `place`; gives the summaries of the tables."""
        graph, names, total = Graph(), FileNames(), 0
        types = [one.name for one in rels]
        for node in nodes:
            graph.nodes.append(node.finish(self._folder / names.take(node.name)))
        for number, rel in enumerate(rels):
            stem = rel.name if types.count(rel.name) == 1 else f"{rel.name}_{types[:number].count(rel.name) + 1}"
            graph.rels.append(rel.finish(self._folder / names.take(stem)))
        prefix = place.rstrip("/") or "/"
        for one in graph.tables():
            total += (self._folder / one.file).stat().st_size
            one.file = f"{prefix}/{one.file}"
        if total > MOST_BYTES:
            raise Refusal(f"the files would have {total:,} bytes together, and graphq takes {MOST_BYTES:,}")
        self.name = Path(prefix).resolve().name or self.name
        self._manifest(graph)
        rows = [*(node.rows for node in nodes), *(rel.rows for rel in rels)]
        return [table.summary(count) for table, count in zip(graph.tables(), rows, strict=True)]

    def _manifest(self, graph: Graph) -> None:
        text = "".join(f"{one.line()}\n" for one in graph.tables())
        if len(text.encode()) > MOST_MANIFEST_BYTES:
            raise Refusal("the manifest would be too long")
        path = self._folder / f"{self.name}.manifest"
        with writing(path):
            path.write_text(text, encoding="utf-8", newline="\n")
