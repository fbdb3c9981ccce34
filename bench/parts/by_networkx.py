"""Answers the questions about trails by networkx: a program that is asked as the hand-written C++ is.

    by_networkx.py NODES RELATIONSHIPS along|against

reads the keys of the nodes and the relationships out of two CSV files, and trails go along the relationships or against them.
networkx has shortest paths, which tell what can be reached, and how far an end is. It has no trails: these are loops over its edges.
"""
import csv
import sys
from collections.abc import Callable, Iterable, Iterator, Mapping, Sequence
from typing import Any

import networkx

Row = tuple[int, ...]


def read(nodes: str, relationships: str, way: str) -> Any:
    """The graph of the two files."""
    graph = networkx.MultiDiGraph()
    with open(nodes, encoding="utf8") as file:
        lines = csv.reader(file)
        next(lines)
        graph.add_nodes_from(int(line[0]) for line in lines)
    with open(relationships, encoding="utf8") as file:
        lines = csv.reader(file)
        next(lines)
        graph.add_edges_from((int(line[0]), int(line[1])) for line in lines)
    return graph.reverse() if way == "against" else graph


def reached(graph: Any, start: int, most: int) -> Iterator[int]:
    """The nodes to which so many relationships lead at most: the start too, where they lead back to it."""
    lengths = networkx.single_source_shortest_path_length(graph, start, cutoff=most)
    yield from (node for node in lengths if node != start)
    if any(lengths.get(node, most) < most for node in graph.predecessors(start)):
        yield start


def trails(graph: Any, start: int, most: int, far: Mapping[int, int] | None = None) -> Iterator[int]:
    """The ends of all trails of so many relationships at most; with `far` of those that go to no node from which an end is too far."""
    def onward(node: int, used: tuple[tuple[int, int, int], ...]) -> Iterator[int]:
        length = len(used) + 1
        for edge in graph.edges(node, keys=True):
            if edge in used or far is not None and length + far.get(edge[1], most) > most:
                continue
            yield edge[1]
            if length < most:
                yield from onward(edge[1], (*used, edge))

    return onward(start, ())


def between(graph: Any, start: int, end: int, most: int) -> Iterator[Row]:
    far = networkx.single_source_shortest_path_length(graph.reverse(copy=False), end, cutoff=most - 1)
    return ((start, end) for node in trails(graph, start, most, far) if node == end)


def starts(graph: Any, last: int) -> Iterator[Row]:
    return ((start, node) for start in graph if start <= last for node in reached(graph, start, 3))


def single(nodes: Iterable[int]) -> Iterator[Row]:
    return ((node,) for node in nodes)


JOBS: dict[str, Callable[..., Iterable[Row]]] = {
    "key": lambda graph, node: [(node,)] if node in graph else [],
    "walks": lambda graph, start: single(trails(graph, start, 3)),
    "to_key": lambda graph, start, end: between(graph, start, end, 3),
    "between_3": lambda graph, start, end: between(graph, start, end, 3),
    "between_4": lambda graph, start, end: between(graph, start, end, 4),
    "between_6": lambda graph, start, end: between(graph, start, end, 6),
    "reach_3": lambda graph, start: single(reached(graph, start, 3)),
    "reach_6": lambda graph, start: single(reached(graph, start, 6)),
    "reach_16": lambda graph, start: single(reached(graph, start, 16)),
    "starts": starts,
}


def answer(graph: Any, job: str, out: str, header: str, numbers: Sequence[str]) -> None:
    """Writes the reply to a question."""
    rows = 0
    with open(out, "w", encoding="utf8") as file:
        file.write(header.replace("\x1f", "\t") + "\n")
        for row in JOBS[job](graph, *map(int, numbers)):
            file.write("\t".join(map(str, row)) + "\n")
            rows += 1
        file.write(f"rows {rows}\n")


def main() -> None:
    """Reads the graph, and answers a job a line: its name, the file of the reply, the header and numbers, with tabs between them."""
    graph = read(*sys.argv[1:])
    print("LOADED", flush=True)
    for line in sys.stdin:
        job, out, header, *numbers = line.rstrip("\n").split("\t")
        answer(graph, job, out, header, numbers)
        print("DONE", flush=True)


if __name__ == "__main__":
    main()
