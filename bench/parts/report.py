"""The tables of a run, in Markdown, and the same as JSON."""
import json
import math
from collections.abc import Mapping, Sequence

from .results import Answer, Graph

PROGRAMS = ("C++", "sqlite3", "graphq")
FROM, TO = "<!-- from here on by {} --page -->", "<!-- up to here -->"
ROUGH = 1.2  # a number is rough whose second least measure is more than so many times the least


def number(value: float | None, digits: int = 3) -> str:
    """A number with so many digits that count; a dash where there is none."""
    if value is None:
        return "-"
    if value == 0:
        return "0"
    places = max(0, digits - 1 - math.floor(math.log10(abs(value))))
    return f"{value:,.{places}f}"


def table(header: Sequence[str], rows: Sequence[Sequence[str]]) -> str:
    """A table of Markdown."""
    lines = [header, ["---"] * len(header), *rows]
    return "\n".join("| " + " | ".join(line) + " |" for line in lines)


def ratio(seconds: Mapping[str, float], program: str) -> float | None:
    """A program's time as a multiple of the C++'s, where both are there."""
    if program not in seconds or not seconds.get("C++"):
        return None
    return seconds[program] / seconds["C++"]


def loads(graph: Graph) -> str:
    """The table of a graph's loads."""
    seconds = seconds_of(graph)
    rows = [[name, number(load["seconds"]), number(ratio(seconds, name)), number(load["peak_mb"]),
             number(load["resident_mb"])]
            for name, load in graph["loads"].items()]
    return table(["load", "seconds", "ratio to C++", "peak MB", "resident MB"], rows)


def query_row(answer: Answer) -> list[str]:
    """The row of a query in the table of a graph."""
    seconds, peaks = answer["seconds"], answer["peak_mb"]
    milliseconds = [number(1000 * seconds[one]) if one in seconds else "-" for one in PROGRAMS]
    ratios = [number(ratio(seconds, one), 2) for one in PROGRAMS[1:]]
    rough = [one for one in PROGRAMS if one in answer["second"] and answer["second"][one] > ROUGH * seconds[one]]
    notes = ["rough: " + ", ".join(rough)] * bool(rough) + answer["notes"]
    if answer["calls"]:
        notes.append(", ".join(f"{count} calls of {name}" for name, count in answer["calls"].items()))
    rows = f"{answer['rows']:,}" if answer["rows"] is not None else "-"
    return [f"`{answer['query']}`", answer["subject"], rows, *milliseconds, *ratios, *(number(peaks.get(one)) for one in PROGRAMS),
            "; ".join(notes)]


HEADER = ["query", "what", "rows", "C++ ms", "sqlite3 ms", "graphq ms", "sqlite3 / C++", "graphq / C++", "C++ MB", "sqlite3 MB",
          "graphq MB", "notes"]


def graph_text(graph: Graph) -> str:
    """The tables of one graph."""
    before, after = graph["machine_load"]
    title = f"### {graph['kind']}:{graph['count']}"
    about = f"{graph['bytes'] / 1e6:,.1f} MB of CSV; other work on the machine: load {before:.1f} to {after:.1f}."
    parts = [title, about, loads(graph)]
    if graph["queries"]:
        parts.append(table(HEADER, [query_row(answer) for answer in graph["queries"]]))
    return "\n\n".join(parts)


def shown(seconds: Mapping[str, float]) -> list[str]:
    """The C++'s milliseconds, and the others' times as multiples of it."""
    floor = number(1000 * seconds["C++"], 2) if "C++" in seconds else "-"
    return [floor, *(number(ratio(seconds, one), 2) for one in PROGRAMS[1:])]


def page_text(graphs: Sequence[Graph]) -> str:
    """What a page gets: of each graph with queries the C++'s milliseconds, and the others' times as multiples of it; and all loads."""
    parts = []
    for graph in [one for one in graphs if one["queries"]]:
        rows = [[answer["subject"], f"{answer['rows']:,}" if answer["rows"] is not None else "-", *shown(answer["seconds"])]
                for answer in graph["queries"]]
        header = [f"`{graph['kind']}:{graph['count']}`", "rows", "C++, ms", "sqlite3 / C++", "graphq / C++"]
        parts.append(table(header, rows))
    rows = [[f"`{graph['kind']}:{graph['count']}`", number(graph["bytes"] / 1e6, 2), *(load_cell(graph, one) for one in PROGRAMS)]
            for graph in graphs]
    return "\n\n".join([*parts, table(["the load of", "MB of CSV", *PROGRAMS], rows)])


def load_cell(graph: Graph, name: str) -> str:
    """The seconds of a load, what that is of the C++'s, the most memory and what is held after it."""
    load = graph["loads"].get(name)
    if not load:
        return "-"
    times = f" ({number(ratio(seconds_of(graph), name), 2)})" if name != "C++" and "C++" in graph["loads"] else ""
    return f"{number(load['seconds'], 2)} s{times}, {load['peak_mb']:,.0f} MB, {load['resident_mb']:,.0f} held"


def put_into(path: str, text: str, command: str = "bench/run") -> None:
    """Puts text into a page, in place of what stands there between the lines FROM, with the command, and TO."""
    begin = FROM.format(command)
    with open(path, encoding="utf8") as file:
        before, _, rest = file.read().partition(begin)
    _, end, after = rest.partition(TO)
    if not end:
        raise SystemExit(f"{command}: the page {path} has no place for tables: the lines {begin} and {TO}")
    with open(path, "w", encoding="utf8") as file:
        file.write(f"{before}{begin}\n\n{text}\n\n{TO}{after}")


def growth_text(graphs: Sequence[Graph]) -> str:
    """How fast each query's time grows from the least to the greatest graph of one kind, as a power of their sizes."""
    rows = []
    for kind in dict.fromkeys(graph["kind"] for graph in graphs):
        sizes = sorted((graph for graph in graphs if graph["kind"] == kind), key=lambda graph: graph["count"])
        if len(sizes) < 2:
            continue
        least, most = sizes[0], sizes[-1]
        before = {answer["query"]: answer["seconds"] for answer in least["queries"]} | {"load": seconds_of(least)}
        after = {answer["query"]: answer["seconds"] for answer in most["queries"]} | {"load": seconds_of(most)}
        for name in [one for one in before if one in after]:
            powers = [power(before[name].get(one), after[name].get(one), most["count"] / least["count"]) for one in PROGRAMS]
            rows.append([f"`{name}`", f"{kind}:{least['count']} to {most['count']}", *(number(one, 2) for one in powers)])
    return "### Growth: the power of the size\n\n" + table(["query", "graph", *PROGRAMS], rows) if rows else ""


def seconds_of(graph: Graph) -> dict[str, float]:
    """The seconds of a graph's loads."""
    return {name: load["seconds"] for name, load in graph["loads"].items()}


def power(before: float | None, after: float | None, grown: float) -> float | None:
    """The power of the growth by which a time grew."""
    return math.log(after / before) / math.log(grown) if before and after and grown > 1 else None


def write(path: str, result: object) -> None:
    """Writes results.json."""
    with open(path, "w", encoding="utf8") as file:
        json.dump(result, file, indent=1)
        file.write("\n")
