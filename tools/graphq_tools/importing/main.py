"""The command line of graphq-import."""

from __future__ import annotations

import argparse
import contextlib
import gc
from collections.abc import Sequence

from ..outcome import Refusal, Status, typed
from ..output import new_folder
from ..words import words_of
from . import csv_files, edges, kuzu, neo4j, networkx_files
from .blocks import Form, one_separator
from .intake import Intake, intake
from .kinds import Choices, parse_scale
from .labels import MOST

_EXAMPLES = """\
examples:
  graphq-import csv --node Person=people.csv:id --node City=cities.csv --rel KNOWS=knows.csv:Person.src>Person.dst --out g
  zcat edges.csv.gz | graphq-import csv --rel LINK=- --both --out g
  graphq-import neo4j persons.csv knows.csv --out g
  graphq-import neo4j --nodes Person=header.csv,p1.csv,p2.csv --relationships KNOWS=knows.csv --out g
  graphq-import kuzu schema.cypher --out g --scale price=2
  graphq-import edges soc-Epinions1.txt.gz --out g --label User --type TRUSTS
  graphq-import networkx karate.graphml --out g
then:
  graphq-shell --manifest g/g.manifest

exit status: 0 done, 2 wrong arguments, 3 the graph is refused, 4 a file cannot be read, 5 the folder cannot be
written, 6 no memory, 69 a package is missing. docs/tools/graphq-import.md has more."""


def _common() -> argparse.ArgumentParser:
    """The options of every form."""
    common = argparse.ArgumentParser(add_help=False)
    common.add_argument("--out", required=True, metavar="FOLDER", help="a new folder for the manifest and its files")
    common.add_argument("--label", default="Node", metavar="NAME", help="the label of nodes without one (Node)")
    common.add_argument("--type", default="LINK", metavar="NAME", help="the type of relationships without one (LINK)")
    common.add_argument(
        "--decimals", type=int, choices=range(19), metavar="DIGITS", help="decimals as integers of so many digits"
    )
    common.add_argument(
        "--scale", action="append", default=[], metavar="NAME=DIGITS", help="the same for one property; more than once"
    )
    common.add_argument(
        "--dates",
        choices=("text", "integer"),
        default="text",
        help="dates and times as their texts, or as days and microseconds since 1970",
    )
    common.add_argument("--both", action="store_true", help="writes each relationship in both directions")
    common.add_argument(
        "--strict", action="store_true", help="a table's multiplicity is the strictest that its rows keep (many_many)"
    )
    common.add_argument("--drop", action="append", default=[], metavar="NAME", help="leaves a property out")
    common.add_argument("--text", action="append", default=[], metavar="NAME", help="takes the text of a property")
    common.add_argument(
        "--rename", action="append", default=[], metavar="OLD=NEW", help="calls a label, a type or a property NEW"
    )
    common.add_argument("--quiet", action="store_true", help="says nothing where nothing is wrong")
    return common


def _add_labels(words: argparse.ArgumentParser) -> None:
    words.add_argument(
        "--labels",
        metavar="first|most|NAME,..",
        help="which labels of a node make its table: its first, the one that most nodes have, or those named; the others "
        "are boolean properties (all)",
    )


def parser() -> argparse.ArgumentParser:
    """The parser of the command line."""
    top = words_of("graphq-import", "Makes a graph that graphq loads out of a graph in another form.", _EXAMPLES)
    forms = top.add_subparsers(dest="form", required=True, metavar="FORM")
    common = _common()

    def add(form: str, about: str) -> argparse.ArgumentParser:
        """A form, with the examples that are about it."""
        lines = [line for line in _EXAMPLES.splitlines() if line.startswith(f"  graphq-import {form} ")]
        style = argparse.RawDescriptionHelpFormatter
        epilog = "\n".join(["examples:", *lines])
        return forms.add_parser(form, parents=[common], help=about, epilog=epilog, formatter_class=style)

    csv_words = add("csv", "plain CSV files, of any header")
    csv_words.add_argument(
        "--node", action="append", default=[], metavar="LABEL=FILE[:KEY]", help="nodes, with the column that is their key"
    )
    csv_words.add_argument(
        "--rel",
        action="append",
        default=[],
        metavar="TYPE=FILE[:FROM.COLUMN>TO.COLUMN]",
        help="relationships between nodes of two labels, whose keys are in these columns",
    )
    csv_words.add_argument("--delimiter", help="what separates fields: one character, TAB or BLANKS (found)")
    csv_words.add_argument("--quote", default='"', help='what quotes fields (")')
    csv_words.add_argument("--comments", default="#%", metavar="CHARACTERS", help="what begins a comment line (#%%)")
    neo4j_words = add("neo4j", "CSV files with the headers of neo4j-admin")
    neo4j_words.add_argument("files", nargs="*", metavar="FILE[,FILE..]", help="files of nodes or relationships; one header")
    neo4j_words.add_argument("--nodes", action="append", default=[], metavar="[LABEL[:LABEL]=]FILE[,FILE..]")
    neo4j_words.add_argument("--relationships", action="append", default=[], metavar="[TYPE=]FILE[,FILE..]")
    neo4j_words.add_argument("--delimiter", default=",", help="what separates fields: one character, or TAB (,)")
    neo4j_words.add_argument("--array-delimiter", default=";", help="what separates labels (;)")
    neo4j_words.add_argument("--quote", default='"', help='what quotes fields (")')
    neo4j_words.add_argument(
        "--id-type",
        choices=("actual", "string", "integer"),
        default="actual",
        help="ids as texts or integers; actual: a table's ids are integers where all of them read as such (actual)",
    )
    _add_labels(neo4j_words)
    kuzu_words = add("kuzu", "a script of Kùzu with its CSV files")
    kuzu_words.add_argument("script", metavar="SCRIPT")
    edges_words = add("edges", "an edge list as SNAP has them")
    edges_words.add_argument("file", metavar="FILE")
    edges_words.add_argument("--columns", default="", metavar="NAME:KIND,..", help="what stands after the two ids of a line")
    graph_words = add("networkx", "GraphML, GEXF, GML or node-link JSON")
    graph_words.add_argument(
        "file", metavar="FILE", help="its name ends with .graphml, .gexf, .gml or .json, and perhaps .gz"
    )
    _add_labels(graph_words)
    graph_words.add_argument("--labels-from", default="labels", metavar="NAME", help="the attribute with the labels (labels)")
    graph_words.add_argument("--type-from", default="type", metavar="NAME", help="the attribute with the type (type)")
    return top


def _one_character(option: str, word: str) -> str:
    named = {"TAB": "\t", "\\t": "\t"}.get(word, word)
    if len(named) != 1 or named in "\r\n":
        raise Refusal(f"{option} {word}: it is one character, or TAB", Status.BAD_WORDS)
    return named


def _read_neo4j(words: argparse.Namespace, into: Intake) -> None:
    form = neo4j.Form(
        _one_character("--delimiter", words.delimiter),
        _one_character("--array-delimiter", words.array_delimiter),
        _one_character("--quote", words.quote),
        words.id_type,
    )
    nodes, rels = neo4j.sources(words.nodes), neo4j.sources(words.relationships)
    for source in neo4j.sources(words.files):
        (rels if neo4j.is_relationships(source.files[0], form) else nodes).append(source)
    if not nodes:
        raise Refusal("neo4j: a file of nodes is missing", Status.BAD_WORDS)
    if into.kept.word == MOST:
        for source in nodes:
            neo4j.count_labels(source, form, into)
    for source in nodes:
        neo4j.read_nodes(source, form, into)
    for source in rels:
        neo4j.read_relationships(source, form, into)


def _read_csv(words: argparse.Namespace, into: Intake) -> None:
    delimiter = None if words.delimiter is None else one_separator("--delimiter", words.delimiter)
    quote = _one_character("--quote", words.quote)
    if not words.comments.isascii() or not quote.isascii():
        raise Refusal("--quote and --comments are characters of ASCII", Status.BAD_WORDS)
    csv_files.read_csv(words.node, words.rel, Form(delimiter, quote, words.comments), into)


def _read(words: argparse.Namespace, into: Intake) -> None:
    match words.form:
        case "csv":
            _read_csv(words, into)
        case "neo4j":
            _read_neo4j(words, into)
        case "kuzu":
            kuzu.read_kuzu(words.script, into)
        case "edges":
            edges.read_edges(words.file, words.columns, into)
        case "networkx":
            networkx_files.read_networkx(words.file, words.labels_from, words.type_from, into)


def main(arguments: Sequence[str]) -> int:
    """Imports a graph by the arguments of the command line."""
    words = parser().parse_args(arguments)
    # Nothing that is made below points round in a circle, and there is much of it to look through in vain.
    gc.disable()
    scale = parse_scale(words.scale)
    choices = Choices(
        words.decimals, scale, words.dates == "integer", set(words.drop), set(words.text), words.strict, words.both
    )
    with new_folder(words.out) as folder:
        into = intake(folder, choices, words)
        with contextlib.closing(into):
            _read(words, into)
            summaries = into.finish(words.out)
    if not words.quiet:
        for line in [*summaries, *into.notes()]:
            print(line)
        name = words.out.rstrip("/")
        print(f"ask it: {typed('graphq-shell')} --manifest {name}/{into.files.name}.manifest")
    return int(Status.DONE)
