"""The command line of graphq-draw."""

from __future__ import annotations

import argparse
import shutil
import subprocess
import sys
from collections.abc import Sequence
from pathlib import Path

from ..manifest import read_manifest
from ..outcome import Refusal, Status, writing
from ..program import found_program
from ..replies import Lines, Refused, Rows, read_reply
from ..session import Ended, Session
from ..statements import in_bytes, split
from ..words import words_of
from .pictures import draw_rows, picture
from .plans import draw_plan
from .spent import profiled, read_spent
from .steps import read_plan

_EXAMPLES = """\
examples:
  graphq-draw --manifest examples/metro/metro.manifest --caption Station=name --caption TRACK=minutes --out ring.svg \\
      "MATCH (a:Station)-[t:TRACK {line: 'Ring'}]->(b) RETURN a, t, b"
  graphq-draw --manifest examples/metro/metro.manifest --out plan.svg ":plan MATCH (a)-[:TRACK]->(b) RETURN a"
  graphq-draw --manifest examples/metro/metro.manifest --out spent.svg ":profile MATCH (a)-[:TRACK]->(b) RETURN a"
  graphq-draw --manifest examples/metro/metro.manifest --dot <query.cypher | neato -Tpng >rows.png

The columns of the query that hold nodes and relationships are drawn; the ends of a relationship are drawn too. Of :plan
the steps are drawn, and of :profile what was spent on them too.

exit status: 0 done, 1 graphq refuses the query or nothing can be drawn of its reply, 2 wrong arguments, 3 the graph is
refused, 4 a file cannot be read, 5 the picture cannot be written, 69 Graphviz or graphq is missing.
docs/tools/graphq-draw.md has more."""


FORMS = (".svg", ".png", ".pdf", ".dot")


def parser() -> argparse.ArgumentParser:
    """The parser of the command line."""
    top = words_of(
        "graphq-draw", "Draws the nodes and relationships of a query's rows, or a plan, as SVG, PNG or PDF.", _EXAMPLES
    )
    top.add_argument(
        "query",
        nargs="?",
        metavar="QUERY",
        help="a query, or :plan or :profile and a query; else it is read from input",
    )
    top.add_argument("--manifest", required=True, metavar="PATH", help="the graph")
    top.add_argument(
        "--out", metavar="FILE", help="the picture, whose name ends with .svg, .png, .pdf or .dot; else SVG to output"
    )
    top.add_argument(
        "--caption",
        action="append",
        default=[],
        metavar="NAME=PROPERTY",
        help="what stands on the nodes of a label, or beside the relationships of a type; more than once",
    )
    top.add_argument("--layout", choices=("dot", "neato", "fdp", "sfdp", "circo", "twopi"), default="dot")
    top.add_argument("--seconds", type=int, default=60, metavar="N", help="so long a layout may take at most (60)")
    top.add_argument("--dot", action="store_true", help="gives the picture in Graphviz's language, and not as SVG")
    top.add_argument("--order", choices=("given", "greedy", "least"), help="as graphq has it")
    top.add_argument("--program", metavar="PATH", help="the program graphq")
    return top


def _captions(words: list[str]) -> dict[str, str]:
    captions = {}
    for word in words:
        name, sign, wanted = word.partition("=")
        if not sign or not name or not wanted:
            raise Refusal(f"--caption {word}: it is NAME=PROPERTY", Status.BAD_WORDS)
        captions[name] = wanted
    return captions


def _statement(text: str) -> str:
    statements, rest = split(text)
    whole = [one for one in [*statements, rest] if one.strip()]
    if len(whole) != 1:
        raise Refusal(f"one query is drawn, and there are {len(whole)}", Status.BAD_WORDS)
    return whole[0] + "\n"


def _ask(words: argparse.Namespace, statements: Sequence[str]) -> list[Rows | Lines]:
    """The replies to some statements, none of which may be refused."""
    order = ["--order", words.order] if words.order else []
    session = Session(found_program(words.program), ["--manifest", words.manifest, *order])
    replies: list[Rows | Lines] = []
    try:
        for statement in statements:
            reply = read_reply(session.ask(statement))
            if isinstance(reply, Refused):
                raise Refusal(reply.line, Status.REPLY_REFUSED)
            replies.append(reply)
    except Ended as ended:
        raise Refusal("\n".join(ended.lines) or str(ended), _status(ended.status)) from ended
    finally:
        session.stop()
    return replies


def _drawn(words: argparse.Namespace, statement: str, captions: dict[str, str]) -> str:
    """What is drawn of a statement, in Graphviz's language."""
    query = profiled(statement)
    if query is not None:
        spent, lines = _ask(words, [statement, f":plan {query}"])
        assert isinstance(spent, Rows) and isinstance(lines, Lines)
        plan = read_plan(lines.lines)
        return draw_plan(plan, read_spent(plan, spent.spent, len(spent.rows), query))
    (reply,) = _ask(words, [statement])
    if isinstance(reply, Rows):
        graph = read_manifest(words.manifest)
        return draw_rows(picture(reply.values(), graph, captions), graph)
    if reply.lines and reply.lines[0].startswith("alternative"):
        return draw_plan(read_plan(reply.lines))
    raise Refusal("this reply has neither rows nor a plan", Status.REPLY_REFUSED)


def _status(number: int) -> Status:
    try:
        return Status(number)
    except ValueError:
        return Status.REPLY_REFUSED


def _form(words: argparse.Namespace) -> str:
    """What the picture is to be: that of its name, or of `--dot`; without a name SVG."""
    suffix = Path(words.out).suffix.lower() if words.out else ".svg"
    if words.dot:
        return ".dot"
    if suffix not in FORMS:
        forms = ", ".join(FORMS)
        raise Refusal(f"--out {words.out}: its name ends with none of {forms}, and --dot is not there", Status.BAD_WORDS)
    return suffix


def _rendered(dot: str, layout: str, form: str, seconds: int) -> bytes:
    """The picture, by Graphviz."""
    if form == ".dot":
        return in_bytes(dot)
    program = shutil.which(layout)
    if program is None:
        raise Refusal("Graphviz is missing: tools/setup installs graphviz", Status.NOT_INSTALLED)
    try:
        done = subprocess.run(
            [program, f"-T{form[1:]}"], input=in_bytes(dot), capture_output=True, check=False, timeout=seconds
        )
    except subprocess.TimeoutExpired as error:
        raise Refusal(
            f"{layout} did not end in {seconds} seconds: --layout sfdp is quicker for many nodes, LIMIT in the query "
            "leaves some out, and --seconds gives it longer",
            Status.CANNOT_WRITE,
        ) from error
    if done.returncode:
        raise Refusal(f"{layout}: {done.stderr.decode(errors='replace').strip()}", Status.CANNOT_WRITE)
    return done.stdout


def main(arguments: Sequence[str]) -> int:
    """Draws by the arguments of the command line."""
    words = parser().parse_args(arguments)
    captions, form = _captions(words.caption), _form(words)
    statement = _statement(words.query if words.query is not None else sys.stdin.read())
    done = _rendered(_drawn(words, statement, captions), words.layout, form, words.seconds)
    if words.out:
        with writing(words.out):
            Path(words.out).write_bytes(done)
    else:
        sys.stdout.buffer.write(done)
    return int(Status.DONE)
