"""Pictures of plans in Graphviz's language, with what was spent on them where that is known."""

from __future__ import annotations

from collections.abc import Iterator, Sequence

from .pictures import quoted
from .spent import Pipeline, Spent
from .steps import Plan, Step, counted

_STEP_COLOURS = {
    "scan": "#c9e6c3",
    "extend": "#bcd8f0",
    "column": "#bcd8f0",
    "close": "#d9ccec",
    "column-close": "#d9ccec",
    "join": "#f8d7a8",
    "keep": "#f4f0a8",
    "differ": "#f2c4c4",
    "noloop": "#f2c4c4",
    "late": "#f4f0a8",
    "trail": "#c8e8e6",
    "exists": "#e8d3bd",
    "OPTIONAL": "#e8d3bd",
}
# So many alternatives stand beside one another.
ALTERNATIVES_OF_A_ROW = 6
_ENDS = {"left": "from its left end", "right": "from its right end", "both": "both ends are known"}


class _PlanWriter:
    """Writes steps, each with a name of its own."""

    def __init__(self) -> None:
        self.lines: list[str] = []
        self._count = 0

    def box(self, text: str, colour: str, indent: str) -> str:
        """Writes a box, and gives its name."""
        self._count += 1
        name = f"s{self._count}"
        self.lines.append(f'{indent}{name} [label={quoted(text)}, fillcolor="{colour}"];')
        return name

    def chain(self, steps: list[Step], parts: Iterator[Pipeline], indent: str) -> tuple[str, str]:
        """Writes steps one after another; gives the names of the first and the last. `parts` is what each joined part took."""
        first = last = ""
        for step in steps:
            name = self.box(step.text, _STEP_COLOURS.get(step.text.split(" ", 1)[0], "#eeeeee"), indent)
            if last:
                self.lines.append(f"{indent}{last} -> {name};")
            if step.part:
                _, end = self.chain(step.part, parts, indent)
                took = next(parts, None)
                label = "" if took is None else f", label={quoted(str(took))}"
                self.lines.append(f"{indent}{end} -> {name} [style=dashed{label}];")
            first, last = first or name, name
        return first, last

    def frame(self, name: str, label: str, boxes: list[Step], parts: Sequence[Pipeline] = ()) -> tuple[str, str]:
        """Writes a frame with steps; gives the names of the first and the last."""
        self.lines.append(f"  subgraph cluster_{name} {{")
        self.lines.append(f'    label={quoted(label)}; color="#999999"; style=rounded;')
        ends = self.chain(boxes, iter(parts), "    ")
        self.lines.append("  }")
        return ends


def _trail(line: str) -> str:
    """A trail's line in words: which trail, and from where it is walked."""
    _, name, end = line.split(" ", 2)
    return f"trail {name}: {_ENDS.get(end, end)}"


def _beside(line: str) -> str:
    """The line of a test of a path, or of an optional clause, in words."""
    word, number, _, count = line.split(" ", 3)
    what = "exists" if word == "exists" else "OPTIONAL MATCH"
    return f"{what} {number}: {count} alternative{'' if count == '1' else 's'}"


def _beside_boxes(plan: Plan, spent: Spent | None) -> list[Step]:
    """What is found before the alternatives, and what that took."""
    boxes = [Step(_beside(line)) for line in plan.beside]
    if spent is not None:
        boxes += [Step(f"pipeline {number}: {one}") for number, one in enumerate(spent.others, 1)]
    return boxes


def draw_plan(plan: Plan, spent: Spent | None = None) -> str:
    """A plan in Graphviz's language: a frame for each alternative, its steps downwards, a joined part dashed.

    What is found for each match of an alternative, the trails, stands at its end; what is found once, the tests of paths
    and the optional clauses, stands in a frame of its own. What was spent stands with the plan, or the part, that took it.
    """
    writer, ends = _PlanWriter(), list[tuple[str, str]]()
    trails = [Step(_trail(line)) for line in plan.trails]
    shares = spent.alternatives if spent else []
    for number, steps in enumerate(plan.alternatives, 1):
        share = shares[number - 1] if number <= len(shares) else []
        label = f"alternative {number}"
        label += f", cost {plan.costs[number - 1]}" if number <= len(plan.costs) else ""
        label += f", {share[-1]}" if share else ", not gone through" if shares else ""
        shown = [step for step in steps if not step.text.startswith("columns ")]
        ends.append(writer.frame(str(number), label, [*shown, *trails], share[:-1]))
    beside = _beside_boxes(plan, spent)
    if beside:
        writer.frame("beside", "found once, before" if plan.beside else "what was spent", beside)
    for above, below in zip(ends, ends[ALTERNATIVES_OF_A_ROW:], strict=False):
        writer.lines.append(f"  {above[1]} -> {below[0]} [style=invis];")
    title = f', label={quoted(counted(spent.rows, "row"))}, labelloc=t' if spent else ""
    head = [
        "digraph plan {",
        f'  graph [fontname="sans-serif", fontsize=11{title}];',
        '  node [fontname="monospace", fontsize=10, style=filled, shape=box, margin="0.1,0.05"];',
        '  edge [color="#666666", fontname="sans-serif", fontsize=9];',
    ]
    return "\n".join([*head, *writer.lines, "}", ""])
