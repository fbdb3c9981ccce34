"""The charts, drawn by gnuplot as SVG where it is there: each query's ratio to the floor, and how times grow with the graph."""
import glob
import os
import shutil
import subprocess
from collections.abc import Iterable, Sequence

from .report import ratio
from .results import Answer, Graph

COLOURS = {"C++": "#555555", "sqlite3": "#d08c2f", "graphq": "#2f6fd0"}


def draw(script: str) -> None:
    """Draws what a script of gnuplot says."""
    subprocess.run(["gnuplot"], input=script, text=True, check=True)


def start(path: str, height: int) -> str:
    """What each chart begins with."""
    return f"""set terminal svg size 860,{height} dynamic font "sans-serif,13" background rgb "white"
set output "{path}"
set border 3
set tics nomirror
set grid ytics lc rgb "#dddddd"
set key top left
set logscale y
"""


def block(name: str, rows: Iterable[Sequence[object]]) -> str:
    """Data with its place in the script."""
    lines = [" ".join(str(cell) for cell in row) for row in rows]
    return f"${name} << END\n" + "\n".join(lines) + "\nEND\n"


def names_room(answers: Sequence[Answer]) -> tuple[int, int]:
    """Lines below a chart in which the longest name of a query stands whole, at its slant, and columns at its right for the last."""
    return 2 + max(len(answer["query"]) for answer in answers) // 3, 3 + len(answers[-1]["query"]) * 2 // 3


def ratios(graph: Graph, path: str) -> bool:
    """Bars for each query: processor time as a multiple of the hand-written C++'s."""
    shown = [answer for answer in graph["queries"] if ratio(answer["seconds"], "graphq")]
    if not shown:
        return False
    rows = [(f'"{answer["query"]}"', *(ratio(answer["seconds"], name) or "NaN" for name in ("sqlite3", "graphq"))) for answer in shown]
    below, right = names_room(shown)
    title = f"{graph['kind']}:{graph['count']}, processor time as a multiple of hand-written C++: less is better"
    draw(start(path, 460) + block("data", rows) + f"""set title "{title}" noenhanced
set bmargin {below}
set style data histogram
set style histogram clustered gap 1
set style fill solid
set boxwidth 0.9
set xtics rotate by -35 noenhanced
set rmargin {right}
set yrange [0.1:*]
plot $data using 2:xtic(1) title "sqlite3" lc rgb "{COLOURS['sqlite3']}", \\
     $data using 3 title "graphq" lc rgb "{COLOURS['graphq']}", 1 notitle lc rgb "#000000"
""")
    return True


def panel(graphs: Sequence[Graph], name: str, number: int) -> tuple[str, str]:
    """The data and the plot of one query: each program's milliseconds over the sizes of the graphs."""
    script, plots = "", []
    for at, (program, colour) in enumerate(COLOURS.items()):
        points = [(graph["count"], 1000 * answer["seconds"][program]) for graph in graphs for answer in graph["queries"]
                  if answer["query"] == name and answer["seconds"].get(program)]
        if len(points) > 1:
            script += block(f"data{number}_{at}", points)
            plots.append(f'$data{number}_{at} using 1:2 with linespoints pt 7 ps 0.5 lw 2 lc rgb "{colour}" notitle')
    return script, f'set title "{name}" noenhanced\nplot ' + ", ".join(plots) + "\n" if plots else ""


def growth(graphs: Sequence[Graph], kind: str, path: str) -> bool:
    """A panel for each query over the graphs of one kind; whether there is any."""
    names = dict.fromkeys(answer["query"] for graph in graphs for answer in graph["queries"])
    panels = [one for one in (panel(graphs, name, number) for number, name in enumerate(names)) if one[1]]
    if not panels:
        return False
    rows = -(-len(panels) // 3)
    script = start(path, 80 + 190 * rows) + "".join(data for data, _ in panels)
    script += 'set logscale x\nset format "10^{%L}"\n'
    title = f"{kind}: milliseconds of processor time over N, less is better\\nhand-written C++ grey, sqlite3 orange, graphq blue"
    script += f'set multiplot layout {rows},3 title "{title}" noenhanced\n'
    draw(script + "".join(plot for _, plot in panels) + "unset multiplot\n")
    return True


def all_charts(graphs: Sequence[Graph], folder: str) -> list[str]:
    """Draws the charts of a run into a folder, in place of those of the run before, and gives their names; none where gnuplot is
    not there."""
    names: list[str] = []
    if not shutil.which("gnuplot"):
        return names
    for old in [*glob.glob(os.path.join(folder, "ratio-*.svg")), *glob.glob(os.path.join(folder, "growth-*.svg"))]:
        os.remove(old)
    for graph in graphs:
        name = f"ratio-{graph['kind']}-{graph['count']}.svg"
        if ratios(graph, os.path.join(folder, name)):
            names.append(name)
    for kind in dict.fromkeys(graph["kind"] for graph in graphs):
        name = f"growth-{kind}.svg"
        if growth([graph for graph in graphs if graph["kind"] == kind], kind, os.path.join(folder, name)):
            names.append(name)
    return names
