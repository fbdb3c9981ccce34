#!/usr/bin/env python3
"""Tells what a run of `rt ci` takes, crate by crate, in processor seconds: proof, tests and edits.

    rt ci & bench/gate.py $!

with `--anew` where the kit's `rt ci` takes it, looks once a second at the processes that the run starts, until it ends, and
prints the table of docs/gate.md; and after it what all of it is in the unit by which machines and hours compare, the seconds of
the proof of one crate in the same run."""
import argparse
import collections
import os
import re
import time
from collections.abc import Iterator

UNIT = "gq_adj"


def stat_of(number: str) -> tuple[int, str, float] | None:
    """The parent of a process, the time at which it started and the processor seconds that it took itself; nothing without it."""
    try:
        with open(f"/proc/{number}/stat", encoding="utf8") as file:
            fields = file.read().rsplit(")", 1)[1].split()
    except OSError:
        return None
    return int(fields[1]), fields[19], (int(fields[11]) + int(fields[12])) / os.sysconf("SC_CLK_TCK")


def running(run: int) -> Iterator[tuple[tuple[int, str], float, str, list[str]]]:
    """What the run has started, and what that has started, as a check does that shares its searches: each with its number, start,
    processor seconds, folder and words."""
    found = {int(number): stat_of(number) for number in filter(str.isdigit, os.listdir("/proc"))}
    children: dict[int, list[int]] = collections.defaultdict(list)
    for number, stat in found.items():
        if stat:
            children[stat[0]].append(number)
    below = list(children[run])
    for number in below:
        below += children[number]
        stat = found[number]
        if stat is None:
            continue
        _, start, seconds = stat
        try:
            with open(f"/proc/{number}/cmdline", encoding="utf8") as file:
                words = file.read().split("\0")
            folder = os.readlink(f"/proc/{number}/cwd")
        except (OSError, ValueError):
            continue
        if any(words):
            yield (number, start), seconds, folder, words


def kind(folder: str, words: list[str]) -> tuple[str, str] | None:
    """The crate that a process works on and the column that it counts for, or nothing."""
    name = re.search(r"--crate-name (\S+)", " ".join(words))
    if not name:
        return None
    if "/rt-edit-" in folder:
        return name[1], "edits"
    return name[1], "tests" if "--test" in words else "proof"


def arguments() -> argparse.Namespace:
    parser = argparse.ArgumentParser(prog="bench/gate.py", description=__doc__, formatter_class=argparse.RawDescriptionHelpFormatter)
    parser.add_argument("run", type=int, metavar="NUMBER", help="the process of the run, which has to be there")
    words = parser.parse_args()
    if not os.path.exists(f"/proc/{words.run}"):
        parser.error(f"there is no process {words.run}")
    return words


def main() -> None:
    run = arguments().run
    seen: dict[tuple[int, str], tuple[tuple[str, str], float]] = {}
    while os.path.exists(f"/proc/{run}"):
        for process, seconds, folder, words in running(run):
            place = kind(folder, words)
            if place:
                seen[process] = (place, seconds)
        time.sleep(1)
    table: dict[tuple[str, str], float] = collections.defaultdict(float)
    for place, seconds in seen.values():
        table[place] += seconds
    columns = ("proof", "tests", "edits")
    print("| crate | proof | tests | edits |\n|---|---|---|---|")
    for crate in sorted({crate for crate, _ in table}):
        print(f"| `{crate}` | " + " | ".join(f"{table[crate, c]:,.0f}" if table[crate, c] else "" for c in columns) + " |")
    sums = [sum(table[place] for place in table if place[1] == column) for column in columns]
    print("| all | " + " | ".join(f"{total:,.0f}" for total in sums) + " |")
    unit = table[UNIT, "proof"]
    if unit > 0:
        print(f"\nIn units of {unit:,.0f} seconds, the proof of `{UNIT}`: all {sum(sums) / unit:,.0f}, which is "
              + ", ".join(f"{column} {total / unit:,.0f}" for column, total in zip(columns, sums)) + ".")


if __name__ == "__main__":
    main()
