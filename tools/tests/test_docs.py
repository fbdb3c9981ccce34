"""What the pages show of a terminal: each command behind `$` writes the lines below it."""

from __future__ import annotations

import re
import subprocess
import unittest
from pathlib import Path

from .support import PROGRAM, TOP, ToolTest, needs_program

PAGES = [*sorted((TOP / "docs/tools").glob("*.md")), *(TOP / page for page in ("README.md", "docs/language.md"))]

# A command that only gives others a name; those below it on the page have it too.
_NAMED = re.compile(r"\w+\(\) \{")


def commands(page: Path) -> list[tuple[str, list[str]]]:
    """The commands of a page, each with the lines that it writes."""
    found: list[tuple[str, list[str]]] = []
    open_block = False
    for line in page.read_text(encoding="utf-8").splitlines():
        if line.startswith("    $ "):
            found.append((line[6:], []))
            open_block = True
        elif not line.startswith("    "):
            open_block = False
        elif open_block and line.startswith("    > "):
            found[-1] = (f"{found[-1][0]}\n{line[6:]}", [])
        elif open_block:
            found[-1][1].append(line[4:])
    return found


def anchors(page: Path) -> set[str]:
    """The places of a page that a link may name: its headings, in small letters and with - for blanks."""
    headings = re.findall(r"^#+ (.+)$", page.read_text(encoding="utf-8"), re.MULTILINE)
    return {re.sub(r"[^\w\- ]", "", heading.lower()).replace(" ", "-") for heading in headings}


class Links(unittest.TestCase):
    EVERY = [TOP / "README.md", *sorted((TOP / "docs").rglob("*.md")), *sorted((TOP / "examples").rglob("README.md"))]

    def test_links_lead_somewhere(self) -> None:
        for page in self.EVERY:
            for target, _, anchor in re.findall(r"\]\(([^)#\s]*)(#([^)\s]*))?\)", page.read_text(encoding="utf-8")):
                if "://" in target:
                    continue
                with self.subTest(page=page.name, target=target, anchor=anchor):
                    place = (page.parent / target) if target else page
                    self.assertTrue(place.exists())
                    if anchor:
                        self.assertIn(anchor, anchors(place))

    def test_the_index_has_all_pages(self) -> None:
        index = TOP / "docs/README.md"
        linked = {(index.parent / target).resolve() for target in re.findall(r"\]\(([^)#\s]+)", index.read_text())}
        for page in self.EVERY[1:]:
            if page != index:
                self.assertIn(page.resolve(), linked)


@needs_program("sqlite3")
class Pages(ToolTest):
    def test_commands(self) -> None:
        for name in ("tools", "examples", "release"):
            (self.folder / name).symlink_to(TOP / name)
        (self.folder / "graphq").symlink_to(PROGRAM)
        count = 0
        for page in PAGES:
            names, status = "", 0
            for command, wanted in commands(page):
                if _NAMED.match(command):
                    names += f"{command}\n"
                    continue
                with self.subTest(page=page.name, command=command):
                    # `echo $?` by itself asks how the command above ended.
                    done = subprocess.run(
                        ["bash", "-c", f"{names}(exit {status})\n{command}"],
                        cwd=self.folder,
                        stdin=subprocess.DEVNULL,
                        stdout=subprocess.PIPE,
                        stderr=subprocess.STDOUT,
                        check=False,
                    )
                    status = done.returncode
                    self.assertEqual(done.stdout.decode().splitlines(), wanted)
                    count += 1
        self.assertGreater(count, 30)
