"""The notebook of the examples, executed without anybody before it: each cell gives what stands below it."""

from __future__ import annotations

import asyncio
import importlib
import json
import os
from typing import Any
from unittest import mock

from .support import PROGRAM, TOOLS, TOP, ToolTest, needs_module

NOTEBOOK = TOP / "examples/metro/metro.ipynb"


def shown(cells: list[dict[str, Any]]) -> dict[str, list[Any]]:
    """What the cells with code give, by their names: what they print, and their values as texts and as HTML."""
    found = {}
    for cell in cells:
        if cell["cell_type"] == "code":
            outputs = [output.get("text", output.get("data", output.get("evalue"))) for output in cell["outputs"]]
            found[cell["id"]] = [_joined(output) for output in outputs]
    return found


def _joined(output: Any) -> Any:
    """A text, of which a file of a notebook has the lines; of a value only what does not change from run to run."""
    if isinstance(output, dict):
        kind = "text/html" if "text/html" in output else "text/plain"
        return _joined(output[kind])
    return "".join(output)


@needs_module("nbclient")
@needs_module("ipykernel")
@needs_module("pandas")
class Notebook(ToolTest):
    def test_each_cell(self) -> None:
        nbformat: Any = importlib.import_module("nbformat")
        nbclient: Any = importlib.import_module("nbclient")
        notebook = nbformat.read(NOTEBOOK, as_version=4)
        environment = {
            "GRAPHQ": PROGRAM,
            "PYTHONPATH": str(TOOLS),
            "IPYTHONDIR": str(self.folder / "ipython"),
            "JUPYTER_DATA_DIR": str(self.folder / "jupyter"),
            # The debugger of the kernel says so much on standard error.
            "PYDEVD_DISABLE_FILE_VALIDATION": "1",
        }
        for cell in notebook.cells:
            if cell.cell_type == "code":
                cell.outputs = []
        with mock.patch.dict(os.environ, environment):
            where = {"metadata": {"path": str(NOTEBOOK.parent)}}
            asyncio.run(nbclient.NotebookClient(notebook, timeout=60, resources=where).async_execute())
        wanted = shown(json.loads(NOTEBOOK.read_text(encoding="utf-8"))["cells"])
        self.assertTrue(all(wanted.values()))
        self.assertEqual(shown(notebook.cells), wanted)
