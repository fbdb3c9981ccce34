"""graphq from Python: a graph is opened once, and its queries give rows of Python values.

    import graphq

    with graphq.open("examples/metro/metro.manifest") as graph:
        for name, zone in graph.query("MATCH (s:Station {zone: $zone}) RETURN s.name, s.zone", zone=4):
            print(name, zone)

docs/tools/python.md has all of it.
"""

from __future__ import annotations

from graphq_tools.schema import Nodes, Rels, Schema

from .errors import Error, LoadError, NotInstalled, ProgramEnded, QueryError
from .graph import Graph, open
from .plan import Pipeline, Plan, Profile
from .result import Result, Rows
from .values import Node, Rel, Value

__version__ = "0.1.0"

__all__ = [
    "Error",
    "Graph",
    "LoadError",
    "Node",
    "Nodes",
    "NotInstalled",
    "Pipeline",
    "Plan",
    "Profile",
    "ProgramEnded",
    "QueryError",
    "Rel",
    "Rels",
    "Result",
    "Rows",
    "Schema",
    "Value",
    "open",
]
