"""What a run measured, as it stands in results.json."""
from typing import TypedDict


class Load(TypedDict):
    """A load by one program: its seconds, the most memory, and what is held after it."""

    seconds: float
    peak_mb: float
    resident_mb: float


class Answer(TypedDict):
    """What was measured of a query. Programs go by their names: the least seconds, the second least, requests a measure, memory."""

    query: str
    subject: str
    text: str
    rows: int | None
    seconds: dict[str, float]
    second: dict[str, float]
    copies: dict[str, int]
    peak_mb: dict[str, float]
    notes: list[str]
    calls: dict[str, int] | None


class Graph(TypedDict):
    """What was measured over one graph."""

    kind: str
    count: int
    bytes: int
    loads: dict[str, Load]
    queries: list[Answer]
    machine_load: tuple[float, float]
