"""Which labels of a node make its table, where not all of them do: the others become boolean properties."""

from __future__ import annotations

from collections import Counter
from collections.abc import Iterable, Sequence
from dataclasses import dataclass, field

from ..names import unused
from ..outcome import Refusal, Status
from .kinds import Treatment, as_is
from .spool import Property

FIRST, MOST = "first", "most"


@dataclass
class Labels:
    """What was asked for by `--labels`: `first`, `most`, the names to keep, or nothing."""

    word: str = ""
    names: frozenset[str] = frozenset()
    counts: Counter[str] = field(default_factory=Counter)

    def count(self, labels: Iterable[str]) -> None:
        """Counts the labels of a node."""
        self.counts.update(labels)

    def split(self, labels: Sequence[str], default: str) -> tuple[list[str], list[str]]:
        """The labels of a node's table, and the others; a node without one that is kept has the default."""
        distinct = list(dict.fromkeys(labels))
        if not self.word:
            return distinct, []
        if self.word == FIRST:
            return distinct[:1], distinct[1:]
        if self.word == MOST:
            best = max(distinct, key=self.counts.__getitem__)
            return [best], [label for label in distinct if label != best]
        kept = [label for label in distinct if label in self.names]
        return kept or [default], [label for label in distinct if label not in kept and (kept or label != default)]


def flags(others: Iterable[str], taken: Iterable[str]) -> list[Property]:
    """A boolean property for each label that makes no table; a name that a property has gets a number."""
    known = set(taken)
    return [
        Property(unused(label, known, any_case=False), Treatment("bool", as_is, f"whether it has the label {label}"), "false")
        for label in others
    ]


def asked_labels(word: str | None) -> Labels:
    """Reads the word of `--labels`."""
    if word is None:
        return Labels()
    names = frozenset(filter(None, word.split(",")))
    if not names:
        raise Refusal("--labels: it is first, most, or NAME,NAME..", Status.BAD_WORDS)
    return Labels(word, names)
