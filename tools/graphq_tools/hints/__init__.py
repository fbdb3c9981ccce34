"""What a refusal of graphq means, where its cause stands and what to do; and what a query can never find."""

from __future__ import annotations

from .loads import load_hint
from .notes import notes
from .places import place
from .refusals import hint

__all__ = ["hint", "load_hint", "notes", "place"]
