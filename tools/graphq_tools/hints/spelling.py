"""Names that are spelled nearly like another."""

from __future__ import annotations

import difflib
from collections.abc import Iterable


def nearest(name: str, known: Iterable[str]) -> str | None:
    """The one of these names that is most nearly `name`, whatever the case, if any is."""
    names = {one.lower(): one for one in known}
    close = difflib.get_close_matches(name.lower(), names, n=1, cutoff=0.6)
    return names[close[0]] if close else None


def like(name: str, known: Iterable[str]) -> str:
    """`; Line?` where one of the names is nearly `name`, and else nothing."""
    found = nearest(name, known)
    return f"; {found}?" if found else ""
