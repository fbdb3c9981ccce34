"""Names: what a plain name of the load format is, and what other names become."""

from __future__ import annotations

from collections.abc import Container

from .outcome import Refusal


def _begins(character: str) -> bool:
    if character.isascii():
        return character.isalpha() or character == "_"
    return not character.isspace()


def _goes_on(character: str) -> bool:
    return _begins(character) or character in "0123456789"


def is_plain(name: str) -> bool:
    """Whether the load format takes `name` for a label, a type or a property."""
    return bool(name) and _begins(name[0]) and all(map(_goes_on, name))


def made_plain(name: str) -> str:
    """The plain name for a name: each character that cannot stand in one becomes `_`, and a digit in front gets one."""
    plain = "".join(character if _goes_on(character) else "_" for character in name.strip())
    if plain and plain[0] in "0123456789":
        plain = "_" + plain
    return plain


class Names:
    """Makes names plain, notes which ones changed, and refuses two names that would become one."""

    def __init__(self, what: str, renamed: dict[str, str] | None = None) -> None:
        self._what = what
        self._asked = renamed or {}
        self._plain: dict[str, str] = {}
        self._origin: dict[str, str] = {}

    def plain(self, name: str) -> str:
        """The plain name for `name`, the same one each time."""
        known = self._plain.get(name)
        if known is not None:
            return known
        plain = self._asked.get(name) or made_plain(name)
        if not is_plain(plain):
            raise Refusal(f"{self._what} '{name}' gives no name: rename it, as in --rename '{name}=name'")
        other = self._origin.setdefault(plain, name)
        if other != name:
            raise Refusal(
                f"{self._what} '{name}' and '{other}' would both be called {plain}: "
                f"rename one, as in --rename '{name}={plain}_2'"
            )
        self._plain[name] = plain
        return plain

    def changes(self) -> list[str]:
        """A sentence for each name that is another one now."""
        changed = [(name, plain) for name, plain in self._plain.items() if name != plain]
        return [f"{self._what} '{name}' is called {plain}" for name, plain in changed]


def unused(name: str, taken: Container[str], any_case: bool = True) -> str:
    """`name`, or with the least number after it that makes it differ from the names taken.

    Where `any_case` is said the names taken are in small letters, and have to differ whatever the case.
    """
    own, number = name, 1
    while (own.lower() if any_case else own) in taken:
        number += 1
        own = f"{name}_{number}"
    return own
