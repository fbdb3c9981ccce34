"""Whether an answer is right: the bag of its rows, and their order where it counts, are those of the floor's answer."""
import subprocess
from collections.abc import Sequence

from .queries import Query


class Judge:
    """Compares answers over one graph. `bag` and `floor` are built programs."""

    def __init__(self, bag: str, floor: str, kind: str, folder: str) -> None:
        self.bag_program, self.floor, self.kind, self.folder = bag, floor, kind, folder

    @staticmethod
    def words(*command: str) -> list[str]:
        """What a command says, word by word."""
        return subprocess.run(command, stdout=subprocess.PIPE, text=True, errors="replace", check=False).stdout.split()

    def bag(self, query: Query, path: str, sql: bool = False) -> list[str]:
        """The number of rows and the hashes of the bag and of the order, or "BAD" and why."""
        form = ["sql", query.kinds] if sql else ["graphq"]
        return self.words(self.bag_program, *form, path) or ["BAD", "no hash"]

    def wrong(self, query: Query, path: str, wanted: Sequence[str], sql: bool = False) -> str | None:
        """What is wrong with the answer in a file, or nothing. `wanted` is the bag of the floor's answer."""
        got = self.bag(query, path, sql)
        if got[0] == "BAD":
            return " ".join(got[1:])
        if not sql:
            with open(path, encoding="utf8", errors="replace") as file:
                header = file.readline()
            if header != query.header() + "\n":
                return f"its header is {header!r}"
        if got[0] != wanted[0]:
            return f"{got[0]} rows, not {wanted[0]}"
        if query.some:
            return self.wrong_some(query, path, got[0], sql)
        if got[1] != wanted[1]:
            return "other rows"
        return "the same rows in another order" if query.ordered and got[2] != wanted[2] else None

    def wrong_some(self, query: Query, path: str, rows: str, sql: bool) -> str | None:
        """The same for a query of which any so many rows are right."""
        if sql:
            with open(path, encoding="utf8") as file, open(path + ".reply", "w", encoding="utf8") as reply:
                reply.writelines(["header\n", *file, f"rows {rows}\n"])
            path += ".reply"
        told = self.words(self.floor, self.kind, self.folder, query.name, path)
        return None if told == ["OK"] else " ".join(told[1:]) or "its rows could not be checked"
