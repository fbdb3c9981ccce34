"""The tables and indexes that sqlite3 gets for each kind of graph: an index on both ends of each type of relationship, and on
the properties that are asked for. Where keys are measured it checks that both ends of each relationship are there."""
from collections.abc import Iterator
from dataclasses import dataclass, field


@dataclass
class Table:
    """A table, the file that fills it, and those of its columns in which an empty field is null."""
    name: str
    columns: str
    file: str
    nulls: tuple[str, ...] = ()


@dataclass
class Schema:
    tables: list[Table]
    indexes: list[str] = field(default_factory=list)
    more: list[str] = field(default_factory=list)  # statements after the tables
    checked: bool = False  # whether foreign keys are checked

    def statements(self, folder: str) -> Iterator[str]:
        """What makes and fills the tables out of the files of a folder."""
        yield f"PRAGMA foreign_keys = {'ON' if self.checked else 'OFF'};"
        for table in self.tables:
            yield f"CREATE TABLE {table.name}({table.columns});"
            yield f'.import --csv --skip 1 "{folder}/{table.file}" {table.name}'
            if table.nulls:
                yield (f"UPDATE {table.name} SET " + ", ".join(f"{one} = NULLIF({one}, '')" for one in table.nulls)
                       + " WHERE " + " OR ".join(f"{one} = ''" for one in table.nulls) + ";")
        yield from self.more
        for number, columns in enumerate(self.indexes):
            yield f"CREATE INDEX index_{number} ON {columns};"
        yield "ANALYZE;"


SOCIAL = Schema(
    [Table("person", "id INTEGER PRIMARY KEY, name TEXT, age INTEGER, city INTEGER", "person.csv", ("age", "city", "name")),
     Table("city", "id INTEGER PRIMARY KEY, name TEXT, pop INTEGER", "city.csv", ("pop",)),
     Table("post", "id INTEGER PRIMARY KEY, len INTEGER, lang TEXT", "post.csv"),
     Table("knows", "src INTEGER, dst INTEGER, since INTEGER", "knows.csv", ("since",)),
     Table("likes", "src INTEGER, dst INTEGER", "likes.csv"),
     Table("has_creator", "src INTEGER PRIMARY KEY, dst INTEGER", "creator.csv")],
    ["knows(src, dst)", "knows(dst, src)", "knows(since)", "likes(src, dst)", "likes(dst, src)", "person(age)", "person(name)",
     "person(city)", "post(creator)"],
    ["ALTER TABLE post ADD COLUMN creator INTEGER;",
     "UPDATE post SET creator = (SELECT dst FROM has_creator WHERE src = post.id);",
     "DROP TABLE has_creator;"])

STAR = Schema(
    [Table("hub", "id INTEGER PRIMARY KEY", "hub.csv"), Table("leaf", "id INTEGER PRIMARY KEY, w INTEGER", "leaf.csv"),
     Table("has", "src INTEGER, dst INTEGER", "has.csv")],
    ["has(src, dst)", "has(dst, src)", "leaf(w)"])


def keyed(kind: str) -> Schema:
    """Persons and whom they know, by keys of this kind of SQL."""
    ends = ", ".join(f"{end} {kind} REFERENCES person(id)" for end in ("src", "dst"))
    return Schema([Table("person", f"id {kind} PRIMARY KEY, name TEXT, age INTEGER", "person.csv", ("age",)),
                   Table("knows", f"{ends}, since INTEGER", "knows.csv")], checked=True)


SCHEMAS = {"social": SOCIAL, "star": STAR, "integer_keys": keyed("INTEGER"), "text_keys": keyed("TEXT"),
           "chosen_keys": keyed("INTEGER")}
