"""The queries, each as graphq's text and as the SQL that a good user would write for the same bag of rows.

No join to a table of which only the key is listed; LIVES_IN is the column person.city, and HAS_CREATOR the column post.creator;
the relationships of one MATCH are kept apart by their row numbers, and a trail is one join for each length that it may have, which
takes less time than a recursive query that carries a path. The hand-written C++ has a job of the query's name.
"""
import itertools
import os
from collections.abc import Callable
from dataclasses import dataclass


@dataclass
class Query:
    """One query. `kinds` has a letter for each column, i for int and s for string, and `numbers` is what the job takes."""
    name: str
    subject: str
    text: str
    sql: str
    kinds: str
    numbers: tuple[int, ...] = ()
    some: bool = False     # LIMIT without ORDER BY: any so many rows of the whole bag are right
    ordered: bool = False  # the order of the rows counts

    def header(self) -> str:
        """The first line of graphq's reply."""
        columns = self.text.split(" RETURN ", 1)[1].split(" ORDER BY ")[0].split(" LIMIT ")[0]
        return "\t".join(column.strip() for column in columns.removeprefix("DISTINCT ").split(","))


def filters() -> list[Query]:
    return [
        Query("range_filter", "a filter over one table",
              "MATCH (p:Person) WHERE p.age >= 20 AND p.age < 40 RETURN p.id, p.name, p.age",
              "SELECT id, name, age FROM person WHERE age >= 20 AND age < 40", "isi", (20, 40)),
        Query("starts_with", "STARTS WITH",
              "MATCH (p:Person) WHERE p.name STARTS WITH 'Zu' RETURN p.id, p.name",
              "SELECT id, name FROM person WHERE name GLOB 'Zu*'", "is"),
        Query("contains", "CONTAINS",
              "MATCH (p:Person) WHERE p.name CONTAINS 'zu' RETURN p.id, p.name",
              "SELECT id, name FROM person WHERE instr(name, 'zu') > 0", "is"),
    ]


def hops(hundredth: int, tenth: int) -> list[Query]:
    return [
        Query("one_hop", "neighbours of some",
              "MATCH (a:Person)-[:KNOWS]->(b:Person) WHERE a.age = 30 RETURN a.id, b.id",
              "SELECT a.id, k.dst FROM person a JOIN knows k ON k.src = a.id WHERE a.age = 30", "ii", (30,)),
        Query("undirected_hop", "neighbours of some, in both directions",
              "MATCH (a:Person)-[:KNOWS]-(b:Person) WHERE a.age = 30 RETURN a.id, b.id",
              "SELECT a.id, k.dst FROM person a JOIN knows k ON k.src = a.id WHERE a.age = 30 UNION ALL "
              "SELECT a.id, k.src FROM person a JOIN knows k ON k.dst = a.id WHERE a.age = 30 AND k.src <> k.dst",
              "ii", (30,)),
        Query("two_hops", "neighbours of neighbours of a hundredth",
              "MATCH (a:Person)-[:KNOWS]->(b:Person)-[:KNOWS]->(c:Person) "
              f"WHERE a.id <= {hundredth} RETURN a.id, b.id, c.id",
              "SELECT k1.src, k1.dst, k2.dst FROM knows k1 JOIN knows k2 ON k2.src = k1.dst "
              f"WHERE k1.src <= {hundredth} AND k1.rowid <> k2.rowid", "iii", (hundredth,)),
        Query("triangle", "triangles from a tenth",
              "MATCH (a:Person)-[:KNOWS]->(b:Person)-[:KNOWS]->(c:Person)-[:KNOWS]->(a) "
              f"WHERE a.id <= {tenth} RETURN a.id, b.id, c.id",
              "SELECT k1.src, k1.dst, k2.dst FROM knows k1 JOIN knows k2 ON k2.src = k1.dst "
              "JOIN knows k3 ON k3.src = k2.dst AND k3.dst = k1.src "
              f"WHERE k1.src <= {tenth} AND k1.rowid <> k2.rowid AND k1.rowid <> k3.rowid AND k2.rowid <> k3.rowid",
              "iii", (tenth,)),
        Query("no_path", "a path that is not there: who knows nobody of an age",
              "MATCH (p:Person) WHERE NOT exists((p)-[:KNOWS]->(:Person {age: 30})) RETURN p.id",
              "SELECT p.id FROM person p WHERE NOT EXISTS (SELECT 1 FROM knows k JOIN person q ON q.id = k.dst "
              "WHERE k.src = p.id AND q.age = 30)", "i", (30,)),
        Query("each_or_null", "whom each knows of an age, or null",
              "MATCH (p:Person) OPTIONAL MATCH (p)-[:KNOWS]->(q:Person {age: 30}) RETURN p.id, q.id",
              "SELECT p.id, f.dst FROM person p LEFT JOIN (SELECT k.src, k.dst FROM person q JOIN knows k ON k.dst = q.id "
              "WHERE q.age = 30) f ON f.src = p.id", "ii", (30,)),
    ]


def walks(columns: str, first: str = "knows k1", where: str = "", last: str = "") -> str:
    """The SQL of all walks of one to three relationships KNOWS that take none twice, where `last` is asked of the last one's row."""
    selects: list[str] = []
    joined, apart = f" FROM {first}", [where]
    for length in (1, 2, 3):
        if length > 1:
            joined += f" JOIN knows k{length} ON k{length}.src = k{length - 1}.dst"
            apart += [f"k{before}.rowid <> k{length}.rowid" for before in range(1, length)]
        asked = " AND ".join(filter(None, [*apart, last.format(length)]))
        selects.append(f"SELECT {columns.format(length)}{joined} WHERE {asked}")
    return " UNION ALL ".join(selects)


def trails(start: int, tenth: int) -> list[Query]:
    """From one person, who is busy, so that the walks are the work; from some; and to one person, whom many know."""
    end = 1
    between = walks("k1.src, k{}.dst", where=f"k1.src = {start}", last=f"k{{}}.dst = {end}")
    return [
        Query("trail", "walks of one to three from one node",
              f"MATCH (a:Person {{id: {start}}})-[:KNOWS*1..3]->(b) RETURN b.id",
              walks("k{}.dst", where=f"k1.src = {start}"), "i", (start,)),
        Query("trail_of_some", "the same from some",
              f"MATCH (a:Person)-[:KNOWS*1..3]->(b) WHERE a.age = 30 AND a.id <= {tenth} RETURN a.id, b.id",
              walks("a.id, k{}.dst", "person a JOIN knows k1 ON k1.src = a.id", f"a.age = 30 AND a.id <= {tenth}"),
              "ii", (30, tenth)),
        Query("trail_to", "the same to one node, by its key",
              f"MATCH (a:Person {{id: {start}}})-[:KNOWS*1..3]->(b:Person {{id: {end}}}) RETURN a.id, b.id",
              between, "ii", (start, end)),
        Query("trail_between", "the same between two nodes that are found before",
              f"MATCH (a:Person {{id: {start}}}), (b:Person {{id: {end}}}), (a)-[:KNOWS*1..3]->(b) RETURN a.id, b.id",
              between, "ii", (start, end)),
    ]


def busy(folder: str) -> int:
    """The first person of a social graph from whom a hundred relationships KNOWS go, or more; or the first of all."""
    with open(os.path.join(folder, "knows.csv"), encoding="utf8") as file:
        next(file)
        for person, lines in itertools.groupby(file, lambda line: line.partition(",")[0]):
            if sum(1 for _ in lines) >= 100:
                return int(person)
    return 1


def joins(few: int, hundredth: int) -> list[Query]:
    return [
        Query("single_hop", "along a single relationship, with a filter on its far end",
              "MATCH (p:Person)-[:LIVES_IN]->(c:City) WHERE c.pop >= 3000 RETURN p.id, c.name",
              "SELECT p.id, c.name FROM person p JOIN city c ON c.id = p.city WHERE c.pop >= 3000", "is", (3000,)),
        Query("same_town", "who lives where some live",
              "MATCH (a:Person)-[:LIVES_IN]->(c:City)<-[:LIVES_IN]-(b:Person) "
              f"WHERE a.id <= {few} RETURN a.id, b.id",
              f"SELECT a.id, b.id FROM person a JOIN person b ON b.city = a.city WHERE a.id <= {few} AND a.id <> b.id",
              "ii", (few,)),
        Query("liked_authors", "two types of relationships in a row",
              "MATCH (a:Person)-[:LIKES]->(m:Post)-[:HAS_CREATOR]->(b:Person) "
              f"WHERE a.id <= {hundredth} RETURN a.id, b.id",
              "SELECT l.src, m.creator FROM likes l JOIN post m ON m.id = l.dst "
              f"WHERE l.src <= {hundredth} AND m.creator IS NOT NULL", "ii", (hundredth,)),
    ]


def windows(tenth: int) -> list[Query]:
    most = 100_000
    return [
        Query("two_lists_limit", "two lists of one node, with LIMIT",
              "MATCH (a:Person)-[:KNOWS]->(x:Person) MATCH (a)-[:LIKES]->(m:Post) "
              f"RETURN a.id, x.id, m.id LIMIT {most}",
              f"SELECT x.src, x.dst, m.dst FROM knows x JOIN likes m ON m.src = x.src LIMIT {most}",
              "iii", (most,), some=True),
        Query("product_limit", "a product, with LIMIT",
              f"MATCH (a:Person), (c:City) RETURN a.id, c.id LIMIT {most}",
              f"SELECT a.id, c.id FROM person a CROSS JOIN city c LIMIT {most}", "ii", (most,), some=True),
        Query("order_limit", "ORDER BY and LIMIT 100",
              "MATCH (p:Person) RETURN p.id, p.age, p.name ORDER BY p.age DESC, p.name, p.id LIMIT 100",
              "SELECT id, age, name FROM person ORDER BY age DESC NULLS FIRST, name NULLS LAST, id LIMIT 100",
              "iis", (100,), ordered=True),
        Query("distinct", "DISTINCT over two hops",
              "MATCH (a:Person)-[:KNOWS]->(b:Person)-[:LIVES_IN]->(c:City) "
              f"WHERE a.id <= {tenth} RETURN DISTINCT a.id, c.id",
              "SELECT DISTINCT k.src, b.city FROM knows k JOIN person b ON b.id = k.dst "
              f"WHERE k.src <= {tenth} AND b.city IS NOT NULL", "ii", (tenth,)),
    ]


def social(count: int, start: int = 1) -> list[Query]:
    """`start` is the person from whom the trails of one person go."""
    few, hundredth, tenth = max(5, count // 1000), max(20, count // 100), max(50, count // 10)
    listing = Query("every_relationship", "every relationship with a property",
                    "MATCH (a:Person)-[r:KNOWS]->(b:Person) RETURN a.id, b.id, r.since",
                    "SELECT src, dst, since FROM knows", "iii")
    return filters() + hops(hundredth, tenth) + trails(start, tenth) + joins(few, hundredth) + windows(tenth) + [listing]


def star(count: int, _start: int = 1) -> list[Query]:
    share = max(1, 1_000_000 // count)  # of a thousand weights, so that some thousand leaves of each list are kept
    share = min(share, 500)
    return [
        Query("every_leaf", "all neighbours of one node",
              "MATCH (h:Hub)-[:HAS]->(x:Leaf) RETURN x.id, x.w",
              "SELECT x.id, x.w FROM has r JOIN leaf x ON x.id = r.dst", "ii"),
        Query("two_filtered_lists", "two lists of one hub, both filtered",
              "MATCH (h:Hub)-[:HAS]->(x:Leaf) MATCH (h)-[:HAS]->(y:Leaf) "
              f"WHERE x.w < {share} AND y.w >= {1000 - share} RETURN x.id, y.id",
              "SELECT x.id, y.id FROM has r JOIN leaf x ON x.id = r.dst JOIN has s ON s.src = r.src JOIN leaf y ON y.id = s.dst "
              f"WHERE x.w < {share} AND y.w >= {1000 - share}", "ii", (share, 1000 - share)),
    ]


def integer_keys(_count: int, _start: int = 1) -> list[Query]:
    return [Query("every_name", "one column of texts", "MATCH (p:Person) RETURN p.name", "SELECT name FROM person", "s")]


def none(_count: int, _start: int = 1) -> list[Query]:
    """Of some graphs the loads alone are measured."""
    return []


# By the kind of the graph: the queries over so many, and from a node from which the trails of one node go.
QUERIES: dict[str, Callable[..., list[Query]]] = {
    "social": social, "star": star, "integer_keys": integer_keys, "text_keys": none, "chosen_keys": none,
}
