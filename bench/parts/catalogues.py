"""The graphs of the hostile statements: up to 64 tables of each form, with one node in each and no relationships but loops; and
one with some nodes in two tables, all of one of which have relationships with one another."""
import os

SPARSE = """0-57 3-1 3-2 3-29 4-9 4-61 7-61 10-2 11-32 11-56 13-20 13-40 14-3 15-42 17-8 21-20 21-21 22-23 23-37 23-44 25-29 26-12
26-54 28-56 28-58 29-1 31-51 32-15 32-21 34-0 34-14 34-29 34-37 35-31 37-2 37-8 38-36 39-50 42-58 44-0 44-29 45-53 45-58 46-25
46-47 48-27 49-16 49-55 50-47 51-44 52-62 53-12 53-22 54-3 54-24 57-1 58-41 60-5 60-48 62-3 63-29 63-50 63-57 63-60"""
DENSER = """0-5 0-17 1-2 1-9 1-18 1-23 2-2 2-23 3-8 3-10 4-5 4-6 5-14 5-17 6-8 6-10 6-18 6-19 7-0 7-16 8-4 9-7 9-9 9-12 9-16 10-3
10-13 10-19 11-3 11-10 11-21 12-4 12-6 12-9 12-17 12-21 13-0 13-1 13-18 14-5 15-0 15-3 15-4 16-1 16-8 16-14 17-7 17-15 18-4 18-6
18-10 18-17 19-22 20-0 20-22 21-3 21-12 21-13 21-20 22-16 22-19 23-5 23-9 23-16"""


def drawn(text: str) -> list[tuple[int, int]]:
    """The pairs that a text names."""
    pairs = (pair.split("-") for pair in text.split())
    return [(int(a), int(b)) for a, b in pairs]


def layers() -> list[tuple[int, int]]:
    """Six layers of four tables; from each table to three of the next layer."""
    return [(4 * layer + at, 4 * layer + 4 + to) for layer in range(5) for at in range(4) for to in range(4) if at + to != 3]


# By its name: how many tables of nodes, the tables at the ends of each table of relationships, and whether all of these are
# of one type.
CATALOGUES: dict[str, tuple[int, list[tuple[int, int]], bool]] = {
    "loop": (1, [(0, 0)], False),
    "two": (2, [(0, 1)], False),
    "complete": (8, [(a, b) for a in range(8) for b in range(8)], False),
    "bipartite": (16, [(a, 8 + b) for a in range(8) for b in range(8)], False),
    "layers": (24, layers(), False),
    "denser": (24, drawn(DENSER), False),
    "sparse": (64, drawn(SPARSE), False),
    "line": (64, [(at, at + 1) for at in range(63)], False),
    "ring": (64, [(at, (at + 1) % 64) for at in range(64)], False),
    "one type": (64, [(at, (at + 1) % 64) for at in range(64)], True),
    "star": (64, [(0, at) for at in range(1, 64)], False),
}
CROWD, FEW, MANY = "crowd", 160, 2_048  # so many nodes each; 160 with themselves make 4,096,000 paths of two relationships
STUDIED = ("complete", "sparse", "bipartite", "denser", "layers")


def make_crowd(folder: str) -> None:
    """Writes the manifest and the files of the graph with some nodes."""
    few = range(FEW)
    for name, lines in {
        manifest(CROWD): ["node Few few.csv", "node Many many.csv", "rel LINK Few Few many_many link.csv"],
        "few.csv": ["id:int,x:int", *(f"{at},{at}" for at in few)],
        "many.csv": ["id:int,x:int", *(f"{at},{at}" for at in range(MANY))],
        "link.csv": ["from,to", *(f"{one},{other}" for one in few for other in few)],
    }.items():
        with open(os.path.join(folder, name), "w", encoding="ascii") as file:
            file.write("\n".join(lines) + "\n")


def make(folder: str) -> None:
    """Writes the manifests and the files of all catalogues."""
    make_crowd(folder)
    for name, text in {"n.csv": "id:int,x:int\n1,1\n", "r.csv": "from,to\n", "loop.csv": "from,to\n1,1\n"}.items():
        with open(os.path.join(folder, name), "w", encoding="ascii") as file:
            file.write(text)
    for name, (nodes, ends, one) in CATALOGUES.items():
        rels = "loop.csv" if len(ends) == 1 else "r.csv"
        lines = [f"node N{at} n.csv" for at in range(nodes)]
        lines += [f"rel T{0 if one else at} N{a} N{b} many_many {rels}" for at, (a, b) in enumerate(ends)]
        with open(os.path.join(folder, manifest(name)), "w", encoding="ascii") as file:
            file.write("\n".join(lines) + "\n")


def manifest(name: str) -> str:
    """The name of a catalogue's manifest."""
    return name.replace(" ", "-") + ".manifest"
