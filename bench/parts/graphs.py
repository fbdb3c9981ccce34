"""The graphs: a manifest and CSV files in graphq's load format. The same kind, size and seed give the same bytes.

social N         Person 1..N, City 1..max(10, N/100), Post 1..N. KNOWS has some 10 relationships a person, by a power law: half of
                 the targets are near, a quarter is popular; loops and parallel relationships occur. LIKES has some 3 a person;
                 LIVES_IN and HAS_CREATOR are many_one, and 5% have none. Names, ages, populations and `since` are null at times.
star N           One Hub, N Leaf, HAS from the hub to each leaf, in the order of the leaves.
integer_keys N   N persons and 5 N relationships KNOWS between them, by keys from 1 on.
text_keys N      The same by texts that share a long front.
chosen_keys N    The same by integers that are chosen to fall on one another: multiples of the number of a hash table's slots.
imports N        N modules in packages of twenty, and 43,219 imports between 12,000 of them, a fifth by the first module of a package.
                 A third stay in the package, and the others go to lower numbers, by a power law: the first module has thousands.
hubs N           A chain of a hub for each thousand nodes: each leads to its 999 spokes, and 50 of these to the next hub.
"""
import itertools
import os
import random
from collections.abc import Callable, Iterable, Iterator

Chance = Callable[[], float]
Place = Callable[[str], str]
FILE_MOST, ALL_MOST = 268_435_456, 536_870_912
SYLLABLES = [consonant + vowel for consonant in "bdfgjklmnprstvz" for vowel in "aeiou"]
LANGUAGES = ("en", "de", "fr", "es", "zh")
YEAR = 27.77  # how many years a unit of chance has, so that `since` goes from 2000 to 2024
PACKAGE = 20
SPOKES, LEADING_ON = 1000, 50


def write(path: str, header: str, lines: Iterable[str]) -> None:
    """A CSV file of these lines."""
    with open(path, "w", buffering=1 << 20, newline="\n", encoding="utf8") as file:
        file.write(header + "\n")
        file.writelines(line + "\n" for line in lines)


def syllable(chance: Chance) -> str:
    return SYLLABLES[int(chance() * len(SYLLABLES))]


def cities(chance: Chance, count: int) -> Iterator[str]:
    for city in range(1, count + 1):
        people = "" if city % 20 == 0 else int(1000 * (1.0 - chance()) ** -1.2)
        yield f"{city},Town {syllable(chance).capitalize()}{syllable(chance)} {city},{people}"


def name(chance: Chance) -> str:
    """A name; null, with a quote, and in quotes with a comma for a few."""
    kind, length = chance(), 2 + int(chance() * 3)
    word = "".join(syllable(chance) for _ in range(length)).capitalize()
    if kind < 0.02:
        return ""
    if kind < 0.025:
        return "O'" + word
    return f'"{word}, {word[:2]}"' if kind < 0.03 else word


def persons(chance: Chance, count: int, homes: list[int | str]) -> Iterator[str]:
    for person in range(1, count + 1):
        age = "" if chance() < 0.05 else 1 + int(90 * chance())
        yield f"{person},{name(chance)},{age},{homes[person - 1]}"


def degrees(chance: Chance, scale: float, most: int) -> Iterator[int]:
    """Numbers of relationships by a power law, one node in twenty without any."""
    while True:
        none = chance() < 0.05
        yield 0 if none else min(most, int(scale * (1.0 - chance()) ** (-1 / 1.8)))


def knows(chance: Chance, count: int, most: int) -> Iterator[str]:
    near, degree = min(60, count), degrees(chance, 5.2, most)
    for person in range(1, count + 1):
        for _ in range(next(degree)):
            kind = chance()
            if kind < 0.5:
                other = (person - 1 + int(kind * 2 * near) - near // 2) % count + 1
            elif kind < 0.75:
                other = 1 + int((kind - 0.5) * 4 * count)
            else:
                other = 1 + int(((kind - 0.75) * 4) ** 2 * count)
            year = chance()
            yield f"{person},{other}," + ("" if year < 0.1 else str(2000 + int((year - 0.1) * YEAR)))


def likes(chance: Chance, count: int, most: int) -> Iterator[str]:
    degree = degrees(chance, 1.75, most)
    for person in range(1, count + 1):
        for _ in range(next(degree)):
            yield f"{person},{1 + int(count * chance() ** 1.5)}"


def social(count: int, place: Place, chance: Chance) -> list[str]:
    towns, most = max(10, count // 100), max(20, min(count // 10, 3000))
    homes: list[int | str] = ["" if chance() < 0.05 else 1 + int(towns * chance() ** 2) for _ in range(count)]
    creators = ["" if chance() < 0.05 else 1 + int(count * chance() ** 2) for _ in range(count)]
    write(place("city.csv"), "id:int,name:string,pop:int", cities(chance, towns))
    write(place("person.csv"), "id:int,name:string,age:int,city:int", persons(chance, count, homes))
    write(place("lives.csv"), "from,to", (f"{person},{home}" for person, home in enumerate(homes, 1) if home))
    write(place("knows.csv"), "from,to,since:int", knows(chance, count, most))
    write(place("post.csv"), "id:int,len:int,lang:string",
          (f"{post},{int(1000 * chance())},{LANGUAGES[int(5 * chance() ** 2)]}" for post in range(1, count + 1)))
    write(place("creator.csv"), "from,to", (f"{post},{person}" for post, person in enumerate(creators, 1) if person))
    write(place("likes.csv"), "from,to", likes(chance, count, most))
    return ["node Person person.csv", "node City city.csv", "node Post post.csv",
            "rel KNOWS Person Person many_many knows.csv", "rel LIVES_IN Person City many_one lives.csv",
            "rel LIKES Person Post many_many likes.csv", "rel HAS_CREATOR Post Person many_one creator.csv"]


def star(count: int, place: Place, chance: Chance) -> list[str]:
    write(place("hub.csv"), "id:int", ["1"])
    write(place("leaf.csv"), "id:int,w:int", (f"{leaf},{int(1000 * chance())}" for leaf in range(1, count + 1)))
    write(place("has.csv"), "from,to", (f"1,{leaf}" for leaf in range(1, count + 1)))
    return ["node Hub hub.csv", "node Leaf leaf.csv", "rel HAS Hub Leaf many_many has.csv"]


def keyed(count: int, place: Place, chance: Chance, kind: str, key: Callable[[int], str]) -> list[str]:
    """Persons and five times as many relationships, where `key` spells the key of a number from 1 on."""
    def any_key() -> str:
        return key(1 + int(chance() * count))

    write(place("person.csv"), f"id:{kind},name:string,age:int",
          (f"{key(person)},person {person},{(person * 7) % 90 if person % 3 else ''}" for person in range(1, count + 1)))
    write(place("knows.csv"), "from,to,since:int",
          (f"{any_key()},{any_key()},{2000 + number % 25}" for number in range(1, 5 * count + 1)))
    return ["node Person person.csv", "rel KNOWS Person Person many_many knows.csv"]


def imports(count: int, place: Place, chance: Chance) -> list[str]:
    def one() -> str:
        module = int(count * chance())
        package = module - module % PACKAGE
        if chance() < 1 / 5:
            module = package
        if chance() < 1 / 3:
            return f"{module + 1},{package + 1 + int(chance() * min(PACKAGE, count - package))}"
        return f"{module + 1},{1 + int((module + 1) * chance() ** 4)}"

    write(place("module.csv"), "id:int,name:string", (f"{module},module {module}" for module in range(1, count + 1)))
    write(place("imports.csv"), "from,to", (one() for _ in range(count * 43_219 // 12_000)))
    return ["node Module module.csv", "rel IMPORTS Module Module many_many imports.csv"]


def hubs(count: int, place: Place, _chance: Chance) -> list[str]:
    write(place("place.csv"), "id:int", map(str, range(1, count + 1)))
    chain = range(1, count + 1, SPOKES)
    out = (f"{hub},{spoke}" for hub in chain for spoke in range(hub + 1, min(hub + SPOKES, count + 1)))
    on = (f"{spoke},{hub + SPOKES}" for hub in chain[:-1] for spoke in range(hub + 1, hub + SPOKES, SPOKES // LEADING_ON))
    write(place("leads.csv"), "from,to", itertools.chain(out, on))
    return ["node Place place.csv", "rel LEADS Place Place many_many leads.csv"]


KINDS: dict[str, Callable[[int, Place, Chance], list[str]]] = {
    "social": social,
    "star": star,
    "integer_keys": lambda count, place, chance: keyed(count, place, chance, "int", str),
    "text_keys": lambda count, place, chance: keyed(count, place, chance, "string", lambda number: f"person-{number:08}"),
    "chosen_keys": lambda count, place, chance: keyed(count, place, chance, "int", lambda number: str(number * (4 * count + 1))),
    "imports": imports,
    "hubs": hubs,
}


def make(kind: str, count: int, folder: str, seed: int = 1) -> None:
    """Makes a graph in a folder that is not there yet."""
    os.makedirs(folder)
    lines = KINDS[kind](count, lambda file: os.path.join(folder, file), random.Random(seed).random)
    sizes = [os.path.getsize(os.path.join(folder, line.split()[-1])) for line in lines]
    if max(sizes) > FILE_MOST or sum(sizes) > ALL_MOST:
        raise SystemExit(f"bench/run: {kind}:{count} is past the bounds of what graphq loads")
    write(os.path.join(folder, "g.manifest"), lines[0], lines[1:])
