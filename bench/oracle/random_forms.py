"""Random queries of the forms in which the engine looks ahead: patterns that close, tests at far ends, lists that differ,
parts that a value joins, paths that are not there, and trails whose ends are known, asked for, or listed once."""

from __future__ import annotations

from random import Random

ARROWS = ("-[{}]->", "-[{}]->", "<-[{}]-", "-[{}]-")
TRAILS = ("-[:{}*{}]->", "-[:{}*{}]->", "<-[:{}*{}]-")
TYPES = (":R", ":R", ":R", ":R", ":S", ":R|S", "", "", "")
LENGTHS = ("1..2", "1..3", "..3", "1..4", "2..3", "2..4", "1", "2", "3", "..2", "1..16")
LABELS = ("",) * 12 + (":A", ":A", ":B")
MAPS = ("{{id: {n}}}", "{{id: {n}}}", "{{x: 1}}", "{{x: 2}}", "{{s: 'a'}}", "{{f: true}}", "{{x: null}}")
TESTS = (
    "{v}.x = 1",
    "{v}.x <> 2",
    "{v}.x > 0",
    "1 <= {v}.x < 3",
    "{v}.x IN [1, 3]",
    "{v}.x IS NULL",
    "{v}.id <> 1",
    "{v}.x <= {v}.id",
    "{v}.f",
    "NOT {v}.f",
    "{v}.x = 1 OR {v}.f",
    "{v}.s CONTAINS 'a'",
    "{v}.s CONTAINS 'ab'",
    "NOT {v}.s CONTAINS 'b'",
    "{v}.s ENDS WITH 'b'",
    "{v}.s ENDS WITH 'a'",
    "{v}.s ENDS WITH '\\u00e9'",
    "{v}.s STARTS WITH 'a'",
    "{v}.s CONTAINS ''",
    "NOT {v}.s ENDS WITH 'a' AND {v}.x > 0",
)
EQUALITIES = ("{a}.x = {b}.x", "{a}.x = {b}.x", "{a}.s = {b}.s", "{a}.f = {b}.f", "{a}.id = {b}.x", "{a}.x = {b}.s")
# Walks by the letters of their nodes: two letters beside one another are joined by a relationship.
CLOSINGS = ("abca", "abca", "abc ac", "abcda", "abca adc", "abc adc ac", "abab", "aba", "aa", "abcdea", "abc ad cd")
FAR_WALKS = ("ab", "abc", "abc", "abcd")
STARS = ("ab ac", "ab ac", "abc ad", "ab ac ad", "abc ade", "ba ca")
PARTS = ("ab cd", "ab cd", "a b", "ab c", "abc d", "a b c", "ab cd e")
COLUMNS = ("{v}", "{v}.x", "{v}.x", "{v}.s", "{v}.id", "{v}.f")


class FormWriter:
    """Writes one query; `letters` are the variables that it has so far."""

    def __init__(self, random: Random) -> None:
        self.random = random
        self.letters: list[str] = []
        self.is_distinct = self.chance(0.15)

    def chance(self, probability: float) -> bool:
        """True with this probability."""
        return self.random.random() < probability

    def query(self) -> str:
        """A query of one of the forms."""
        forms = (
            self.closing,
            self.closing,
            self.far,
            self.differing,
            self.joined,
            self.absent,
            self.optional,
            self.between,
            self.asked,
            self.reached,
            self.reached,
        )
        return self.random.choice(forms)() + self.returns()

    # ---- forms

    def closing(self) -> str:
        """A pattern that closes, at times tested at any of its nodes."""
        text = self.clauses(self.random.choice(CLOSINGS))
        return text + self.where(self.random.choice((0, 0, 1, 1, 2)))

    def far(self) -> str:
        """A path with a test at its last node."""
        walk = self.random.choice(FAR_WALKS)
        text = self.clauses(walk)
        tests = [self.test(walk[-1])]
        if self.chance(0.3):
            tests.append(self.test(self.random.choice(walk)))
        return text + " WHERE " + " AND ".join(tests)

    def differing(self) -> str:
        """Lists of one node, whose relationships differ in one clause."""
        return self.clauses(self.random.choice(STARS)) + self.where(self.random.choice((0, 1, 1, 2)))

    def joined(self) -> str:
        """Parts that equal values join."""
        walks = self.random.choice(PARTS)
        text = self.clauses(walks)
        first, second = self.random.sample(walks.split(), 2)
        pairs = [(self.random.choice(first), self.random.choice(second)) for _ in range(self.random.choice((1, 1, 2)))]
        equalities = [self.random.choice(EQUALITIES).format(a=a, b=b) for a, b in pairs]
        if self.chance(0.3):
            equalities.append(self.test(self.random.choice(first + second)))
        self.random.shuffle(equalities)
        return text + " WHERE " + " AND ".join(equalities)

    def absent(self) -> str:
        """A test of a path behind a node, mostly that it is not there."""
        text = self.clauses(self.random.choice(("a", "a", "ab")))
        walk = self.random.choice(("ax", "axy", "axy", "axa", "axya", "axb"))
        path = self.path(walk if "b" in self.letters or "b" not in walk else "ax", are_new=False)
        word = self.random.choice(("NOT exists", "NOT exists", "exists"))
        tests = [f"{word}({path})", *(self.test("a") for _ in range(self.chance(0.3)))]
        self.random.shuffle(tests)
        return text + " WHERE " + " AND ".join(tests)

    def optional(self) -> str:
        """An optional clause, mostly with a test at its far end, and one that may begin there."""
        text = self.clauses(self.random.choice(("a", "a", "ab")))
        for walk in self.random.choice((("ac",), ("acd",), ("acda",), ("ac", "cd"), ("ac", "ad"))):
            text += " OPTIONAL MATCH " + self.path(walk)
            if self.chance(0.6):
                text += " WHERE " + self.test(walk[-1])
        return text

    def between(self) -> str:
        """A trail of which both ends are known when its turn comes."""
        text = self.clauses(self.random.choice(("a b", "a b", "ab", "acb")))
        text += self.random.choice((", ", " MATCH ")) + f"(a){self.trail()}(b)"
        return text + self.where(self.random.choice((0, 0, 1)))

    def asked(self) -> str:
        """A trail to nodes that have labels or a map."""
        text = "MATCH " + self.start() + self.trail() + self.node("b", 0.9)
        if self.chance(0.3):
            text += self.step() + self.node("c", 0.3)
        return text + self.where(self.random.choice((0, 0, 1)))

    def reached(self) -> str:
        """Trails behind one another or beside one another, mostly with DISTINCT."""
        self.is_distinct = self.chance(0.9)
        text = "MATCH " + self.start() + self.trail() + self.node("b", 0.08)
        for letter in "cd"[: self.random.choice((0, 0, 1, 1, 2))]:
            near = self.random.choice(self.letters)
            between = self.trail() if self.chance(0.8) else self.step()
            text += self.random.choice((", ", " MATCH ")) + f"({near}){between}{self.node(letter, 0.08)}"
        return text + self.where(self.random.choice((0, 0, 0, 1)))

    # ---- parts

    def clauses(self, walks: str) -> str:
        """Walks as the paths of one clause, or of several."""
        between = self.random.choice((", ", ", ", " MATCH "))
        return "MATCH " + between.join(self.path(walk) for walk in walks.split())

    def path(self, walk: str, are_new: bool = True) -> str:
        """A walk as a path; nodes that are not met for the first time have their name alone."""
        text = ""
        for place, letter in enumerate(walk):
            text += self.step() if place else ""
            if are_new:
                text += self.node(letter, 0.05)
            else:
                text += f"({letter})" if letter in self.letters else f"({self.label()}{self.map(0.4)})"
        return text

    def node(self, letter: str, probability: float) -> str:
        """A node pattern, which has a map with this probability when it is met first."""
        if letter in self.letters:
            return f"({letter})"
        self.letters.append(letter)
        return f"({letter}{self.label()}{self.map(probability)})"

    def start(self) -> str:
        """The node where trails begin, which a key mostly fixes."""
        self.letters.append("a")
        return f"(a {{id: {self.random.randrange(4)}}})" if self.chance(0.6) else "(a)"

    def label(self) -> str:
        """A label, or none."""
        return self.random.choice(LABELS)

    def map(self, probability: float) -> str:
        """A map, with this probability."""
        if not self.chance(probability):
            return ""
        number = self.random.choice((0, 1, 2, 3, 4, 5, 10))
        return " " + self.random.choice(MAPS).format(n=number)

    def step(self) -> str:
        """A relationship."""
        return self.random.choice(ARROWS).format(self.random.choice(TYPES))

    def trail(self) -> str:
        """A trail."""
        return self.random.choice(TRAILS).format(self.random.choice("RRRRS"), self.random.choice(LENGTHS))

    def test(self, letter: str) -> str:
        """A test of a node."""
        test = self.random.choice(TESTS).format(v=letter)
        return f"({test})" if " OR " in test else test

    def where(self, count: int) -> str:
        """So many tests, of any nodes."""
        tests = [self.test(self.random.choice(self.letters)) for _ in range(count)]
        return " WHERE " + " AND ".join(tests) if tests else ""

    def returns(self) -> str:
        """What is returned, of any nodes."""
        count = self.random.choice((1, 1, 2, 2, 3))
        columns = [self.random.choice(COLUMNS).format(v=self.random.choice(self.letters)) for _ in range(count)]
        text = f" RETURN {'DISTINCT ' * self.is_distinct}" + ", ".join(f"{e} AS c{n}" for n, e in enumerate(columns))
        if self.chance(0.3):
            text += f" ORDER BY c{self.random.randrange(count)}{self.random.choice(('', ' DESC'))}"
        if self.chance(0.1):
            text += f" SKIP {self.random.randint(1, 3)}"
        if self.chance(0.2):
            text += f" LIMIT {self.random.choice((1, 2, 5))}"
        return text
