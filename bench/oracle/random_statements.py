"""Random statements: queries of all kinds, some that are refused, and broken texts."""

from __future__ import annotations

import re
from random import Random

from .random_forms import FormWriter

ARROWS = ("-{}->", "-{}->", "<-{}-", "-{}-")
LABELS = ("",) * 12 + (":A", ":A", ":A", ":B", ":C", ":A:C")
TYPES = ("",) * 8 + (":R", ":R", ":S", ":R|S|:T", ":T")
LENGTHS = ("1", "2", "1..2", "..2", "1..3", "1..3", "..3", "2..3", "3", "1..4", "2..4", "4")
LONG_LENGTHS = ("1..16", "3..16", "5..16", "16")
BAD_LENGTHS = ("0", "0..2", "1..17", "3..2", "..0", "17..17")
LITERALS = ("0", "1", "2", "3", "10", "11", "-1", "0x1F", "'a'", "'ab'", "'\\u00e9'", '"it\'s"')
CONSTANTS = ("true", "false", "null", "NULL", "True")
GREAT_LITERALS = ("9223372036854775807", "-9223372036854775808", "4611686018427387904")
KEYS = ("id", "x", "x", "x", "s", "f", "y", "none", "`x`")
COMPARISONS = ("=", "<>", "<", "<=", ">", ">=")
MILD_CONDITIONS = (
    "{a} <> {b}",
    "{a}.id <= {b}.id",
    "{a}.x IS NOT NULL",
    "{a}.id > 0",
    "10 / ({a}.id - {b}.id) < 4",
    "{a}.x + {b}.x > 0",
    "{a}.id % 2 = 0",
    "{a}.x / {b}.x < 3",
    "NOT {a}.f",
    "{a}.f",
    "{a}.x",
    "{a} = {b}",
    "1 / 0 = 1",
    "{a}.s >= {b}.s",
)
TOKENS = re.compile(r"`[^`]*`|'[^']*'|\"[^\"]*\"|<>|<=|>=|\.\.|\w+|\S")
STRAY = "( ) [ ] { } , : . .. | - + * / % < > = <> $ $p 1 00 1.5 2x x 'a' 'a `x` é ; NOT".split()
PARAMETERS = ("p", "q")


class Writer:
    """Writes one statement; `trails` and `optionals` say how many of each it may have."""

    def __init__(self, random: Random) -> None:
        self.random = random
        self.nodes: list[str] = []
        self.relationships: list[str] = []
        self.has_trails = random.random() < 0.35
        self.trails = random.choice((1, 1, 1, 2, 2, 3)) if self.has_trails else 0
        with_optionals = random.random() < (0.04 if self.has_trails else 0.5)
        self.optionals = random.choice((1, 1, 1, 2, 3)) if with_optionals else 0
        self.is_mild = random.random() < 0.6

    def chance(self, probability: float) -> bool:
        """True with this probability."""
        return self.random.random() < probability

    # ---- statements

    def statement(self) -> str:
        """A statement."""
        kind = self.random.random()
        if kind < 0.01:
            return ":schema"
        if kind < 0.05:
            return f":param {self.random.choice(PARAMETERS)} {self.literal()}"
        text = FormWriter(self.random).query() if self.chance(0.4) else self.query()
        if kind < 0.12:
            return self.broken(text)
        if kind < 0.14:
            return self.nested()
        if kind < 0.2:
            text = self.respelled(text)
        return self.random.choice(("", "", "", "", ":profile ", ":plan ")) + text

    def broken(self, text: str) -> str:
        """A statement of which one token is gone, doubled, in another place, or another one."""
        tokens = TOKENS.findall(text)
        at = self.random.randrange(len(tokens))
        stray = self.random.choice(STRAY)
        match self.random.randrange(5):
            case 0:
                tokens[at : at + 1] = []
            case 1:
                tokens[at : at + 1] = [tokens[at], tokens[at]]
            case 2:
                tokens[at : at + 2] = reversed(tokens[at : at + 2])
            case 3:
                tokens[at] = stray
            case _:
                tokens[at:] = [] if self.chance(0.5) else [stray]
        return " ".join(tokens)

    def nested(self) -> str:
        """A query with a condition deep inside parentheses, calls and NOTs."""
        depth = self.random.randint(61, 66)
        opened = [self.random.choice(("(", "(", "NOT ", "coalesce(")) for _ in range(depth)]
        closed = "".join(")" for piece in opened if piece.endswith("("))
        return f"MATCH () WHERE {''.join(opened)}true{closed} RETURN 1"

    def respelled(self, text: str) -> str:
        """A query with other white space, with comments and with words in another case."""
        between = (" ", " ", "\n", "\t", " /* ; */ ", " // é\n", "\u00a0")
        tokens = [
            token.swapcase() if token.isupper() and len(token) > 1 else token
            for token in TOKENS.findall(text)
        ]
        return "".join(token + self.random.choice(between) for token in tokens)

    def query(self) -> str:
        """A query."""
        clauses = [self.clause(False) for _ in range(self.random.choice((1, 1, 1, 2)))]
        clauses += [self.clause(True) for _ in range(self.optionals)]
        is_distinct = self.chance(0.5 if self.has_trails else 0.2)
        columns = self.columns()
        text = f"{' '.join(clauses)} RETURN {'DISTINCT ' * is_distinct}{', '.join(columns)}"
        if self.chance(0.35):
            keys = [self.sort_item(columns, is_distinct) for _ in range(self.random.randint(1, 2))]
            text += f" ORDER BY {', '.join(keys)}"
        if self.chance(0.15):
            text += f" SKIP {self.random.randint(0, 4)}"
        if self.chance(0.25):
            text += f" LIMIT {self.random.choice((0, 1, 2, 3, 5, 50))}"
        return text

    def columns(self) -> list[str]:
        """The items of RETURN."""
        variables = self.variables()
        if self.chance(0.25 if variables else 0.02):
            return ["*"] if self.chance(0.8) else ["*", f"{self.value(1)} AS c0"]
        found = []
        for number in range(self.random.randint(1, 4)):
            text = self.variable() if variables and self.chance(0.4) else self.value(1)
            if self.chance(0.02):
                text = self.condition(1)
            elif self.chance(0.01):
                text = self.path_test() or text
            name = f"c{number}"
            if self.chance(0.04) and variables:
                name = self.variable()
            found.append(text if self.chance(0.15) else f"{text} AS {name}")
        return found

    def sort_item(self, columns: list[str], is_distinct: bool) -> str:
        """An item of ORDER BY, which with DISTINCT is mostly made of columns."""
        text = self.value(1)
        if self.chance(0.85 if is_distinct else 0.3):
            text, _, name = self.random.choice(columns).rpartition(" AS ")
            text = self.random.choice((name, text or name, name, f"({name})", f"-{name}"))
            text = self.variable() if "*" in text else text
        return text + self.random.choice(("", "", " ASC", " DESC", " DESCENDING"))

    # ---- patterns

    def clause(self, is_optional: bool) -> str:
        """A clause with its condition."""
        is_short = self.optionals > 0 and not is_optional and self.chance(0.8)
        paths = [self.path(is_short) for _ in range(self.random.choice((1, 1, 1, 2)))]
        conditions = []
        if self.chance(0.45 if is_optional else 0.3):
            is_mild = self.is_mild or self.chance(0.2)
            conditions.append(self.mild_condition() if is_mild else self.condition())
        if self.chance(0.01 if is_optional else 0.15):
            conditions.append(self.path_test() or "true")
        text = ("OPTIONAL MATCH " if is_optional else "MATCH ") + ", ".join(paths)
        if conditions:
            self.random.shuffle(conditions)
            text += " WHERE " + " AND ".join(map(self.enclosed, conditions))
        return text

    def enclosed(self, condition: str) -> str:
        """A condition inside parentheses, where it needs them, and at times where not."""
        is_loose = any(f" {word} " in condition for word in ("OR", "XOR"))
        return f"({condition})" if self.chance(0.97 if is_loose else 0.4) else condition

    def path(self, is_short: bool) -> str:
        """A path."""
        lengths = (0, 0, 0, 1) if is_short else (0, 1, 1, 1, 2)
        if self.trails and not is_short:
            lengths = (1, 1, 1, 2, 2, 3)
        text = self.node()
        for _ in range(self.random.choice(lengths)):
            text += self.relationship() + self.node()
        return text

    def node(self) -> str:
        """A node pattern, with a new name, with one that is there, or with none."""
        name = ""
        if self.nodes and self.chance(0.2):
            name = self.random.choice(self.nodes)
        elif self.chance(0.85):
            name = f"n{len(self.nodes)}"
            self.nodes.append(name)
        if self.relationships and self.chance(0.005):
            name = self.random.choice(self.relationships)
        if self.is_mild and self.chance(0.8):
            return f"({name})"
        label = ":Z" if self.chance(0.01) else self.random.choice(LABELS)
        return f"({name}{label}{self.map(('x', 'id', 's', 'f'))})"

    def map(self, keys: tuple[str, ...]) -> str:
        """A map, now and then."""
        if not self.chance(0.07):
            return ""
        if self.chance(0.2):
            return " {}"
        key = self.random.choice(keys)
        literal = self.random.choice(("0", "1", "10", "11")) if key == "id" else self.literal()
        return f" {{{key}: {literal}}}"

    def relationship(self) -> str:
        """A relationship pattern or a trail."""
        if self.trails and self.chance(0.6):
            return self.trail()
        name = ""
        if self.chance(0.35):
            name = f"r{len(self.relationships)}"
            self.relationships.append(name)
            if self.chance(0.01):
                name = self.random.choice(self.relationships)
        detail = name + (":Z" if self.chance(0.01) else self.random.choice(TYPES))
        detail += self.map(("y",)) if self.chance(0.5) else ""
        has_brackets = detail or self.chance(0.3)
        return self.random.choice(ARROWS).format(f"[{detail}]" if has_brackets else "")

    def trail(self) -> str:
        """A trail."""
        self.trails -= 1
        length = self.random.choice(LENGTHS)
        if self.chance(0.06):
            length = self.random.choice(BAD_LENGTHS if self.chance(0.2) else LONG_LENGTHS)
        arrow = self.random.choice(("-{}->", "-{}->", "<-{}-"))
        return arrow.format(f"[:{self.random.choice(('R', 'R', 'R', 'S'))}*{length}]")

    def path_test(self) -> str | None:
        """An EXISTS, where there is a variable that it can share."""
        if not self.nodes:
            return None
        text = self.path_node()
        for _ in range(self.random.choice((0, 1, 1, 2))):
            kind = self.random.choice(("", "[:R]", "[:S]", "[:R|T]"))
            if self.relationships and self.chance(0.005):
                kind = f"[{self.random.choice(self.relationships)}]"
            text += self.random.choice(ARROWS).format(kind) + self.path_node()
        text = f"exists({text})"
        if self.chance(0.04):
            text += self.random.choice((" OR true", " = true", " IS NULL"))
        return self.random.choice(("", "NOT ", "NOT NOT ")) + text

    def path_node(self) -> str:
        """A node pattern in the path of an EXISTS."""
        name = self.random.choice([*self.nodes, "", "nobody" if self.chance(0.02) else ""])
        label = self.random.choice(("", "", "", "", ":A", ":B"))
        return f"({name}{label}{self.map(('x', 's'))})"

    # ---- expressions

    def variables(self) -> list[str]:
        """The names so far."""
        return self.nodes + self.relationships

    def variable(self) -> str:
        """A name, of which a few are no variables."""
        if self.chance(0.005):
            return "nobody"
        return self.random.choice(self.variables() or ["nobody"])

    def literal(self) -> str:
        """A literal or a parameter."""
        if self.chance(0.05):
            return f"${self.random.choice(PARAMETERS)}"
        if self.chance(0.02):
            return self.random.choice(GREAT_LITERALS)
        return self.random.choice(LITERALS if self.chance(0.8) else CONSTANTS)

    def value(self, depth: int = 2) -> str:
        """An expression that mostly has a value of any kind."""
        kind = self.random.random()
        if not self.variables() or kind < 0.15:
            return self.literal()
        if kind < 0.6:
            return f"{self.variable()}.{self.random.choice(KEYS)}"
        if kind < 0.7:
            return self.variable()
        if depth and kind < 0.83:
            operator = self.random.choice(("+", "-", "*", "/", "%"))
            sum_text = f"{self.value(depth - 1)} {operator} {self.value(depth - 1)}"
            return sum_text if self.chance(0.3) else f"({sum_text})"
        if depth and kind < 0.85:
            return f"{self.random.choice(('-', '+', '- -'))}{self.value(depth - 1)}"
        if depth and kind < 0.92:
            return self.call(depth)
        if self.relationships and kind < 0.97:
            return f"type({self.random.choice(self.relationships)})"
        return f"({self.condition(1)})" if depth else self.literal()

    def call(self, depth: int) -> str:
        """A call, which is seldom wrong."""
        if self.chance(0.03):
            return self.random.choice(("size(1)", "coalesce()", "type(1, 2)", "Type(null)"))
        name = self.random.choice(("coalesce", "coalesce", "COALESCE", "`coalesce`"))
        return f"{name}({self.value(depth - 1)}, {self.value(depth - 1)})"

    def condition(self, depth: int = 2) -> str:
        """An expression that mostly is a truth."""
        kind = self.random.random()
        if depth and kind < 0.25:
            operator = self.random.choice(("AND", "AND", "OR", "XOR"))
            return f"{self.condition(depth - 1)} {operator} {self.condition(depth - 1)}"
        if depth and kind < 0.32:
            return f"NOT {self.condition(depth - 1)}"
        if depth and kind < 0.4:
            return f"({self.condition(depth - 1)})"
        if kind < 0.64:
            return f"{self.value(1)} {self.test()}"
        if kind < 0.66:
            return self.value(1)
        chain = [self.value(1), self.random.choice(COMPARISONS), self.value(1)]
        if self.chance(0.05):
            chain += [self.random.choice(COMPARISONS), self.value(1)]
        return " ".join(chain)

    def test(self) -> str:
        """A test behind an operand."""
        kind = self.random.random()
        if kind < 0.4:
            return self.random.choice(("IS NULL", "IS NOT NULL"))
        if kind < 0.7:
            return f"IN [{', '.join(self.literal() for _ in range(self.random.randint(0, 3)))}]"
        operator = self.random.choice(("STARTS WITH", "ENDS WITH", "CONTAINS"))
        return f"{operator} {self.value(1)}"

    def mild_condition(self) -> str:
        """A condition that often holds."""
        if not self.nodes:
            return "true"
        ends = {name: self.random.choice(self.nodes) for name in "ab"}
        return self.random.choice(MILD_CONDITIONS).format(**ends)
