"""The table of hints: what a refusal of graphq means and what to do, as plain data.

What graphq does not have is said once here, with what may be written in its place where there is something.
"""

from __future__ import annotations

_AGGREGATE = (
    "graphq has no aggregates such as count, sum or collect: return the rows, and how many they are stands below them; "
    "RETURN DISTINCT gives each different one once"
)
_CASE = (
    "graphq has no CASE: coalesce(a, b) gives b in the place of null; else return the columns, and choose in what "
    "reads the rows"
)
_COMMENT = "a comment begins with //, or stands between /* and */"
_LABELS = "a node has all labels of its pattern, as in (n:A:B): for one or the other ask twice"
_LITERALS = "after IN stands a list of literals and parameters, as in [1, $x]; for anything else write a = b OR a = c"
_NAME = "a name that is no plain word stands in backquotes, and in no quotes, as in `my name`"
_NO_LIST = "no value is a list or a map: return several columns"
_NO_PATHS = (
    "paths have no names: name the nodes and relationships that are wanted, as in (a)-[r:TYPE]->(b), and return them"
)
_OPEN = "the {what} that begins here does not end: close it with {mark}, and write {inside} for a {mark} in it"
_PARAM = "write  :param name value;  where the value is an integer, a string, true, false, null or a parameter"
_PARAMETER = "a parameter is written $name, and  :param name value;  gives it its value"
_PLAN = "after :plan and :profile stands a query, as in :plan MATCH (n) RETURN n"
_RELATIONSHIP = "a relationship is written -->, <-- or --, or with brackets, as in -[:TYPE]->"
_SHORTEST = "nothing looks for shortest paths: ask for trails *1, then *2 and so on, until there is a row"
_STARTS = "it is written STARTS WITH and ENDS WITH"
_TRAIL = "a relationship of variable length is written -[:TYPE*1..3]->"
_TRAIL_TYPE = "a trail has exactly one type, as in -[:TYPE*1..3]->: ask once for each type"
_UNBOUNDED = "a trail needs a last number, 16 at most, as in *1..16; with RETURN DISTINCT it gives what can be reached"

# A place that is refused: how the text before it ends, how the text at it begins, and the hint.
Place = tuple[str, str, str]

TYPOGRAPHIC: tuple[Place, ...] = (
    (
        r"",
        r"[\u2018-\u201f\u00ab\u00bb\u2039\u203a\u00b4]",
        "typographic quotes are letters here: write ' or \" around a string",
    ),
    (r"", r"[\u2010-\u2015\u2212\u2190-\u21ff]", "this dash or arrow is a letter here: write -[:TYPE]-> with - and >"),
)

# The places that `Lex` names. The first that fits counts; case does not matter; strings and comments before are blank.
LEX: tuple[Place, ...] = (
    *TYPOGRAPHIC,
    (r"", r"[\udc80-\udcff]", "the byte here is no UTF-8: write the text in UTF-8"),
    (
        r"",
        r"[0-9]+(\.[0-9]|e[0-9+-])",
        "numbers are integers of 64 bits: load the property scaled (graphq-import --scale), and write 150 for 1.50",
    ),
    (r"", r"0[0-9]", "a number has no zero in front of it"),
    (r"", r"[0-9]{19,}", "an integer has 64 bits: from -9223372036854775808 to 9223372036854775807"),
    (r"", r"[0-9]+[^\W0-9]", "a name does not begin with a digit: such a one stands in backquotes"),
    (
        r"",
        r"'([^'\\]|\\.)*'|\"([^\"\\]|\\.)*\"",
        r"a \ in a string begins an escape, such as \n or \': write \\ for the \ itself",
    ),
    (r"", r"'", _OPEN.format(what="string", mark="'", inside=r"\'")),
    (r"", r'"', _OPEN.format(what="string", mark='"', inside=r"\"")),
    (r"", r"`", _OPEN.format(what="name", mark="`", inside="``")),
    (r"", r"/\*", "the comment that begins here does not end: close it with */"),
    (r"", r"#", _COMMENT),
    (r"", r"!=", "not equal is written <>"),
    (r"\([^()]*:[^()]*$", r"[!&]", _LABELS),
    (r"", r"!", "not is written NOT"),
    (r"", r"&", "and is written AND"),
    (r"", r"\^", "graphq has no powers: write n.x * n.x"),
    (r"=\s*$", r"~", "graphq has no regular expressions: there are STARTS WITH, ENDS WITH and CONTAINS"),
    (r"", r"\?", _PARAMETER),
)

# The places that `Syntax` names.
SYNTAX: tuple[Place, ...] = (
    *TYPOGRAPHIC,
    (r"", r"--\s", _COMMENT),
    (r"", r"\|\|", "or is written OR; texts are put together where the rows are read"),
    (r"=\s*$", r"=", "equal is written with one ="),
    # What graphq has none of, by its word.
    (r"\b(count|sum|avg|min|max|collect)\s*\(\s*$", r"\*|DISTINCT\b", _AGGREGATE),
    (r"\bCASE\s*$", r"", _CASE),
    (r"\bCASE\b.*$", r"(WHEN|THEN|ELSE|END)\b", _CASE),
    (
        r"",
        r"WITH\b",
        "graphq has no WITH: put the patterns into one MATCH and the conditions into its WHERE, or ask twice, and give "
        "what the first answer says to the second by :param",
    ),
    (
        r"",
        r"(CREATE|MERGE|SET|DELETE|DETACH|REMOVE|INSERT|UPDATE|DROP|ALTER|FOREACH|COPY)\b",
        "graphq only reads: change the CSV files, and load the graph again",
    ),
    (r"", r"LOAD\b", "graphq loads the files of its manifest as it starts: graphq-import makes one of CSV files"),
    (
        r"",
        r"UNWIND\b",
        "graphq has no UNWIND: for values that are known write WHERE n.x IN [1, 2], else ask once for each, by :param",
    ),
    (r"", r"UNION\b", "graphq has no UNION: ask two queries, or say both in one by OR or -[:A|B]->"),
    (
        r"",
        r"(CALL|YIELD)\b",
        "graphq has no procedures and no subqueries: :schema lists the tables, and exists(..) tests a path",
    ),
    (r"", r"EXPLAIN\b", "write  :plan  before the query, which tells how it is gone through"),
    (r"", r"PROFILE\b", "write  :profile  before the query, which answers it and tells what that took"),
    (r"^\s*$", r"(SHOW|USE|DESCRIBE|DESC)\b", ":schema lists the labels, types and properties of the graph"),
    (
        r"",
        r"(SELECT|FROM|JOIN|GROUP|HAVING)\b",
        "graphq speaks openCypher and no SQL: MATCH (n:Label) WHERE .. RETURN n.name",
    ),
    (r"", r"(shortestPath|allShortestPaths)\b|((ANY|ALL)\s+)?SHORTEST\b", _SHORTEST),
    (r"", r"BETWEEN\b", "graphq has no BETWEEN: write 1 <= n.x <= 9"),
    (r"", r"(NOT\s+)?(LIKE|ILIKE|GLOB|REGEXP)\b", "graphq has no LIKE: there are STARTS WITH, ENDS WITH and CONTAINS"),
    (r"", r"NULLS\b", "null comes last in ascending order and first with DESC, and nothing changes that"),
    (r"", r"USING\b", "there is nothing to choose in a query: --order says how queries are gone through"),
    (r"", r"FILTER\b", "conditions stand in WHERE"),
    (r"", r"LET\b", "graphq has no LET: write the expression out, or give a value by :param"),
    # SKIP and LIMIT.
    (r"", r"OFFSET\b", "rows are left out by SKIP, which stands before LIMIT"),
    (r"\bRETURN\s+TOP\s*$", r"", "LIMIT at the end says how many rows are wanted"),
    (r"\bLIMIT\s+\d+\s*$", r"SKIP\b", "SKIP stands before LIMIT"),
    (r"\b(SKIP|LIMIT)\s*$", r"[^0-9]", "after SKIP and LIMIT stands a number that is written out, and no parameter"),
    # Where statements begin and end.
    (r"^\s*:\s*$", r"", "the statements with a colon are :schema, :plan, :profile and :param"),
    (r"^\s*:\s*schema\b.*$", r"", "nothing stands after :schema"),
    (r"^\s*:\s*(plan|profile)\s*$", r"", _PLAN),
    (r"^\s*:\s*param\s+\S+\s*$", r"[=:]", "write  :param name value;  with no sign between"),
    (r"^\s*:\s*param\b", r"", _PARAM),
    (r"^\s*$", r"RETURN\b", "a query begins with MATCH, as in MATCH (n:Label) RETURN n.name"),
    (r"^\s*$", r".", "a query begins with MATCH; the other statements are :schema, :plan, :profile and :param"),
    (r"\bRETURN\b.*\S\s+$", r"(MATCH|OPTIONAL)\b", "a statement ends with ; and the one before has none"),
    (r"\bOPTIONAL\s+MATCH\b.*$", r"MATCH\b", "a MATCH cannot follow an OPTIONAL MATCH: write all MATCH clauses first"),
    (r"\b(ANY|ALL|NONE|SINGLE)\s*\([^)]*$", r"(WHERE|IN)\b", "no value is a list: write the condition out"),
    (r"\([^()]*$", r"WHERE\b", "WHERE stands after the patterns, outside their parentheses"),
    (r"\bWHERE\b(?!.*\bRETURN\b).*$", r"WHERE\b", "a clause has one WHERE: join the conditions by AND"),
    (r"\bWHERE\b(?!.*\bRETURN\b)[^\[]*$", r",", "conditions are joined by AND"),
    (
        r"\bMATCH\b(?!.*\b(WHERE|RETURN)\b).*\)\s*$",
        r"(AND|OR)\b",
        "patterns stand apart by commas, and conditions in WHERE",
    ),
    (r"\bORDER\s+$", r"", "after ORDER stands BY"),
    (r",\s*$", r"[\])}]|(WHERE|RETURN|ORDER|SKIP|LIMIT|OPTIONAL)\b", "something is missing after the comma"),
    (
        r"(\b(AND|OR|XOR|NOT|WHERE|CONTAINS|WITH|RETURN|DISTINCT|BY)|[=<>+*/%])\s*$",
        r"(RETURN|ORDER|MATCH|OPTIONAL|SKIP|LIMIT|AND|OR|AS)\b(?!\s*[:.])",
        "a condition or a value is missing before this word",
    ),
    # Trails and relationships.
    (r"\bexists\s*\(\s*\(.*\[[^\]]*$", r"\*", "the path in exists(..) has no trail: write out its relationships"),
    (
        r"\[\s*:[^\]*]*\*[^\]]*\]\s*-\s*$",
        r"\(",
        "a trail needs an arrow: write -[:TYPE*1..3]-> or <-[:TYPE*1..3]-; to go both ways load each relationship in "
        "both directions (graphq-import --both)",
    ),
    (r"\*\s*([0-9]+\s*\.\.)?\s*$", r"[\]{]", _UNBOUNDED),
    (r"\[[^\]]*\*[^\]]*$", r"\{", "a trail has no map: nothing but the type is asked of its relationships"),
    (r"\[[^\]]*\*[^\]]*$", r"\$", "the numbers of a trail are written out, and no parameters"),
    (r"\[\s*[^\]\s:]+\s*:[^\]|]*$", r"\*", "a trail has no name: name the nodes at its ends"),
    (r"\[[^\]:]*$", r"\*", _TRAIL_TYPE),
    (r"\[[^\]]*\|[^\]]*$", r"\*", _TRAIL_TYPE),
    (r"(->|--)\s*$", r"[{+*]", _TRAIL),
    (r"\)\s*$", r"\(\s*\(", _TRAIL),
    (r"<-(\[[^\]]*\])?-\s*$", r">", "an arrow has one head; -- without a head asks for both directions"),
    (r"(-->|<--|--)\s*$", r"[-<]", "between two relationships stands a node, as in -->()-->"),
    (r"-\s*\[\s*\w+\s*$", r"\|", "a type stands after a colon, as in -[:A|B]->"),
    (r"-\[[^\]]*\]\s*$", r"", "after the bracket of a relationship stands - or ->, and then a node"),
    # Conditions and columns.
    (r"\bEXISTS\s*$", r"\{", "write exists((a)-[:TYPE]->(b)): one path in round parentheses, without MATCH and WHERE"),
    (r"\bexists\s*\(\s*$", r"[^(]", "exists(..) tests a path; for a property write n.name IS NOT NULL"),
    (
        r"\b(WHERE|AND|OR|XOR|NOT)\b[^\]]*\)\s*<?\s*-\s*-?\s*$",
        r"[\[(>]",
        "a path in a condition stands in exists(..), as in WHERE NOT exists((a)-[:TYPE]->(b))",
    ),
    (r"\bMATCH\s*([^()]*,\s*)?$", r"[^\s=()]+\s*=", _NO_PATHS),
    (r"\)\s*-?\s*$", r"[>(]", _RELATIONSHIP),
    (
        r"\b(WHERE|AND|OR|XOR|NOT|RETURN|BY)\b[^{]*[\w`]\s*$",
        r":",
        "a label stands in the pattern of its node, as in MATCH (n:Label)",
    ),
    (r"\([^()]*:[^()]*$", r"\|", _LABELS),
    (r"\bIN\s*\[[^\]]*$", r"", _LITERALS),
    (r"\bIN\s*$", r"", _LITERALS),
    (r"\bIS\s*(NOT\s*)?$", r"", "after IS stands NULL or NOT NULL"),
    (r"", r"NOT\s+(IN|CONTAINS|STARTS|ENDS)\b", "NOT stands before the whole condition, as in NOT n.name IN ['x']"),
    (r"", r"(STARTS|ENDS)_?WITH\b", _STARTS),
    (r"\b(STARTS|ENDS)\s*$", r"", _STARTS),
    (r"(\bAS|[:.])\s*$", r"['\"]", _NAME),
    (r"\{([^{}]*,)?\s*$", r"['\"]", _NAME),
    (r"\([^()]*:\s*\w+$", r"-", _NAME),
    (
        r"\.\s*$",
        r"\*",
        "properties are returned one by one, as in RETURN n.name, n.age; RETURN n shows the labels and the key",
    ),
    (r"\{[^{}]*\w\s*$", r"=", "in a map stands a colon, as in {name: 'Ann'}"),
    (r"\{[^{}]*:[^{}]*$", r"[^\s}]", "a map holds literals and parameters alone: put the rest into WHERE"),
    (r"(\b(RETURN|DISTINCT|BY|WHERE|AND|OR|NOT)|[,=<>(])\s*$", r"[\[{]", _NO_LIST),
    (r"[\w`]\s*$", r"\[", "a property is written with a dot, as in n.name"),
    (r"[\w`]\s*$", r"\{", _NO_LIST),
    (r"[=<>,(\[]\s*$", r":", _PARAMETER),
    (
        r"\b(RETURN|BY)\b.*[\w)'`\"]\s*$",
        r"(?!(AND|OR|XOR|IN|IS|AS|STARTS|ENDS|CONTAINS|ASC|DESC)\b)[^\W0-9]|['\"`]",
        "a comma is missing between columns, or backquotes around the name of one",
    ),
)

# The calls of other systems, by their names in small letters.
FUNCTIONS: dict[str, str] = {
    **dict.fromkeys(("count", "sum", "avg", "min", "max", "collect", "stdev", "percentilecont"), _AGGREGATE),
    **dict.fromkeys(
        ("id", "elementid"),
        "a node is told by its key, the first property of its table in :schema; RETURN n or r shows it",
    ),
    "labels": "RETURN n shows the labels of n; to ask for one write it in the pattern, as in (n:Label)",
    **dict.fromkeys(
        ("properties", "keys"), ":schema lists the properties of each table; RETURN n.name, n.age has their values"
    ),
    **dict.fromkeys(("nodes", "relationships", "rels", "length"), _NO_PATHS),
    "size": "texts have no length here, and no value is a list; how many rows there are stands below them",
    **dict.fromkeys(("shortestpath", "allshortestpaths"), _SHORTEST),
    "startnode": "name the node where the arrow starts, as in (a)-[r]->(b), and return it",
    "endnode": "name the node where the arrow ends, as in (a)-[r]->(b), and return it",
    **dict.fromkeys(
        ("tolower", "toupper", "lower", "upper", "trim", "ltrim", "rtrim")
        + ("substring", "left", "right", "replace", "split", "reverse"),
        "graphq changes no texts: bring them into one form in the files, or where the rows are read",
    ),
    **dict.fromkeys(
        ("tostring", "tointeger", "toint", "tofloat", "toboolean", "date", "datetime", "duration", "timestamp"),
        "a value stays of its kind: graphq-import makes integers of decimals and of dates",
    ),
    **dict.fromkeys(
        ("abs", "round", "floor", "ceil", "ceiling", "sqrt", "rand", "sign", "exp", "log"),
        "there are + - * / and % over integers, and no functions of numbers",
    ),
    **dict.fromkeys(
        ("all", "any", "none", "single", "reduce", "range", "head", "last", "tail"),
        "no value is a list: write the condition out",
    ),
}

# The other refusals by their names; {name} is the name or the number of the line.
REFUSALS: dict[str, str] = {
    "Depth": "at most 64 parentheses, NOTs and signs may stand inside one another",
    "UnknownParameter": "${name} has no value: give it one before, by  :param {name} value;",
    "TooManyParameters": "a session has at most 256 parameters: give one that is there another value",
    "UnknownVariable": "no pattern has the name {name}",
    "VariableConflict": "{name} names a node in one place and a relationship in another: give one of them another name",
    "RelationshipRepeated": "a relationship stands in one pattern alone: give the second {name} a name of its own",
    "ColumnRepeated": "two columns are called {name}: give one another name by AS",
    "NothingToReturn": "* stands for the names in the patterns, and there are none: name a node, as in MATCH (n)",
    "OrderOutOfScope": "after RETURN DISTINCT only the columns can be sorted by: put sort item {name} among them",
    "AmbiguousOrderName": "{name} is a variable, and by AS another column: call the column something else",
    "UnknownFunction": "the functions are type(r) and coalesce(a, ..), and exists(..) tests a path",
    "ArgumentCount": "type(r) has one argument, and coalesce(a, ..) one or more",
    "TooManyPatterns": "the patterns of a query have at most 24 nodes and 24 relationships: ask two queries",
    "TooManyReads": "conditions and maps read at most 64 different properties: ask two queries",
    "TooManyColumns": "a query returns at most 64 columns: ask two queries, with the key in both",
    "TooManyAlternatives": "there are over 512 ways to give each node and relationship a table: name labels and types",
    "TrailLength": "a trail has 1 to 16 relationships, as in *1..16, and its first number is not greater than its last",
    "TrailWithOptional": "a trail and an OPTIONAL MATCH cannot stand in one query: ask two queries",
    "ExistsPlace": "exists(..) is a condition of its own in the WHERE of a MATCH, joined by AND, and NOT may stand "
    "before it: for OR ask twice",
    "Fault DivideByZero": "something is divided by 0",
    "Fault Overflow": "an integer has more than 64 bits",
    "Fault Kind": "a text or a node stands where an integer has to, or a condition is neither true nor false",
    "TooManyRows": "more than {name} rows would be kept: add LIMIT, or start with a greater --rows (16777216 at most)",
    "Memory": "the statement asks for more work or memory than one may take: name labels and types, add conditions or "
    "LIMIT, or return fewer columns",
}

# Where a statement ends too early: how it ends, and the hint.
ENDS: tuple[tuple[str, str], ...] = (
    (r"\b(SKIP|LIMIT)\s*$", "a number is missing after SKIP or LIMIT"),
    (r"^\s*:\s*(plan|profile)\s*$", _PLAN),
    (r"^\s*:\s*param\b.*$", _PARAM),
    (r"\bMATCH\b(?!.*\bRETURN\b).*$", "a query ends with RETURN and what is wanted, as in RETURN n.name"),
    (r"", "the statement ends too early: something is missing after its last word"),
)
