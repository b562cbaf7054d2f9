"""How a text is read into tokens: by the rest of a `report`, of a `delete` and of a `table` line."""

from cases.table import lines

INTEGERS = ("table T (K INT KEY)", None)
TEXTS = ("table T (K TEXT KEY)", None)
DEEP = " " + "(" * 65
GREATEST = "9223372036854775807"

SPELT = [
    "",
    " \t\r",
    "(),*=<><=>=<>",
    "< > < = >=<",
    "<<>>==<=>",
    "select_1 _x Zz9",
    "a-5",
    "5-5",
    "5*(7)",
    "007 -007 -0 0",
    "9223372036854775807",
    "-9223372036854775808",
    "0000000000000000000000000000009223372036854775807",
    "'a''b'",
    "''",
    "''''",
    "'a' 'b'",
    "'é,(' x",
    "a'b'1",
]

BAD = [
    "12a",
    "12_",
    "1é",
    "- 5",
    "--5",
    "-",
    "5-",
    "-a",
    "+5",
    "9223372036854775808",
    "-9223372036854775809",
    "'a",
    "'",
    "'a''",
    "'''",
    "a;b",
    "a.b",
    '"a"',
    "é",
    "a é",
    "\v",
    "\0",
]


def deep():
    """A text that spells tokens before 65 open parentheses is refused for these (15), and another as no list of
    tokens (10), since that is looked for first."""
    yield INTEGERS
    for text in SPELT:
        yield f"report {text}{DEEP}", 15
    for text in BAD:
        yield f"report {text}{DEEP}", 10


def keys(table, put, literal, left):
    """Whether a `delete` of the literal takes out the key that was put."""
    return [
        table,
        (f"put {put}", None),
        (f"delete {literal}", None),
        ("publish", None),
        ("report SELECT COUNT(*) FROM T", f"edition 1\nCOUNT(*)\n{left}"),
    ]


NUMBERS = [
    ("7", "007"),
    ("-7", "-007"),
    ("0", "-0"),
    ("0", "0"),
    (GREATEST, GREATEST),
    ("-9223372036854775808", "-9223372036854775808"),
    (GREATEST, "0" * 30 + GREATEST),
    ("7", "\t7 \r "),
]

LITERALS = [
    ("a'b", "'a''b'"),
    ("'", "''''"),
    ('"é,("', "'é,('"),
    ("SELECT", "'SELECT'"),
    ("select", " 'select'\t"),
    ("x" * 1024, "'" + "x" * 1024 + "'"),
    ("'" * 1024, "'" + "''" * 1024 + "'"),
]


def compared(test, answer):
    """A test in WHERE, of a row whose K is 5."""
    gives = answer if answer == 10 else f"edition 1\nCOUNT(*)\n{answer}"
    return f"report SELECT COUNT(*) FROM T WHERE {test}", gives


JOINED = [
    INTEGERS,
    ("put 5", None),
    ("publish", None),
    compared("K<=5", 1),
    compared("K< =5", 10),
    compared("K>=-5", 1),
    compared("K> =5", 10),
    compared("K<>5", 0),
    compared("K< >5", 10),
    compared("-5<K", 1),
    compared("K=-5", 0),
    compared("K=- 5", 10),
    compared("K=5AND K=5", 10),
    compared("K=5 AND(K)=5", 10),
    compared("'a'='a'AND K=5", 1),
    compared("'a'='A'", 0),
    compared("'a' 'b'='a'", 10),
    compared("'a''b'='a''b'", 1),
    compared("K IN(4,5,-5)", 1),
    compared("K IN(4 5)", 10),
    ("report\tSELECT COUNT(*) FROM T", 3),
    ("report select\tcount\r(*)from t", "edition 1\nCOUNT(*)\n1"),
]

REFUSED = [
    INTEGERS,
    ("delete 7 7", 8),
    ("delete 'a'", 8),
    ("delete a", 8),
    ("delete '" + "x" * 1025 + "'", 8),
    *[(f"delete {text}", 8) for text in BAD],
]

REFUSED_TEXTS = [
    TEXTS,
    ("delete '" + "x" * 1024 + "'", None),
    ("delete '" + "x" * 1025 + "'", 8),
    ("delete '" + "''" * 1025 + "'", 8),
    ("report SELECT COUNT(*) FROM T WHERE K='" + "x" * 1024 + "'", "edition 0\nCOUNT(*)\n0"),
    ("report SELECT COUNT(*) FROM T WHERE K='" + "x" * 1025 + "'", 10),
    ("delete 7", 8),
    ("delete ''", None),
    ("delete 'a'b", 8),
    ("delete 1a", 8),
    ("delete", 8),
]

MANY = [
    ("table " + "(" * 100_001, 4),
    ("table " + ", " * 100_001, 4),
    ("table 1a", 4),
    INTEGERS,
    ("delete " + "(" * 100_001, 8),
    ("delete " + ", " * 100_001, 8),
]

CASES = [
    lines("tokens, or none", list(deep())),
    *[lines(f"the number {text}", keys(INTEGERS, put, text, 0)) for put, text in NUMBERS],
    *[lines(f"the text {text[:20]}", keys(TEXTS, put, text, 0)) for put, text in LITERALS],
    lines("another case", keys(TEXTS, "select", "'SELECT'", 1)),
    lines("tokens side by side", JOINED),
    lines("a delete that is refused", REFUSED),
    lines("texts that are too long", REFUSED_TEXTS),
    lines("many tokens", MANY),
]
