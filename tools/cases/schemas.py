"""Texts that spell a table, and others."""

from cases.table import lines


def spelt(text, puts, query, *rows):
    """The text of a table, two records of one key, and a report of the row that the later one leaves."""
    block = "\n".join(("edition 1", *rows))
    put = [(f"put {record}", None) for record in puts]
    return lines(f"the table {text[:40]}", [(f"table {text}", None), *put, ("publish", None), (f"report {query}", block)])


MOST = ", ".join(f"C{number} INT" for number in range(2, 17))
SIXTEEN = f"T (C1 INT KEY, {MOST})"
NAMES = ", ".join(f"C{number}" for number in range(1, 17))
HEADING = NAMES.replace(", ", " | ")

SPELT = [
    spelt("T (K INT KEY)", ["1", "1"], "SELECT K FROM T GROUP BY K", "K", "1"),
    spelt("t(k int key)", ["1", "1"], "SELECT K FROM T GROUP BY K", "K", "1"),
    spelt(
        "SALES (ID INT KEY, REGION TEXT, ITEM TEXT, UNITS INT)",
        ["1,north,ink,5", "1,north,pen,10"],
        "SELECT ID, REGION, ITEM, SUM(UNITS) FROM SALES GROUP BY ID, REGION, ITEM",
        "ID | REGION | ITEM | SUM(UNITS)",
        "1 | 'north' | 'pen' | 10",
    ),
    spelt(
        "T (A INT, B TEXT KEY, C INT)",
        ["1,2,3", "4,2,6"],
        "SELECT SUM(A), MIN(B), SUM(C) FROM T",
        "SUM(A) | MIN(B) | SUM(C)",
        "4 | '2' | 6",
    ),
    spelt("T (T TEXT KEY)", ["1", "1"], "SELECT T FROM T GROUP BY T", "T", "'1'"),
    spelt(" T\t(\rK   INT KEY ) ", ["1", "1"], "SELECT K FROM T GROUP BY K", "K", "1"),
    spelt("_ (_1 INT KEY, INT_ TEXT)", ["1,a", "1,b"], "SELECT _1, MAX(INT_) FROM _ GROUP BY _1", "_1 | MAX(INT_)", "1 | 'b'"),
    spelt("TABLE (PUT INT KEY)", ["1", "1"], "SELECT PUT FROM TABLE GROUP BY PUT", "PUT", "1"),
    spelt("T (C1 INT KEY)", ["1", "1"], "SELECT C1 FROM T GROUP BY C1", "C1", "1"),
    spelt(
        SIXTEEN,
        ["1" + ",0" * 15, "1" + ",2" * 15],
        f"SELECT {NAMES} FROM T GROUP BY {NAMES}",
        HEADING,
        "1" + " | 2" * 15,
    ),
]

BAD = [
    "",
    "T",
    "T ()",
    "T (K INT)",
    "T (K INT KEY",
    "T K INT KEY)",
    "(K INT KEY)",
    "T (K KEY)",
    "T (INT KEY)",
    "T (K INT KEY,)",
    "T (,K INT KEY)",
    "T (K INT KEY A INT)",
    "T (K INT KEY KEY)",
    "T (K KEY INT)",
    "T (K INT KEY) X",
    "T (K INT KEY))",
    "T (K INT KEY);",
    "T (K FLOAT KEY)",
    "T (K INT KEY, L INT KEY)",
    "T (K INT KEY, K TEXT)",
    "T (K INT KEY, k INT)",
    "KEY (K INT KEY)",
    "T (KEY INT KEY)",
    "T (SELECT INT KEY)",
    "'T' (K INT KEY)",
    "T (1 INT KEY)",
    "T (K 'INT' KEY)",
    f"T (C1 INT KEY, {MOST}, C17 INT)",
]

RESERVED = """SELECT FROM WHERE GROUP BY HAVING ROLLUP CUBE GROUPING SETS COUNT SUM MIN MAX DISTINCT AND OR NOT IS NULL
BETWEEN IN INT TEXT KEY""".split()

REFUSED = [
    ("table", 4),
    *[(f"table {text}", 4) for text in BAD],
    *[(f"table {word} (K INT KEY)", 4) for word in RESERVED],
    *[(f"table {word.lower()} (K INT KEY)", 4) for word in RESERVED],
    *[(f"table T ({word} INT KEY)", 4) for word in RESERVED],
    ("publish", 1),
]

CASES = [*SPELT, lines("texts that spell no table", REFUSED)]
