"""What a query means for a table: its faults in their order, its grouping sets, its headings, and the truth of its
condition over a row."""

from cases.table import lines

# one row, whose ITEM is NULL
SALES = [
    ("table SALES (ID INT KEY, REGION TEXT, ITEM TEXT, UNITS INT)", None),
    ("put 1,b,,5", None),
    ("publish", None),
]
COUNT = "SELECT COUNT(*) FROM SALES"


def block(*rows):
    return "\n".join(("edition 1", *rows))


def counted(number):
    return block("COUNT(*)", str(number))


def reports(rows):
    return SALES + [(f"report {query}", gives) for query, gives in rows]


CHECKED = [
    (COUNT, counted(1)),
    ("SELECT COUNT(*) FROM SALE", 11),
    ("SELECT SUM(X) FROM SALES", 11),
    (f"{COUNT} WHERE X = 1", 11),
    (f"{COUNT} WHERE NOT UNITS BETWEEN 1 AND X", 11),
    (f"{COUNT} GROUP BY ROLLUP(REGION, (ITEM, X))", 11),
    (f"{COUNT} GROUP BY GROUPING SETS ((), X)", 11),
    ("SELECT MIN(REGION), SUM(UNITS) FROM SALES", block("MIN(REGION) | SUM(UNITS)", "'b' | 5")),
    ("SELECT SUM(REGION) FROM SALES", 13),
    (f"{COUNT} WHERE UNITS = 'a'", 13),
    (f"{COUNT} WHERE 1 = 'a'", 13),
    (f"{COUNT} WHERE REGION < ITEM", counted(0)),
    (f"{COUNT} WHERE REGION < UNITS", 13),
    (f"{COUNT} WHERE REGION BETWEEN 'a' AND 1", 13),
    (f"{COUNT} WHERE UNITS IN (1, 'a')", 13),
    (f"{COUNT} WHERE NOT (ID = 1 OR UNITS IS NULL AND 'a' <> ID)", 13),
    ("SELECT REGION FROM SALES", 12),
    ("SELECT GROUPING(REGION) FROM SALES GROUP BY ITEM", 12),
    (
        "SELECT REGION, GROUPING(ITEM) FROM SALES GROUP BY GROUPING SETS (ITEM, ROLLUP(REGION))",
        block("REGION | GROUPING(ITEM)", "NULL | 0", "'b' | 1", "NULL | 1"),
    ),
    (f"{COUNT} GROUP BY CUBE(ID,ID,ID,ID,ID,ID,ID,ID,ID)", 14),
    # GROUPING of several columns, of which each is looked at
    ("SELECT GROUPING(REGION, X) FROM SALES GROUP BY REGION", 11),
    ("SELECT GROUPING(X, REGION) FROM SALES GROUP BY REGION", 11),
    ("SELECT GROUPING(REGION, ITEM) FROM SALES GROUP BY REGION", 12),
    ("SELECT GROUPING(ITEM, REGION) FROM SALES GROUP BY REGION", 12),
    ("SELECT GROUPING(REGION, ITEM) FROM SALES GROUP BY REGION, ITEM", block("GROUPING(REGION, ITEM)", "0")),
    # several faults at once
    ("SELECT SUM(REGION), X FROM SALES", 11),
    ("SELECT REGION, SUM(ITEM) FROM SALES", 13),
    ("SELECT REGION FROM SALES GROUP BY CUBE(ID,ID,ID,ID,ID,ID,ID,ID,ID)", 12),
]

# what gives 256 grouping sets, each with one row of the one row, and what gives more
MOST = block("COUNT(*)", *["1"] * 256)
NUMBERS = [
    ("CUBE(ID" + ",ID" * 7 + ")", MOST),
    ("CUBE(ID" + ",ID" * 8 + ")", 14),
    ("CUBE(ID" + ",ID" * 199 + ")", 14),
    ("ROLLUP(ID" + ",ID" * 254 + ")", MOST),
    ("ROLLUP(ID" + ",ID" * 255 + ")", 14),
    ("GROUPING SETS (ID" + ",ID" * 255 + ")", MOST),
    ("GROUPING SETS (ID" + ",ID" * 256 + ")", 14),
    ("ROLLUP(ID)" + ",ROLLUP(ID)" * 7, MOST),
    ("ROLLUP(ID)" + ",ROLLUP(ID)" * 8, 14),
    # DISTINCT drops none before they are counted
    ("DISTINCT CUBE(ID" + ",ID" * 7 + ")", block("COUNT(*)", "1", "1")),
    ("DISTINCT CUBE(ID" + ",ID" * 8 + ")", 14),
    ("DISTINCT CUBE(ID" + ",ID" * 199 + ")", 14),
    ("DISTINCT GROUPING SETS (ID" + ",ID" * 255 + ")", block("COUNT(*)", "1")),
    ("DISTINCT GROUPING SETS (ID" + ",ID" * 256 + ")", 14),
]


def sets(elements, columns, *rows):
    """The grouping sets of elements, as GROUPING tells them of columns: 0 where the column is in the set."""
    items = [f"GROUPING({column})" for column in columns.split()]
    return f"SELECT {', '.join(items)} FROM SALES GROUP BY {elements}", block(" | ".join(items), *rows)


LISTED = [
    (f"{COUNT} GROUP BY ()", counted(1)),
    sets("CUBE(REGION, ITEM)", "REGION ITEM", "0 | 0", "0 | 1", "1 | 0", "1 | 1"),
    sets("ROLLUP((ITEM, REGION), UNITS)", "REGION ITEM UNITS", "0 | 0 | 0", "0 | 0 | 1", "1 | 1 | 1"),
    sets("ITEM, ROLLUP(REGION)", "REGION ITEM", "0 | 0", "1 | 0"),
    sets("ROLLUP(ITEM), ROLLUP(REGION)", "ITEM REGION", "0 | 0", "0 | 1", "1 | 0", "1 | 1"),
    sets("GROUPING SETS (REGION, ROLLUP(ITEM), ())", "REGION ITEM", "0 | 1", "1 | 0", "1 | 1", "1 | 1"),
    sets("ITEM, ITEM", "ITEM", "0"),
    # with DISTINCT the first of equal sets stays, and sets are equal where their columns are
    sets("ROLLUP(ITEM), ROLLUP(ITEM)", "ITEM", "0", "0", "0", "1"),
    sets("DISTINCT ROLLUP(ITEM), ROLLUP(ITEM)", "ITEM", "0", "1"),
    sets("DISTINCT GROUPING SETS (REGION, ITEM, ROLLUP(REGION))", "REGION ITEM", "0 | 1", "1 | 0", "1 | 1"),
    sets("DISTINCT GROUPING SETS ((ITEM, ITEM), ITEM)", "ITEM", "0"),
    sets("DISTINCT GROUPING SETS ((ITEM, REGION), (REGION, ITEM), ())", "REGION ITEM", "0 | 0", "1 | 1"),
    sets("DISTINCT ITEM, GROUPING SETS (REGION, (ITEM, REGION))", "REGION ITEM", "0 | 0"),
    (f"{COUNT} GROUP BY DISTINCT (), ()", counted(1)),
    # several columns in one GROUPING, the last as the lowest digit
    (
        "SELECT GROUPING(REGION, ITEM), GROUPING(ITEM, REGION), GROUPING(ITEM, REGION, ITEM) FROM SALES GROUP BY CUBE(REGION, ITEM)",
        block(
            "GROUPING(REGION, ITEM) | GROUPING(ITEM, REGION) | GROUPING(ITEM, REGION, ITEM)",
            "0 | 0 | 0",
            "1 | 2 | 5",
            "2 | 1 | 2",
            "3 | 3 | 7",
        ),
    ),
    (
        "SELECT GROUPING(REGION" + ", REGION" * 15 + ") FROM SALES GROUP BY ROLLUP(REGION)",
        block(f"GROUPING({', '.join(['REGION'] * 16)})", "0", "65535"),
    ),
]

HEADINGS = [
    (
        "select region, grouping(region), grouping ( item,region ), count ( * ), count(units), count(distinct item), sum(units), min(item), max(id)"
        " from sales group by region, grouping sets (item)",
        block(
            "REGION | GROUPING(REGION) | GROUPING(ITEM, REGION) | COUNT(*) | COUNT(UNITS) | COUNT(DISTINCT ITEM) | SUM(UNITS) | MIN(ITEM) | MAX(ID)",
            "'b' | 0 | 0 | 1 | 1 | 0 | 5 | NULL | 1",
        ),
    ),
]

# sets up to the most and beyond, of tables without rows: each empty set has a row
NINE = "table W (A INT KEY, B INT, C INT, D INT, E INT, F INT, G INT, H INT, I INT)"
SIXTEEN = "table W (A INT KEY" + "".join(f", {letter} INT" for letter in "BCDEFGHIJKLMNOP") + ")"
NO_ROWS = [
    (NINE, None),
    ("report SELECT COUNT(*) FROM W GROUP BY CUBE(A, B, C, D, E, F, G, H)", "edition 0\nCOUNT(*)\n0"),
    ("report SELECT COUNT(*) FROM W GROUP BY CUBE(A, B, C, D, E, F, G, H, I)", 14),
    ("report SELECT COUNT(*) FROM W GROUP BY ROLLUP(A" + ", A" * 254 + ")", "edition 0\nCOUNT(*)\n0"),
    ("report SELECT COUNT(*) FROM W GROUP BY ROLLUP(A" + ", A" * 255 + ")", 14),
]
MANY = [(SIXTEEN, None), ("report SELECT COUNT(*) FROM W GROUP BY CUBE(A" + ", A" * 199 + ")", 14)]
# the same of nine columns, with DISTINCT and without
TWO_HUNDRED = [
    lines(
        f"{distinct or 'a '}CUBE of a column two hundred times",
        [(NINE, None), (f"report SELECT COUNT(*) FROM W GROUP BY {distinct}CUBE(A{', A' * 199})", 14)],
    )
    for distinct in ("", "DISTINCT ")
]
# 200 sets of four columns, all of them equal, over one row
FOUR = "table W (A INT KEY, B INT, C INT, D INT)"
EQUAL_SETS = f"GROUPING SETS ((A, B, C, D){', (D, C, B, A)' * 199})"
FOURS = [
    (FOUR, None),
    ("put 1,2,,4", None),
    ("publish", None),
    (f"report SELECT A, D, C, COUNT(*) FROM W GROUP BY {EQUAL_SETS}", block("A | D | C | COUNT(*)", *["1 | 4 | NULL | 1"] * 200)),
    (f"report SELECT A, D, C, COUNT(*) FROM W GROUP BY DISTINCT {EQUAL_SETS}", block("A | D | C | COUNT(*)", "1 | 4 | NULL | 1")),
]

# by the number of rows for which the condition is true, and for which its NOT is
TRUE, FALSE, UNKNOWN = (1, 0), (0, 1), (0, 0)
TRUTHS = [
    ("UNITS = 5", TRUE),
    ("UNITS <> 5", FALSE),
    ("REGION < 'ba' AND REGION > 'a'", TRUE),
    ("ITEM = 'a'", UNKNOWN),
    ("ITEM = ITEM", UNKNOWN),
    ("ITEM IS NULL", TRUE),
    ("UNITS IS NOT NULL", TRUE),
    ("NOT ITEM > 'a'", UNKNOWN),
    ("ITEM = 'a' OR UNITS >= 5", TRUE),
    ("ITEM = 'a' AND UNITS > 5", FALSE),
    ("UNITS BETWEEN 5 AND 5", TRUE),
    ("UNITS NOT BETWEEN 1 AND 5", FALSE),
    ("UNITS IN (1, 5)", TRUE),
    ("ITEM NOT IN ('a', 'b')", UNKNOWN),
]


def truths():
    for condition, (true, false) in TRUTHS:
        yield f"{COUNT} WHERE {condition}", counted(true)
        yield f"{COUNT} WHERE NOT ({condition})", counted(false)


CASES = [
    lines("faults in their order", reports(CHECKED)),
    lines("numbers of grouping sets", reports((f"{COUNT} GROUP BY {elements}", gives) for elements, gives in NUMBERS)),
    lines("grouping sets of no rows", NO_ROWS),
    lines("a CUBE of two hundred columns", MANY),
    *TWO_HUNDRED,
    lines("two hundred sets of four columns", FOURS),
    lines("grouping sets", reports(LISTED)),
    lines("headings", reports(HEADINGS)),
    lines("three truths", reports(truths())),
]
