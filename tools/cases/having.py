"""HAVING: which groups stay, for any number of workers; its faults and its limits."""

import re

from cases.table import block, lines, lines_by

SALES_PART = "ID,REGION,ITEM,UNITS\n1,north,pen,10\n2,north,ink,\n3,,pen,5\n4,south,pen,-2\n"

# The lines before a report.
SALES = ["table SALES (ID INT KEY, REGION TEXT, ITEM TEXT, UNITS INT)", "load 1", "publish"]
NO_SALES = ["table SALES (ID INT KEY, REGION TEXT, ITEM TEXT, UNITS INT)"]
GREAT = [
    "table T (K INT KEY, V INT)",
    "put 1,9223372036854775807",
    "put 2,9223372036854775807",
    "put 3,9223372036854775807",
    "publish",
]
LEAST = [
    "table T (K INT KEY, V INT)",
    "put 1,-9223372036854775808",
    "put 2,-9223372036854775808",
    "publish",
]
WORKERS = [("--workers", workers, "--depth", "13") for workers in ("1", "2", "7")]

SUMS = "SELECT REGION, SUM(UNITS) FROM SALES GROUP BY ROLLUP(REGION)"
COUNT = "SELECT COUNT(*) FROM SALES"
COUNTS = "SELECT REGION, COUNT(*) FROM SALES GROUP BY ROLLUP(REGION)"


def reports(query, rows, edition=1):
    """Conditions behind a query, each with the rows that it leaves below the query's header."""
    # a comma within parentheses stands between the columns of a GROUPING
    header = re.sub(r", (?![^(]*\))", " | ", query[len("SELECT ") : query.index(" FROM")])
    return [(f"report {query} HAVING {having}", block(edition, header, *left)) for having, left in rows]


LEFT = [
    *reports(
        SUMS,
        [
            ("SUM(UNITS) > 0 AND COUNT(*) < 4", ["NULL | 5", "'north' | 10"]),
            # a subtotal's NULL is one, too
            ("REGION IS NULL", ["NULL | 5", "NULL | 13"]),
            ("REGION IS NULL AND GROUPING(REGION) = 0", ["NULL | 5"]),
            ("NOT REGION IS NULL", ["'north' | 10", "'south' | -2"]),
            ("GROUPING(REGION) = 1", ["NULL | 13"]),
            ("REGION = 'north' OR SUM(UNITS) = 13", ["'north' | 10", "NULL | 13"]),
            ("REGION <> 'north'", ["'south' | -2"]),
            # the values of the group, and not those of its rows
            ("MAX(UNITS) >= 10", ["'north' | 10", "NULL | 13"]),
            ("MIN(UNITS) < 0", ["'south' | -2", "NULL | 13"]),
            ("MIN(ITEM) = 'ink' AND MAX(ITEM) = 'pen'", ["'north' | 10", "NULL | 13"]),
            ("COUNT(UNITS) < COUNT(*)", ["'north' | 10", "NULL | 13"]),
            ("COUNT(DISTINCT ITEM) = 2", ["'north' | 10", "NULL | 13"]),
            ("MAX(UNITS) = SUM(UNITS)", ["NULL | 5", "'north' | 10", "'south' | -2"]),
            ("SUM(UNITS) BETWEEN -2 AND MAX(UNITS)", ["NULL | 5", "'north' | 10", "'south' | -2"]),
            ("SUM(UNITS) NOT BETWEEN 0 AND 10", ["'south' | -2", "NULL | 13"]),
            ("COUNT(*) IN (2, 4)", ["'north' | 10", "NULL | 13"]),
            ("REGION NOT IN ('north')", ["'south' | -2"]),
            ("5 = SUM(UNITS)", ["NULL | 5"]),
            ("1 = 1", ["NULL | 5", "'north' | 10", "'south' | -2", "NULL | 13"]),
            ("1 = 2", []),
        ],
    ),
    # ink has no sum
    *reports(
        "SELECT ITEM FROM SALES GROUP BY ITEM",
        [
            ("SUM(UNITS) > 0", ["'pen'"]),
            ("NOT SUM(UNITS) > 0", []),
            ("SUM(UNITS) IS NULL", ["'ink'"]),
            ("SUM(UNITS) > 0 OR SUM(UNITS) IS NULL", ["'ink'", "'pen'"]),
            ("SUM(UNITS) <> 7 OR COUNT(*) = 1", ["'ink'", "'pen'"]),
        ],
    ),
    # each grouping set has its own values
    *reports(
        "SELECT REGION, ITEM, GROUPING(REGION, ITEM) FROM SALES GROUP BY CUBE(REGION, ITEM)",
        [
            (
                "SUM(UNITS) = 13 OR GROUPING(REGION, ITEM) = 1",
                ["NULL | NULL | 1", "'north' | NULL | 1", "'south' | NULL | 1", "NULL | 'pen' | 2", "NULL | NULL | 3"],
            ),
            ("COUNT(*) = 3", ["NULL | 'pen' | 2"]),
            ("ITEM = 'ink'", ["'north' | 'ink' | 0", "NULL | 'ink' | 2"]),
        ],
    ),
    *reports(
        "SELECT REGION FROM SALES GROUP BY GROUPING SETS (REGION, REGION)",
        [("COUNT(*) > 1", ["'north'", "'north'"])],
    ),
    *reports(
        "SELECT REGION FROM SALES GROUP BY DISTINCT GROUPING SETS (REGION, REGION)",
        [("COUNT(*) > 1", ["'north'"])],
    ),
    # nothing of HAVING is in the select list
    *reports("SELECT COUNT(*) FROM SALES GROUP BY REGION", [("REGION = 'north'", ["2"]), ("MIN(UNITS) = 10", ["2"])]),
    # behind WHERE, and without GROUP BY
    *reports(f"{COUNT} WHERE UNITS > 100", [("SUM(UNITS) > 0", []), ("SUM(UNITS) IS NULL", ["0"])]),
    *reports(f"{COUNT} WHERE UNITS > 0", [("SUM(UNITS) = 15", ["2"]), ("MIN(UNITS) < 0", [])]),
    *reports(COUNT, [("COUNT(*) = 4", ["4"]), ("COUNT(*) <> 4", [])]),
    *reports(f"{COUNT} WHERE REGION IS NOT NULL GROUP BY REGION", [("SUM(UNITS) > 0", ["2"])]),
    *reports(f"{COUNT} GROUP BY ()", [("SUM(UNITS) = 13", ["4"]), ("SUM(UNITS) < 13", [])]),
]

# The empty set has its one group, and it may be dropped; a set with columns has none.
NOTHING_LEFT = [
    *reports(COUNT, [("COUNT(*) = 0", ["0"]), ("COUNT(*) > 0", []), ("SUM(UNITS) > 0", [])], 0),
    *reports(SUMS, [("GROUPING(REGION) = 1", ["NULL | NULL"]), ("GROUPING(REGION) = 0", [])], 0),
]

# beyond 64 bits
WIDE = reports(
    "SELECT SUM(V) FROM T",
    [
        ("SUM(V) > 9223372036854775807", ["27670116110564327421"]),
        ("SUM(V) = 9223372036854775807", []),
        ("SUM(V) > MAX(V)", ["27670116110564327421"]),
        # what 64 bits would hold of it
        ("SUM(V) = 9223372036854775805", []),
        ("SUM(V) < 0", []),
    ],
)
DEEP = reports(
    "SELECT SUM(V) FROM T",
    [
        ("SUM(V) < -9223372036854775808", ["-18446744073709551616"]),
        ("SUM(V) = 0", []),
        ("SUM(V) < MIN(V)", ["-18446744073709551616"]),
    ],
)

MANY_SETS = f"CUBE({', '.join(['ID'] * 9)})"
BY_REGION = "SELECT REGION FROM SALES GROUP BY REGION"
FAULTS = [
    # a name that is no column
    (f"{COUNT} HAVING X = 1", 11),
    (f"{COUNT} HAVING SUM(X) = 1", 11),
    (f"{COUNT} HAVING COUNT(*) = 1 AND NOT 1 = COUNT(DISTINCT X)", 11),
    (f"{BY_REGION} HAVING GROUPING(REGION, X) = 0", 11),
    # a sum of texts, and a number beside a text
    (f"{COUNT} HAVING SUM(REGION) = 1", 13),
    (f"{BY_REGION} HAVING REGION = 1", 13),
    (f"{BY_REGION} HAVING REGION BETWEEN 'a' AND COUNT(*)", 13),
    (f"{BY_REGION} HAVING REGION IN ('a', 1)", 13),
    (f"{BY_REGION} HAVING GROUPING(REGION) = 'a'", 13),
    (f"{COUNT} HAVING MIN(REGION) = 1", 13),
    (f"{COUNT} HAVING MAX(REGION) > COUNT(*)", 13),
    (f"{COUNT} HAVING MAX(UNITS) > MIN(REGION)", 13),
    (f"{COUNT} HAVING COUNT(REGION) = 'a'", 13),
    (f"{COUNT} HAVING COUNT(DISTINCT REGION) IN ('a')", 13),
    (f"{COUNT} HAVING SUM(UNITS) < 'a'", 13),
    (f"{COUNT} HAVING 1 = 'a'", 13),
    (f"{COUNT} HAVING MIN(REGION) <= MAX(ITEM) AND 'a' <> MIN(ITEM)", block(1, "COUNT(*)", "4")),
    # a column that is in no grouping set
    (f"{BY_REGION} HAVING ITEM = 'pen'", 12),
    (f"{BY_REGION} HAVING GROUPING(ITEM) = 0", 12),
    (f"{BY_REGION} HAVING GROUPING(REGION, ITEM) = 0", 12),
    (f"{COUNT} HAVING REGION IS NULL", 12),
    (f"{BY_REGION} HAVING MAX(ITEM) = 'ink'", block(1, "REGION")),
    (f"{COUNT} GROUP BY ROLLUP(REGION) HAVING REGION = 'north'", block(1, "COUNT(*)", "2")),
    # several faults at once
    ("SELECT SUM(REGION) FROM SALES HAVING X = 1", 11),
    (f"{COUNT} HAVING SUM(REGION) = 1 AND X = 1", 11),
    ("SELECT ITEM FROM SALES HAVING REGION = 1", 13),
    (f"{BY_REGION}, {MANY_SETS} HAVING SUM(ITEM) = ITEM", 13),
    (f"{BY_REGION}, {MANY_SETS} HAVING ITEM = 'pen'", 12),
    (f"{BY_REGION}, {MANY_SETS} HAVING COUNT(*) = 1", 14),
]

NO_QUERIES = [
    f"{COUNT} HAVING",
    f"{COUNT} HAVING COUNT(*)",
    f"{COUNT} HAVING (COUNT(*)) = 1",
    f"{COUNT} HAVING COUNT(*) = 1 = 1",
    f"{COUNT} HAVING COUNT(*) = 1,",
    f"{COUNT} HAVING NOT NOT COUNT(*) = 1",
    f"{COUNT} HAVING COUNT(*) IN (COUNT(*))",
    f"{COUNT} HAVING COUNT(*) IS 1",
    f"{COUNT} HAVING NULL = COUNT(*)",
    f"{COUNT} HAVING SUM(*) = 1",
    f"{COUNT} HAVING SUM(DISTINCT UNITS) = 1",
    f"{COUNT} HAVING COUNT(SUM(UNITS)) = 1",
    f"{COUNT} HAVING GROUPING() = 1",
    f"{COUNT} HAVING GROUPING SETS (REGION) = 1",
    f"{COUNT} HAVING COUNT(*) = 1 HAVING COUNT(*) = 1",
    f"{COUNT} HAVING COUNT(*) = 1 GROUP BY REGION",
    f"{COUNT} HAVING COUNT(*) = 1 WHERE UNITS = 1",
    f"{COUNT} GROUP BY HAVING COUNT(*) = 1",
    f"{COUNT} GROUP BY DISTINCT HAVING COUNT(*) = 1",
    f"{COUNT} GROUP BY REGION, HAVING COUNT(*) = 1",
    f"{COUNT} GROUP BY GROUPING SETS (REGION HAVING COUNT(*) = 1)",
    "SELECT COUNT(*) HAVING COUNT(*) = 1 FROM SALES",
    # an operand of WHERE is a name or a literal
    f"{COUNT} WHERE SUM(UNITS) > 0",
    f"{COUNT} WHERE COUNT(*) = 1",
    f"{COUNT} WHERE UNITS = MAX(UNITS)",
    f"{COUNT} WHERE UNITS BETWEEN 1 AND MAX(UNITS)",
    f"{COUNT} WHERE GROUPING(REGION) = 0",
]


def tests(times, test):
    """The same test so many times."""
    return " AND ".join([test] * times)


FOUR = block(1, "COUNT(*)", "4")
THIRTY_TWO = "COUNT(*)" + ", COUNT(*)" * 31
ALL_ITEMS = block(1, " | ".join(["COUNT(*)"] * 32), " | ".join(["4"] * 32))
LIMITS = [
    # 32 and 33 aggregates, each occurrence counted, beside as many items
    (f"{COUNT} HAVING {tests(32, 'COUNT(*) = 4')}", FOUR),
    (f"{COUNT} HAVING {tests(33, 'COUNT(*) = 4')}", 15),
    (f"{COUNT} HAVING {tests(16, 'COUNT(*) <= SUM(ID)')}", FOUR),
    (f"{COUNT} HAVING {tests(16, 'COUNT(*) <= SUM(ID)')} AND MIN(ID) = 1", 15),
    (f"{COUNT} HAVING {tests(10, 'COUNT(*) BETWEEN MIN(ID) AND MAX(ID)')}", FOUR),
    (f"{COUNT} HAVING {tests(11, 'COUNT(*) BETWEEN MIN(ID) AND MAX(ID)')}", 15),
    (f"{COUNT} HAVING {tests(33, 'MAX(UNITS) IN (10)')}", 15),
    (f"{COUNT} HAVING {tests(33, 'COUNT(DISTINCT ITEM) IS NOT NULL')}", 15),
    (f"SELECT {THIRTY_TWO} FROM SALES HAVING {tests(32, 'COUNT(*) = 4')}", ALL_ITEMS),
    (f"SELECT {THIRTY_TWO}, COUNT(*) FROM SALES HAVING COUNT(*) = 4", 15),
    # columns and GROUPING are none
    (
        f"{BY_REGION} HAVING {tests(40, 'REGION = REGION')} AND {tests(40, 'GROUPING(REGION) = 0')} AND {tests(32, 'COUNT(*) = 2')}",
        block(1, "REGION", "'north'"),
    ),
    # GROUPING of 16 and of 17 columns
    (f"{BY_REGION} HAVING GROUPING(REGION{', REGION' * 15}) = 0 AND COUNT(*) = 2", block(1, "REGION", "'north'")),
    (f"{BY_REGION} HAVING GROUPING(REGION{', REGION' * 16}) = 0", 15),
    # before the faults of names, and behind those of the grammar
    (f"{COUNT} HAVING {tests(33, 'SUM(X) = 4')}", 15),
    (f"{COUNT} HAVING {tests(33, 'COUNT(*) = 4')} GROUP BY REGION", 10),
    # 64 and 65 open parentheses, with that of the aggregate
    (f"{COUNT} HAVING {'(' * 63}COUNT(*) = 4{')' * 63}", FOUR),
    (f"{COUNT} HAVING {'(' * 64}COUNT(*) = 4{')' * 64}", 15),
    (f"{COUNT} HAVING {'(' * 64}4 = 4{')' * 64}", FOUR),
    (f"{COUNT} HAVING {'(' * 65}4 = 4{')' * 65}", 15),
    # what is closed before HAVING is open no more
    (f"{COUNT} WHERE {'(' * 64}ID > 0{')' * 64} HAVING {'(' * 64}4 = 4{')' * 64}", FOUR),
    (f"{COUNT} WHERE {'(' * 64}ID > 0{')' * 64} HAVING {'(' * 65}4 = 4{')' * 65}", 15),
    (f"{COUNT} WHERE {'(' * 65}ID > 0{')' * 65} HAVING 4 = 4", 15),
    # a long chain needs no deep stack
    (f"{COUNT} HAVING COUNT(*) = 4{' AND 1=1' * 8_000}", FOUR),
    (f"{COUNT} HAVING COUNT(*) = 4{' OR 1=2' * 8_000}", FOUR),
]


def asked(before, queries):
    """The lines before, and a report of each query."""
    return [*before, *((f"report {query}", gives) for query, gives in queries)]


CASES = lines_by("groups that stay", [*SALES, *LEFT], [SALES_PART], WORKERS)
CASES += lines_by("groups of no rows", [*NO_SALES, *NOTHING_LEFT], options=WORKERS)
CASES += lines_by("a sum beyond 64 bits", [*GREAT, *WIDE], options=WORKERS)
CASES += lines_by("a sum below 64 bits", [*LEAST, *DEEP], options=WORKERS)
CASES += lines_by("faults in their order", asked(SALES, FAULTS), [SALES_PART], WORKERS)
CASES += lines_by("limits", asked(SALES, LIMITS), [SALES_PART], WORKERS)
CASES += [lines("texts that are no queries", asked(SALES, [(query, 10) for query in NO_QUERIES]), [SALES_PART])]
