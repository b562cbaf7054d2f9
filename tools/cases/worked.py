"""Worked reports: queries over sales and other tables, and their bytes, each in a script of its own, under both hashes and at
three depths, and by two and 64 workers."""

from cases.table import block, lines_by

SALES_PART = "ID,REGION,ITEM,UNITS\n1,north,pen,10\n2,north,ink,\n3,,pen,5\n4,south,pen,-2\n"

# The lines before a report.
SALES = ["table SALES (ID INT KEY, REGION TEXT, ITEM TEXT, UNITS INT)", "load 1", "publish"]
NO_SALES = ["table SALES (ID INT KEY, REGION TEXT, ITEM TEXT, UNITS INT)"]
GREAT = [
    "table T (K INT KEY, V INT)",
    "put 1,9223372036854775807",
    "put 2,9223372036854775807",
    "put 3,9223372036854775807",
    "publish",
]
# Texts with a quote and a bar, a group of NULLs alone, and a row that is only in the draft.
TEXTS = [
    "table T (K INT KEY, A TEXT, V INT)",
    "put 1,it's,",
    'put 2,"a | b",',
    "put 3,it's,",
    "put 4,,7",
    "publish",
    "put 5,late,1",
]
WIDE = ["table W (A INT KEY, B INT, C INT, D INT, E INT, F INT, G INT, H INT, I INT)"]
SUMS = "SELECT REGION, SUM(UNITS) FROM SALES GROUP BY ROLLUP(REGION)"
LETTERS = ", ".join("ABCDEFGHIJKLMNOP")
SIXTEEN = [
    "table S (A INT KEY" + "".join(f", {letter} INT" for letter in "BCDEFGHIJKLMNOP") + ")",
    "put 1,,3,,5,,7,,9,,11,,13,,15,",
    "publish",
]

REPORTS = [
    (
        "subtotals by region",
        SALES,
        "SELECT REGION, GROUPING(REGION), COUNT(*), COUNT(UNITS), SUM(UNITS) FROM SALES GROUP BY ROLLUP(REGION)",
        block(
            1,
            "REGION | GROUPING(REGION) | COUNT(*) | COUNT(UNITS) | SUM(UNITS)",
            "NULL | 0 | 1 | 1 | 5",
            "'north' | 0 | 2 | 1 | 10",
            "'south' | 0 | 1 | 1 | -2",
            "NULL | 1 | 4 | 3 | 13",
        ),
    ),
    (
        "subtotals of no rows",
        NO_SALES,
        "SELECT REGION, GROUPING(REGION), COUNT(*), COUNT(UNITS), SUM(UNITS) FROM SALES GROUP BY ROLLUP(REGION)",
        block(0, "REGION | GROUPING(REGION) | COUNT(*) | COUNT(UNITS) | SUM(UNITS)", "NULL | 1 | 0 | 0 | NULL"),
    ),
    (
        "groups of no rows",
        NO_SALES,
        "SELECT REGION, COUNT(*) FROM SALES GROUP BY REGION",
        block(0, "REGION | COUNT(*)"),
    ),
    (
        "aggregates of no rows that are left",
        SALES,
        "SELECT MIN(UNITS), SUM(UNITS), COUNT(*) FROM SALES WHERE UNITS > 100",
        block(1, "MIN(UNITS) | SUM(UNITS) | COUNT(*)", "NULL | NULL | 0"),
    ),
    (
        "a predicate that is unknown",
        SALES,
        "SELECT COUNT(*) FROM SALES WHERE NOT (UNITS > 0)",
        block(1, "COUNT(*)", "1"),
    ),
    (
        "all sets of two columns",
        SALES,
        "SELECT REGION, ITEM, COUNT(*) FROM SALES GROUP BY CUBE(REGION, ITEM)",
        block(
            1,
            "REGION | ITEM | COUNT(*)",
            "NULL | 'pen' | 1",
            "'north' | 'ink' | 1",
            "'north' | 'pen' | 1",
            "'south' | 'pen' | 1",
            "NULL | NULL | 1",
            "'north' | NULL | 2",
            "'south' | NULL | 1",
            "NULL | 'ink' | 1",
            "NULL | 'pen' | 3",
            "NULL | NULL | 4",
        ),
    ),
    (
        "a set that is named twice",
        SALES,
        "SELECT REGION, COUNT(*) FROM SALES GROUP BY GROUPING SETS ((REGION),(REGION),())",
        block(
            1,
            "REGION | COUNT(*)",
            "NULL | 1",
            "'north' | 2",
            "'south' | 1",
            "NULL | 1",
            "'north' | 2",
            "'south' | 1",
            "NULL | 4",
        ),
    ),
    (
        "a column beside a roll-up",
        SALES,
        "SELECT REGION, ITEM, COUNT(*) FROM SALES GROUP BY REGION, ROLLUP(ITEM)",
        block(
            1,
            "REGION | ITEM | COUNT(*)",
            "NULL | 'pen' | 1",
            "'north' | 'ink' | 1",
            "'north' | 'pen' | 1",
            "'south' | 'pen' | 1",
            "NULL | NULL | 1",
            "'north' | NULL | 2",
            "'south' | NULL | 1",
        ),
    ),
    (
        "a sum beyond 64 bits",
        GREAT,
        "SELECT SUM(V), MIN(V), MAX(V) FROM T",
        block(1, "SUM(V) | MIN(V) | MAX(V)", "27670116110564327421 | 9223372036854775807 | 9223372036854775807"),
    ),
    (
        "different cells",
        SALES,
        "SELECT COUNT(DISTINCT ITEM), COUNT(ITEM) FROM SALES",
        block(1, "COUNT(DISTINCT ITEM) | COUNT(ITEM)", "2 | 4"),
    ),
    (
        "different cells by region",
        SALES,
        "SELECT REGION, COUNT(DISTINCT ITEM), COUNT(DISTINCT REGION) FROM SALES GROUP BY ROLLUP(REGION)",
        block(
            1,
            "REGION | COUNT(DISTINCT ITEM) | COUNT(DISTINCT REGION)",
            "NULL | 1 | 0",
            "'north' | 2 | 1",
            "'south' | 1 | 1",
            "NULL | 2 | 2",
        ),
    ),
    (
        "the first of equal sets",
        SALES,
        "SELECT REGION, ITEM, GROUPING(REGION, ITEM), COUNT(*) FROM SALES"
        " GROUP BY DISTINCT GROUPING SETS (REGION, ITEM, ROLLUP(REGION))",
        block(
            1,
            "REGION | ITEM | GROUPING(REGION, ITEM) | COUNT(*)",
            "NULL | NULL | 1 | 1",
            "'north' | NULL | 1 | 2",
            "'south' | NULL | 1 | 1",
            "NULL | 'ink' | 2 | 1",
            "NULL | 'pen' | 2 | 3",
            "NULL | NULL | 3 | 4",
        ),
    ),
    (
        "groups of which some stay",
        SALES,
        f"{SUMS} HAVING SUM(UNITS) > 0 AND COUNT(*) < 4",
        block(1, "REGION | SUM(UNITS)", "NULL | 5", "'north' | 10"),
    ),
    (
        "groups of NULL and a subtotal that stay",
        SALES,
        f"{SUMS} HAVING REGION IS NULL",
        block(1, "REGION | SUM(UNITS)", "NULL | 5", "NULL | 13"),
    ),
    (
        "the one group of no rows, which is dropped",
        SALES,
        "SELECT COUNT(*) FROM SALES WHERE UNITS > 100 HAVING SUM(UNITS) > 0",
        block(1, "COUNT(*)"),
    ),
    (
        "the one group of no rows, which stays",
        SALES,
        "SELECT COUNT(*) FROM SALES WHERE UNITS > 100 HAVING SUM(UNITS) IS NULL",
        block(1, "COUNT(*)", "0"),
    ),
    (
        "a sum that is compared beyond 64 bits",
        GREAT,
        "SELECT SUM(V) FROM T HAVING SUM(V) > 9223372036854775807",
        block(1, "SUM(V)", "27670116110564327421"),
    ),
    ("HAVING of a column that is in no set", SALES, "SELECT REGION FROM SALES GROUP BY REGION HAVING ITEM = 'pen'", 12),
    ("HAVING of a text beside a number", SALES, "SELECT REGION FROM SALES GROUP BY REGION HAVING REGION = 1", 13),
    ("a column that is in no set", SALES, "SELECT ITEM, COUNT(*) FROM SALES GROUP BY REGION", 12),
    ("a sum of texts", SALES, "SELECT ITEM, SUM(REGION) FROM SALES GROUP BY UNITS", 13),
    ("a name that is no column", SALES, "SELECT ITEM, SUM(REGION) FROM SALES GROUP BY X", 11),
    ("a query that cannot be read", SALES, "SELECT COUNT(* FROM SALES", 10),
    ("256 sets", WIDE, "SELECT COUNT(*) FROM W GROUP BY CUBE(A, B, C, D, E, F, G, H)", block(0, "COUNT(*)", "0")),
    ("512 sets", WIDE, "SELECT COUNT(*) FROM W GROUP BY CUBE(A, B, C, D, E, F, G, H, I)", 14),
    (
        "groups of NULL alone",
        TEXTS,
        "SELECT A, COUNT(*), COUNT(V), COUNT(DISTINCT V), SUM(V), MIN(V), MAX(V) FROM T GROUP BY A",
        block(
            1,
            "A | COUNT(*) | COUNT(V) | COUNT(DISTINCT V) | SUM(V) | MIN(V) | MAX(V)",
            "NULL | 1 | 1 | 1 | 7 | 7 | 7",
            "'a | b' | 1 | 0 | 0 | NULL | NULL | NULL",
            "'it''s' | 2 | 0 | 0 | NULL | NULL | NULL",
        ),
    ),
    (
        "least and greatest texts",
        TEXTS,
        "SELECT MIN(A), MAX(A), COUNT(DISTINCT A) FROM T WHERE K IN (1, 2, 5) OR A IS NULL",
        block(1, "MIN(A) | MAX(A) | COUNT(DISTINCT A)", "'a | b' | 'it''s' | 2"),
    ),
    (
        "sixteen columns",
        SIXTEEN,
        f"SELECT {LETTERS}, COUNT(*) FROM S GROUP BY {LETTERS}",
        block(
            1,
            "A | B | C | D | E | F | G | H | I | J | K | L | M | N | O | P | COUNT(*)",
            "1 | NULL | 3 | NULL | 5 | NULL | 7 | NULL | 9 | NULL | 11 | NULL | 13 | NULL | 15 | NULL | 1",
        ),
    ),
    (
        "groups that are not shown",
        SALES,
        "SELECT COUNT(*) FROM SALES GROUP BY UNITS, ITEM",
        block(1, "COUNT(*)", "1", "1", "1", "1"),
    ),
]

OPTIONS = [("--depth", depth, "--hash", hash) for depth in ("0", "1", "13") for hash in ("fnv", "plain")]
OPTIONS += [("--workers", workers, "--depth", "13") for workers in ("2", "64")]

# All reports on loaded sales, one after another on one edition.
TOGETHER = [*SALES, *[(f"report {query}", gives) for _, before, query, gives in REPORTS if before is SALES]]

CASES = [
    case
    for title, before, query, gives in REPORTS
    for case in lines_by(title, [*before, (f"report {query}", gives)], [SALES_PART], OPTIONS)
]
CASES += lines_by("all reports on sales", TOGETHER, [SALES_PART], OPTIONS)
