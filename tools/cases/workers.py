"""Reports by several workers over several cuts, beside the lines that follow them: what is written depends on neither."""

from cases.table import block, lines_by

SALES_PART = "ID,REGION,ITEM,UNITS\n1,north,pen,10\n2,north,ink,\n3,,pen,5\n4,south,pen,-2\n"

SALES = [
    "table SALES (ID INT KEY, REGION TEXT, ITEM TEXT, UNITS INT)",
    "load 1",
    "publish",
    (
        "report SELECT REGION, GROUPING(REGION), COUNT(*), COUNT(UNITS), SUM(UNITS) FROM SALES GROUP BY ROLLUP(REGION)",
        block(
            1,
            "REGION | GROUPING(REGION) | COUNT(*) | COUNT(UNITS) | SUM(UNITS)",
            "NULL | 0 | 1 | 1 | 5",
            "'north' | 0 | 2 | 1 | 10",
            "'south' | 0 | 1 | 1 | -2",
            "NULL | 1 | 4 | 3 | 13",
        ),
    ),
]

# As many pieces at depth 13.
SEVENTY = [
    "table T (K INT KEY, V INT)",
    *(f"put {key},{key % 3}" for key in range(70)),
    "publish",
    (
        "report SELECT V, COUNT(*), SUM(K) FROM T GROUP BY ROLLUP(V)",
        block(1, "V | COUNT(*) | SUM(K)", "0 | 24 | 828", "1 | 23 | 782", "2 | 23 | 805", "NULL | 70 | 2415"),
    ),
]

# Ten editions, each with a report of its own.
TEN = ["table T (K INT KEY)"]
for key in range(1, 11):
    TEN += [f"put {key}", "publish", ("report SELECT COUNT(*) FROM T", block(key, "COUNT(*)", str(key)))]

CORRECTED = [
    "table T (K INT KEY, V INT)",
    "put 1,5",
    "publish",
    ("report SELECT COUNT(*), SUM(V) FROM T", block(1, "COUNT(*) | SUM(V)", "1 | 5")),
    "delete 1",
    "publish",
    ("report SELECT COUNT(*), SUM(V) FROM T", block(2, "COUNT(*) | SUM(V)", "0 | NULL")),
    ("put x", 7),
]


# Counts of different cells, which workers join, with 64 parts that as many workers read.
PARTS = [f"K,A,B\n{key},{key % 5},t{key % 7}\n{key + 64},{key % 5},\n" for key in range(64)]
DIFFERENT = [
    "table T (K INT KEY, A INT, B TEXT)",
    f"load {' '.join(map(str, range(1, 65)))}",
    "publish",
    (
        "report SELECT COUNT(*), COUNT(DISTINCT A), COUNT(DISTINCT B) FROM T",
        block(1, "COUNT(*) | COUNT(DISTINCT A) | COUNT(DISTINCT B)", "128 | 5 | 7"),
    ),
    (
        "report SELECT A, COUNT(DISTINCT B), COUNT(DISTINCT K) FROM T WHERE K < 14 GROUP BY ROLLUP(A)",
        block(
            1,
            "A | COUNT(DISTINCT B) | COUNT(DISTINCT K)",
            *[f"{group} | 3 | 3" for group in range(4)],
            "4 | 2 | 2",
            "NULL | 7 | 14",
        ),
    ),
]

# Four keys, of which two share their first digit where a key is its own hash.
FOUR = [
    "table T (K INT KEY)",
    *(f"put {key}" for key in (1, 17, 33, 2)),
    "publish",
    ("report SELECT COUNT(*), MIN(K), MAX(K) FROM T", block(1, "COUNT(*) | MIN(K) | MAX(K)", "4 | 1 | 33")),
]


def options(rows, depths):
    return [
        ("--workers", workers, "--depth", depth, "--rows", rows, "--hash", hash)
        for workers in ("1", "2", "7", "64")
        for depth in depths
        for hash in ("fnv", "plain")
    ]


CASES = lines_by("four sales", SALES, [SALES_PART], options("100", ("0", "1", "13")))
CASES += lines_by("seventy rows", SEVENTY, options=options("100", ("0", "1", "13")))
CASES += lines_by("ten editions", TEN, options=options("20", ("1",)))
CASES += lines_by("a corrected row", CORRECTED, options=options("20", ("1",)))
CASES += lines_by("different cells", DIFFERENT, PARTS, options("200", ("0", "13")))
CASES += lines_by("every depth", FOUR, options=options("9", [str(depth) for depth in range(14)]))
