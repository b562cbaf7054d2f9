"""Scripts that load parts, under both hashes and by several workers."""

from cases.table import block, lines_by, script

TWO = ["K,V\n1,10\n2,20\n", "K,V\n1,11\n"]
FAULTY = ["ID,REGION,ITEM,UNITS\n1,north,pen,x\n", "ID,REGION,ITEM,UNITS\n9,a,b,1\n8,a,b,1.5\n"]
# Of two parts the second has no column V: in its header, and in a record.
NARROW = ["K,V\n1,1\n2,2\n", "K\n3\n4\n", "K,V\n5,5\n6\n"]
# A header of no bytes, one in small letters, and one of too few names.
BEFORE_FAULTS = ["K,V\n1,1\n", "", "k,v\n5,5\n", "K\n6\n"]
SALES = "ID,REGION,ITEM,UNITS\n1,north,pen,10\n2,north,ink,\n3,,pen,5\n4,south,pen,-2\n"

WORKERS = (1, 2, 7, 64)
HASHES = ("fnv", "plain")


def options(workers, hash, rows):
    return "--workers", str(workers), "--depth", "13", "--rows", str(rows), "--hash", hash


# The parts, the most rows of the draft, and the lines.
LOADS = [
    (
        "the last listed record of a key stands",
        TWO,
        100,
        [
            "table T (K INT KEY, V INT)",
            "load 1 2",
            "publish",
            ("report SELECT K, SUM(V) FROM T GROUP BY K", block(1, "K | SUM(V)", "1 | 11", "2 | 20")),
            "load 2 1",
            "publish",
            ("report SELECT K, SUM(V) FROM T GROUP BY K", block(2, "K | SUM(V)", "1 | 10", "2 | 20")),
        ],
    ),
    (
        "the first listed fault",
        FAULTY,
        100,
        [
            "table SALES (ID INT KEY, REGION TEXT, ITEM TEXT, UNITS INT)",
            ("load 1 2", "refused 6 part 1 record 1"),
            ("load 2 1", "refused 6 part 2 record 2"),
            ("load 3", 5),
        ],
    ),
    (
        "numbers of parts",
        FAULTY,
        100,
        [
            "table SALES (ID INT KEY, REGION TEXT, ITEM TEXT, UNITS INT)",
            ("load 1 9", 5),
            ("load 0", 5),
            ("load 1  1", 3),
            ("load 18446744073709551617", 5),
            ("load 01", "refused 6 part 1 record 1"),
        ],
    ),
    (
        "sets of different cells",
        [SALES],
        100,
        [
            "table SALES (ID INT KEY, REGION TEXT, ITEM TEXT, UNITS INT)",
            "load 1",
            "publish",
            (
                "report SELECT REGION, COUNT(DISTINCT ITEM), COUNT(DISTINCT REGION) FROM SALES GROUP BY ROLLUP(REGION)",
                block(
                    1,
                    "REGION | COUNT(DISTINCT ITEM) | COUNT(DISTINCT REGION)",
                    "NULL | 1 | 0",
                    "'north' | 2 | 1",
                    "'south' | 1 | 1",
                    "NULL | 2 | 2",
                ),
            ),
        ],
    ),
    (
        "forms of a load line",
        TWO,
        100,
        [
            ("load 1", 1),
            ("load", 1),
            ("loads 1", 3),
            "table T (K INT KEY, V INT)",
            ("load", 3),
            ("load ", 3),
            ("load 1 ", 3),
            ("load  1", 3),
            ("load 1,2", 3),
            ("load +1", 3),
            ("load -1", 3),
            ("load x", 3),
            ("load 9 x", 3),
        ],
    ),
    (
        "a key that is there takes no room",
        TWO,
        2,
        [
            "table T (K INT KEY, V INT)",
            "put 2,2",
            "put 3,3",
            ("load 2", 9),
            "publish",
            ("report SELECT COUNT(*), SUM(V) FROM T", block(1, "COUNT(*) | SUM(V)", "2 | 5")),
            "delete 3",
            "load 2",
            "load 1",
            "publish",
            ("report SELECT COUNT(*), SUM(V) FROM T", block(2, "COUNT(*) | SUM(V)", "2 | 30")),
        ],
    ),
    (
        "more rows than the draft may have",
        TWO,
        1,
        [
            "table T (K INT KEY, V INT)",
            "put 7,7",
            ("load 1", 9),
            "publish",
            ("report SELECT COUNT(*), SUM(V) FROM T", block(1, "COUNT(*) | SUM(V)", "1 | 7")),
        ],
    ),
    (
        "faults at the front of parts",
        BEFORE_FAULTS,
        100,
        [
            "table T (K INT KEY, V INT)",
            ("load 1 2 4", "refused 6 part 2 record 0"),
            ("load 4 2", "refused 6 part 4 record 0"),
            "load 3 1 3",
            "put 1,9",
            "publish",
            ("report SELECT COUNT(*), SUM(V) FROM T", block(1, "COUNT(*) | SUM(V)", "2 | 14")),
        ],
    ),
    (
        "a second part without a column",
        NARROW,
        100,
        [
            "table T (K INT KEY, V INT)",
            ("load 1 2", "refused 6 part 2 record 0"),
            ("load 1 3", "refused 6 part 3 record 2"),
            ("load 2 3", "refused 6 part 2 record 0"),
            "publish",
            ("report SELECT COUNT(*), SUM(V) FROM T", block(1, "COUNT(*) | SUM(V)", "0 | NULL")),
        ],
    ),
    (
        "loads, puts and deletes in order",
        TWO,
        100,
        [
            "table T (K INT KEY, V INT)",
            "put 1,1",
            "put 2,2",
            "load 2",
            "delete 2",
            "put 3,3",
            "load 1",
            "publish",
            ("report SELECT K, SUM(V) FROM T GROUP BY K", block(1, "K | SUM(V)", "1 | 10", "2 | 20", "3 | 3")),
        ],
    ),
]

# That of putting all records one by one, in whatever order.
SHAPES = lines_by(
    "the shape of what is loaded",
    [
        "table T (K INT KEY, V INT)",
        "load 1 2",
        "publish",
        ("shape", block(1, "- 2")),
        "load 2 1",
        "publish",
        ("shape", block(2, "- 2")),
        ("table T (K INT KEY)", 2),
    ],
    TWO,
    [options(workers, "plain", 100) for workers in WORKERS],
)

# Reports and shapes of both orders.
BOTH = lines_by(
    "two parts in both orders",
    [
        "table T (K INT KEY, V INT)",
        "load 1 2",
        "publish",
        ("report SELECT K, SUM(V) FROM T GROUP BY K", block(1, "K | SUM(V)", "1 | 11", "2 | 20")),
        ("shape", block(1, "- 2")),
        "load 2 1",
        "publish",
        ("report SELECT K, SUM(V) FROM T GROUP BY K", block(2, "K | SUM(V)", "1 | 10", "2 | 20")),
        ("shape", block(2, "- 2")),
    ],
    TWO,
    [options(workers, "plain", 100) for workers in WORKERS],
)

# A part of 4,194,304 bytes: the limit is 262,144 times as many, counted at each listing.
LISTED = [
    script(
        "too many listed bytes",
        "table T (K INT KEY)\nload 1" + 262_144 * " 1" + "\nload 1 2\n",
        "line 2 refused 15\nline 3 refused 5\n",
        ["x" * 4_194_304],
        ["--rows", "1"],
    )
]

CASES = SHAPES + BOTH + LISTED
for title, parts, rows, lines in LOADS:
    each = [options(workers, hash, rows) for workers in WORKERS for hash in HASHES]
    CASES += lines_by(title, lines, parts, each)
