"""Deletes, puts up to a limit, and shapes under a hash whose collisions are chosen."""

from cases.table import block, lines, lines_by

# With room for two rows, under either hash.
ROOM_FOR_TWO = [("--rows", "2", "--hash", hash) for hash in ("fnv", "plain")]

DELETES = [
    (
        "deletes under an INT key",
        [
            "table T (K INT KEY)",
            ("delete", 8),
            ("delete 'a'", 8),
            ("delete 1 2", 8),
            "delete 7",
        ],
    ),
    (
        "numbers of deletes",
        [
            "table T (K INT KEY)",
            "delete  -1 ",
            ("delete - 1", 8),
            ("delete +1", 8),
            ("delete 9223372036854775808", 8),
            ("delete NULL", 8),
        ],
    ),
    (
        "deletes under a TEXT key",
        [
            "table T (V INT, K TEXT KEY)",
            "delete 'a'",
            "delete ''",
            ("delete a", 8),
            ("delete 1", 8),
            ("delete 'a' 'b'", 8),
            ("delete 'a", 8),
        ],
    ),
    (
        "deletes before the table",
        [
            ("delete 1", 1),
            ("delete", 1),
            ("Delete 1", 3),
        ],
    ),
    (
        "a delete that is published",
        [
            "table T (K INT KEY)",
            "put 1",
            "put 2",
            "publish",
            "delete 1",
            ("report SELECT COUNT(*) FROM T", block(1, "COUNT(*)", "2")),
            "publish",
            ("report SELECT COUNT(*) FROM T", block(2, "COUNT(*)", "1")),
        ],
    ),
    (
        "a delete of a text with a quote",
        [
            "table T (K TEXT KEY)",
            "put it's",
            "put its",
            "delete 'it''s'",
            "publish",
            ("report SELECT COUNT(*) FROM T", block(1, "COUNT(*)", "1")),
        ],
    ),
    (
        "a delete makes room",
        [
            "table T (K INT KEY)",
            "put 1",
            "put 2",
            ("put 3", 9),
            "delete 1",
            "put 3",
            "publish",
            ("report SELECT COUNT(*) FROM T", block(1, "COUNT(*)", "2")),
        ],
    ),
]

PUTS = [
    (
        "puts up to the most rows",
        [
            "table T (K INT KEY, V INT)",
            "put 1,1",
            "put 2,2",
            ("put 3,3", 9),
            "put 2,7",
            ("put 4", 7),
            "publish",
            ("report SELECT COUNT(*), SUM(V) FROM T", block(1, "COUNT(*) | SUM(V)", "2 | 8")),
            ("report SELECT K, SUM(V) FROM T GROUP BY K", block(1, "K | SUM(V)", "1 | 1", "2 | 7")),
        ],
    ),
]

SHAPES = [
    (
        "shapes of the last edition",
        [
            "table T (K INT KEY)",
            "put 1",
            "put 17",
            "put 33",
            "publish",
            ("shape", block(1, "- 3", "1 2")),
            "delete 33",
            "publish",
            ("shape", block(2, "- 2")),
            "delete 17",
            "publish",
            ("shape", block(3)),
        ],
    ),
    (
        "shapes before the table and of edition 0",
        [
            ("shape", 1),
            "table T (K INT KEY)",
            ("shape now", 3),
            ("shape ", block(0)),
            ("shape", block(0)),
        ],
    ),
    (
        "a shape tells of no draft",
        [
            "table T (K INT KEY)",
            "put 1",
            "put 2",
            ("shape", block(0)),
            "publish",
            "delete 2",
            ("shape", block(1, "- 2")),
        ],
    ),
    (
        "two branches",
        [
            "table T (K INT KEY)",
            "put 10",
            "put 42",
            "put 171",
            "put 203",
            "publish",
            ("shape", block(1, "- 4", "a 2", "b 2")),
        ],
    ),
    # The hash of both keys is their length, 2, so they share all 13 digits.
    (
        "keys of one hash",
        [
            "table T (K TEXT KEY)",
            "put ab",
            "put cd",
            "publish",
            ("shape", block(1, "- 2", *("2" + "0" * digits + " 2" for digits in range(13)))),
        ],
    ),
    # These share all but the last digit.
    (
        "keys whose last digits differ",
        [
            "table T (K INT KEY)",
            "put 0",
            "put 1152921504606846976",
            "publish",
            ("shape", block(1, "- 2", *("0" * digits + " 2" for digits in range(1, 13)))),
        ],
    ),
]

CASES = [case for title, rows in DELETES + PUTS for case in lines_by(title, rows, options=ROOM_FOR_TWO)]
CASES += [lines(title, rows, options=["--rows", "9", "--hash", "plain"]) for title, rows in SHAPES]
