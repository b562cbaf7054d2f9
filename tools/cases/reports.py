"""Reports of grouped queries, and the first fault of each query."""

from cases.table import block, lines_by

BY_EITHER_HASH = [("--rows", "9", "--hash", hash) for hash in ("fnv", "plain")]

REPORTS = [
    (
        "the first fault of each query",
        [
            "table T (K INT KEY, V TEXT)",
            ("report SELECT SUM(V), X FROM T", 11),
            ("report SELECT V, SUM(V) FROM T", 13),
            ("report SELECT V FROM T GROUP BY CUBE (K,K,K,K,K,K,K,K,K)", 12),
            ("report SELECT COUNT(*) FROM T GROUP BY CUBE (K,K,K,K,K,K,K,K,K)", 14),
        ],
    ),
    (
        "a roll-up over NULL",
        [
            "table T (K INT KEY, V INT)",
            "put 1,5",
            "put 2,5",
            "put 3,",
            "publish",
            (
                "report SELECT V, COUNT(*) FROM T GROUP BY ROLLUP (V)",
                block(1, "V | COUNT(*)", "NULL | 1", "5 | 2", "NULL | 3"),
            ),
        ],
    ),
    (
        "texts with a quote, and a row that is only in the draft",
        [
            "table T (K INT KEY, V TEXT)",
            "put 1,it's",
            "put 2,",
            "put 3,a",
            "publish",
            "put 4,b",
            (
                "report select v, grouping(v), max(k) from t where k < 3 group by grouping sets ((v), ())",
                block(1, "V | GROUPING(V) | MAX(K)", "NULL | 0 | 2", "'it''s' | 0 | 1", "NULL | 1 | 2"),
            ),
        ],
    ),
]

CASES = [case for title, rows in REPORTS for case in lines_by(title, rows, options=BY_EITHER_HASH)]
