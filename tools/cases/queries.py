"""Which texts are queries, and which of them are too long, too deep or too wide."""

from cases.table import lines

# K is 1, L is 'l', A is 5, B is 6, C is NULL and _A1 is 7
ROW = [
    ("table T (K INT KEY, L TEXT, A INT, B INT, C INT, _A1 INT)", None),
    ("put 1,l,5,6,,7", None),
    ("publish", None),
]
COUNT = "SELECT COUNT(*) FROM T"


def counted(*numbers):
    return "edition 1\nCOUNT(*)" + "".join(f"\n{number}" for number in numbers)


def table(rows):
    """Queries over the row: each with the number of its refusal, with its counts, or with its block."""
    for query, gives in rows:
        if isinstance(gives, list):
            gives = counted(*gives)
        yield f"report {query}", gives


QUERIES = [
    ("select count(*) from t", [1]),
    (
        "SELECT K, GROUPING(K), COUNT(K), COUNT(DISTINCT K), SUM(K), MIN(K), MAX(K) FROM T GROUP BY K",
        "edition 1\nK | GROUPING(K) | COUNT(K) | COUNT(DISTINCT K) | SUM(K) | MIN(K) | MAX(K)\n1 | 0 | 1 | 1 | 1 | 1 | 1",
    ),
    ("SELECT _a1 FROM T", 12),
    ("SELECT _a1 FROM T GROUP BY _A1", "edition 1\n_A1\n7"),
    (f"{COUNT} WHERE K = 1 OR 1 <> K AND K < 'a' OR K <= 'it''s' AND K > -1 OR K >= L", 13),
    (f"{COUNT} WHERE K = 2 OR 1 <> K AND L < 'a' OR L <= 'it''s' AND K > -1 OR K >= A", [0]),
    (f"{COUNT} WHERE K = 1 OR 1 <> K AND L < 'a' OR L <= 'it''s' AND K > -1 OR K >= A", [1]),
    (f"{COUNT} WHERE NOT (K = 1 OR K IS NOT NULL) AND (K IS NULL)", [0]),
    (f"{COUNT} WHERE NOT (K = 2 OR K IS NULL) AND (C IS NULL)", [1]),
    (f"{COUNT} WHERE K IN (1, 'a') OR K NOT IN (1) AND 1 NOT BETWEEN K AND 2", 13),
    (f"{COUNT} WHERE K IN (1, 2) OR K NOT IN (1) AND 1 NOT BETWEEN K AND 2", [1]),
    (f"{COUNT} WHERE K BETWEEN 1 AND 2 AND K = 3", [0]),
    (f"{COUNT} WHERE K BETWEEN 1 AND 2 AND K = 1", [1]),
    (f"{COUNT} WHERE ((K = 1))", [1]),
    (f"{COUNT} WHERE K IS NULL GROUP BY (A, B), A, (A), (), ROLLUP(A), CUBE(A, (B, C))", []),
    (f"{COUNT} GROUP BY (A, B), A, (A), (), ROLLUP(A), CUBE(A, (B, C))", [1] * 8),
    (f"{COUNT} GROUP BY GROUPING SETS (A, ROLLUP(B), GROUPING SETS ((), C))", [1] * 5),
    ("SELECT grouping (A, K, A) FROM T GROUP BY A, K", "edition 1\nGROUPING(A, K, A)\n0"),
    ("SELECT GROUPING(A, B) FROM T", 12),
    ("SELECT A FROM T GROUP BY DISTINCT A", "edition 1\nA\n5"),
    ("SELECT A FROM T HAVING A = 1", 12),
    ("SELECT A FROM T GROUP BY A having max (B) > 5", "edition 1\nA\n5"),
    (f"{COUNT} group by distinct()", [1]),
    (f"{COUNT} WHERE K = 1 GROUP BY DISTINCT (A), ROLLUP(A)", [1]),
]

NO_QUERIES = [
    "",
    "SELECT",
    "SELECT FROM T",
    "SELECT COUNT(*)",
    "SELECT COUNT(*) FROM",
    "SELECT COUNT(*) FROM T T",
    "SELECT COUNT(*) FROM T ?",
    "SELECT COUNT(*), FROM T",
    "SELECT COUNT(* FROM T",
    "SELECT COUNT() FROM T",
    "SELECT SUM(*) FROM T",
    "SELECT SUM(DISTINCT K) FROM T",
    "SELECT COUNT(DISTINCT) FROM T",
    "SELECT COUNT(SUM) FROM T",
    "SELECT GROUPING() FROM T",
    "SELECT GROUPING(*) FROM T",
    "SELECT GROUPING(A,) FROM T",
    "SELECT GROUPING(A B) FROM T",
    "SELECT GROUPING(A, MIN) FROM T",
    "SELECT GROUPING((A, B)) FROM T",
    "SELECT GROUPING(DISTINCT A) FROM T",
    "SELECT GROUPING A FROM T",
    "SELECT GROUPING SETS (A) FROM T",
    "SELECT SUM(A, B) FROM T",
    "SELECT COUNT(A, B) FROM T",
    "SELECT KEY FROM T",
    "SELECT SELECT FROM T",
    "SELECT COUNT(*) FROM TEXT",
    "SELECT 1 FROM T",
    f"{COUNT} WHERE",
    f"{COUNT} WHERE K",
    f"{COUNT} WHERE (K) = 1",
    f"{COUNT} WHERE (K = 1",
    f"{COUNT} WHERE NOT NOT K = 1",
    f"{COUNT} WHERE K = 1 AND",
    f"{COUNT} WHERE K NOT = 1",
    f"{COUNT} WHERE K IN ()",
    f"{COUNT} WHERE K IN (L)",
    f"{COUNT} WHERE K BETWEEN 1 OR 2",
    f"{COUNT} WHERE K IS 1",
    f"{COUNT} WHERE NULL = K",
    f"{COUNT} GROUP BY",
    f"{COUNT} GROUP BY DISTINCT",
    f"{COUNT} GROUP BY DISTINCT DISTINCT A",
    f"{COUNT} GROUP BY A, DISTINCT B",
    f"{COUNT} GROUP BY ROLLUP(DISTINCT A)",
    f"{COUNT} GROUP DISTINCT BY A",
    f"{COUNT} GROUP A",
    f"{COUNT} GROUP BY A,",
    f"{COUNT} GROUP BY ROLLUP()",
    f"{COUNT} GROUP BY ROLLUP(())",
    f"{COUNT} GROUP BY ((A))",
    f"{COUNT} GROUP BY GROUPING SETS ()",
    f"{COUNT} GROUP BY A WHERE K = 1",
]

THIRTY_TWO = "edition 1\nA" + " | COUNT(*)" * 31 + "\n5" + " | 1" * 31


def nested(times):
    return f"{COUNT} GROUP BY " + "GROUPING SETS (" * times + "A" + ")" * times


LIMITS = [
    # 65,536 and 65,537 bytes
    (COUNT + " " * 65_514, [1]),
    (COUNT + " " * 65_515, 15),
    ("?" * 65_536, 10),
    ("?" * 65_537, 15),
    # 64 and 65 open parentheses; what is closed before them counts
    (f"{COUNT} WHERE " + "(" * 64 + "K=1" + ")" * 64, [1]),
    (f"{COUNT} WHERE " + "(" * 65 + "K=1" + ")" * 65, 15),
    ("(" * 64, 10),
    ("(" * 65, 15),
    ("(" * 65 + "?", 10),
    (")" + "(" * 65, 10),
    (")" + "(" * 66, 15),
    (nested(60), [1]),
    (nested(64), [1]),
    (nested(65), 15),
    # 32 and 33 items
    ("SELECT A" + ",COUNT(*)" * 31 + " FROM T", 12),
    ("SELECT A" + ",COUNT(*)" * 31 + " FROM T GROUP BY A", THIRTY_TWO),
    ("SELECT A" + ",COUNT(*)" * 32 + " FROM T", 15),
    ("SELECT A" + ",COUNT(*)" * 32 + " FROM T T", 10),
    # GROUPING of 16 and of 17 columns, whatever they are
    ("SELECT GROUPING(A" + ",A" * 15 + ") FROM T GROUP BY A, ()", f"edition 1\nGROUPING({', '.join('A' * 16)})\n0"),
    ("SELECT GROUPING(A" + ",A" * 15 + ") FROM T GROUP BY B", 12),
    ("SELECT GROUPING(A" + ",A" * 16 + ") FROM T GROUP BY A", 15),
    ("SELECT GROUPING(X" + ",X" * 15 + ") FROM T", 11),
    ("SELECT GROUPING(X" + ",X" * 16 + ") FROM T", 15),
    ("SELECT COUNT(*), GROUPING(A" + ",A" * 16 + ") FROM T T", 10),
]

# none of them needs a deep stack
CHAINS = [
    (f"{COUNT} WHERE K=1" + " OR K=1" * 9_000, [1]),
    (f"{COUNT} WHERE K=1" + " AND K=1" * 8_000, [1]),
    (f"{COUNT} WHERE K IN (1" + ",1" * 9_000 + ")", [1]),
    (f"{COUNT} GROUP BY (A" + ",A" * 9_000 + ")", [1]),
    (f"{COUNT} GROUP BY A" + ",A" * 9_000, [1]),
    (f"{COUNT} GROUP BY CUBE(A" + ",A" * 9_000 + ")", 14),
]

CASES = [
    lines("texts that are queries", ROW + list(table(QUERIES))),
    lines("texts that are none", ROW + list(table((text, 10) for text in NO_QUERIES))),
    lines("limits of a query", ROW + list(table(LIMITS))),
    lines("long chains", ROW + list(table(CHAINS))),
]
