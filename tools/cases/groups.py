"""The rows of reports: groups and their order, aggregates, and how values are printed; whatever the table is cut into."""

from cases.table import lines, script, scripts

# the ways in which a table is cut into pieces, which workers share
WAYS = [
    (),
    ("--depth", "0"),
    ("--depth", "13", "--workers", "2"),
    ("--depth", "13", "--workers", "7", "--hash", "plain"),
    ("--depth", "2", "--small", "3", "--workers", "64", "--hash", "plain"),
]


def written(rows):
    """A script of these lines and what it writes, as `lines` has them."""
    text = "".join(f"{line}\n" for line, _ in rows)
    return text, "".join(f"line {number} {gives}\n" for number, (_, gives) in enumerate(rows, 1) if gives)


def each_way(title, rows, parts=()):
    return scripts(title, *written(rows), parts, WAYS)


REGIONS = [
    ("table SALES (ID INT KEY, REGION TEXT, UNITS INT)", None),
    ("report SELECT GROUPING(REGION), COUNT(*) FROM SALES GROUP BY REGION", "edition 0\nGROUPING(REGION) | COUNT(*)"),
    (
        "report SELECT REGION, GROUPING(REGION), COUNT(*), SUM(UNITS) FROM SALES GROUP BY ROLLUP(REGION)",
        "edition 0\nREGION | GROUPING(REGION) | COUNT(*) | SUM(UNITS)\nNULL | 1 | 0 | NULL",
    ),
    ("put 1,south,", None),
    ("put 2,,5", None),
    ("put 3,north,10", None),
    ("put 4,north,5", None),
    ("publish", None),
    (
        "report SELECT REGION, GROUPING(REGION), COUNT(*), SUM(UNITS) FROM SALES GROUP BY ROLLUP(REGION)",
        "edition 1\nREGION | GROUPING(REGION) | COUNT(*) | SUM(UNITS)\n"
        "NULL | 0 | 1 | 5\n'north' | 0 | 2 | 15\n'south' | 0 | 1 | NULL\nNULL | 1 | 4 | 20",
    ),
]

# DISTINCT keeps the first of equal sets, and GROUPING of two columns tells which of them are subtotals
ITEMS = [
    ("table SALES (ID INT KEY, REGION TEXT, ITEM TEXT, UNITS INT)", None),
    ("put 1,north,pen,10", None),
    ("put 2,north,ink,", None),
    ("put 3,,pen,5", None),
    ("put 4,south,pen,-2", None),
    ("publish", None),
    (
        "report SELECT REGION, ITEM, GROUPING(REGION, ITEM), COUNT(*) FROM SALES"
        " GROUP BY DISTINCT GROUPING SETS (REGION, ITEM, ROLLUP(REGION))",
        "edition 1\nREGION | ITEM | GROUPING(REGION, ITEM) | COUNT(*)\n"
        "NULL | NULL | 1 | 1\n'north' | NULL | 1 | 2\n'south' | NULL | 1 | 1\n"
        "NULL | 'ink' | 2 | 1\nNULL | 'pen' | 2 | 3\nNULL | NULL | 3 | 4",
    ),
    (
        "report SELECT ITEM, GROUPING(ITEM, REGION), COUNT(*) FROM SALES GROUP BY GROUPING SETS (ITEM, (), ITEM)",
        "refused 12",
    ),
    (
        "report SELECT ITEM, GROUPING(ITEM, UNITS), SUM(UNITS) FROM SALES GROUP BY ROLLUP(ITEM, UNITS), ROLLUP(ITEM)",
        "edition 1\nITEM | GROUPING(ITEM, UNITS) | SUM(UNITS)\n"
        + "'ink' | 0 | NULL\n'pen' | 0 | -2\n'pen' | 0 | 5\n'pen' | 0 | 10\n" * 2
        + "'ink' | 1 | NULL\n'pen' | 1 | 13\n" * 3
        + "NULL | 3 | 13",
    ),
]

HIGH = "9223372036854775807"
LOW = "-9223372036854775808"

# lists of integers, and their aggregates: COUNT(*), COUNT, COUNT DISTINCT, MIN, MAX and SUM
INTEGERS = [
    (["", ""], "2 | 0 | 0 | NULL | NULL | NULL"),
    (["1", "", "2", "1"], "4 | 3 | 2 | 1 | 2 | 4"),
    (["-1", "1"], "2 | 2 | 2 | -1 | 1 | 0"),
    (["-1"], "1 | 1 | 1 | -1 | -1 | -1"),
    ([HIGH] * 3, f"3 | 3 | 1 | {HIGH} | {HIGH} | 27670116110564327421"),
    ([LOW] * 3, f"3 | 3 | 1 | {LOW} | {LOW} | -27670116110564327424"),
]
NUMBERS = "COUNT(*), COUNT(V), COUNT(DISTINCT V), MIN(V), MAX(V), SUM(V)"

# the same of lists of texts, without SUM
STRINGS = [
    (["", ""], "2 | 0 | 0 | NULL | NULL"),
    (["b'", "", "aaa", "b", "Z", "b"], "6 | 5 | 4 | 'Z' | 'b'''"),
    (["pen", "it's"], "2 | 2 | 2 | 'it''s' | 'pen'"),
    (["''", "NULL"], "2 | 2 | 2 | '''''' | 'NULL'"),
    (["é'"], "1 | 1 | 1 | 'é''' | 'é'''"),
]
TEXTS = "COUNT(*), COUNT(V), COUNT(DISTINCT V), MIN(V), MAX(V)"


def aggregates(kind, items, lists):
    """The lists as the groups of a table, numbered from 0, and the aggregates over no rows."""
    heading = items.replace(", ", " | ")
    yield f"table L (K INT KEY, G INT, V {kind})", None
    key = 0
    for group, (values, _) in enumerate(lists):
        for value in values:
            key += 1
            yield f"put {key},{group},{value}", None
    yield "publish", None
    rows = "".join(f"\n{group} | {row}" for group, (_, row) in enumerate(lists))
    yield f"report SELECT G, {items} FROM L GROUP BY G", f"edition 1\nG | {heading}{rows}"
    none = " | ".join(["0", "0", "0", "NULL", "NULL", "NULL"][: items.count(",") + 1])
    yield f"report SELECT {items} FROM L WHERE K < 0", f"edition 1\n{heading}\n{none}"


def order(kind, rising):
    """Values that are put in another order than the one in which a report has them."""
    yield f"table T (K {kind} KEY)", None
    for value in rising[1::2] + rising[::2][::-1]:
        yield f"put {value}", None
    yield "publish", None
    rows = "\n".join(value if kind == "INT" else f"'{value}'" for value in rising)
    yield "report SELECT K FROM T GROUP BY K", f"edition 1\nK\n{rows}"


RISING = [LOW, "-1", "0", "1", "16", HIGH]
RISING_TEXTS = [" ", "Z", "a", "a\0", "ab", "b", "b123456789012345", "b1234567890123456", "b1234567890123457", "é"]


def pairs():
    """A thousand groups of two small integers, each met twice, in turn."""
    yield "table P (K INT KEY, A INT, B INT)", None
    for key in range(2_000):
        yield f"put {key},{key % 20},{key // 20 % 50}", None
    yield "publish", None
    rows = "".join(f"\n{first} | {second} | 2" for first in range(20) for second in range(50))
    yield "report SELECT A, B, COUNT(*) FROM P GROUP BY A, B", f"edition 1\nA | B | COUNT(*){rows}"


# the texts of a part may have line ends
LINES = 'ID,REGION,UNITS\n1,it\'s,3\n2,"two\nlines | and a bar",\n' + "".join(f"{key},,{LOW}\n" for key in range(3, 7))
PRINTED = """table SALES (ID INT KEY, REGION TEXT, UNITS INT)
load 1
publish
report SELECT region, SUM(units) FROM sales GROUP BY region
"""
PRINTED_SO = """line 4 edition 1
REGION | SUM(UNITS)
NULL | -36893488147419103232
'it''s' | 3
'two
lines | and a bar' | NULL
"""

CASES = [
    *each_way("a report by region", REGIONS),
    *each_way("a report by two columns", ITEMS),
    *each_way("aggregates of integers", list(aggregates("INT", NUMBERS, INTEGERS))),
    *each_way("aggregates of texts", list(aggregates("TEXT", TEXTS, STRINGS))),
    *each_way("a thousand groups", list(pairs())),
    lines("the order of integers", list(order("INT", RISING))),
    lines("the order of texts", list(order("TEXT", RISING_TEXTS))),
    script("values in lines", PRINTED, PRINTED_SO, [LINES]),
]
