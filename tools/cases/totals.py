"""Totals in a table: where the grouping set of a row lacks a column that is shown, `(all)` stands there, and `NULL` for a NULL of
the data alone. The other forms have NULL for both."""

from cases.questions import answer
from cases.table import Case, OneOf, SCRIPT, script

DECLARED = "table T (K INT KEY, R TEXT, S TEXT, V INT)"
RECORDS = ["1,north,a,10", "2,north,,5", "3,,a,7", "4,,,"]
LINES = [DECLARED, *(f"put {record}" for record in RECORDS), "publish"]
FILE = "\n".join(["K,R,S,V", *RECORDS, ""])
ROLLED = "SELECT R, S, SUM(V) FROM T GROUP BY ROLLUP (R, S)"
TITLES = ["R      S      SUM(V)", "-----  -----  ------"]
# The rows of ROLLED, by their grouping sets.
BOTH = ["NULL   NULL   NULL", "NULL   a           7", "north  NULL        5", "north  a          10"]
FIRST = ["NULL   (all)       7", "north  (all)      15"]
ALL = ["(all)  (all)      22"]
ROLLED_ROWS = [*BOTH, *FIRST, *ALL]


def told(query, rows, form="table", lines=LINES):
    """A report of the table in a form."""
    text = "".join(f"{line}\n" for line in [*lines, f"report {query}"])
    return script(f"{query}, {form}", text, "\n".join([f"line {len(lines) + 1} edition 1", *rows, ""]), options=["--format", form])


def asked(options, rows, query=ROLLED):
    """A question of the same rows, whose answer is a table."""
    words = ["query", "--format", "table", *options, query, "t.csv"]
    return Case(f"query: {' '.join(options)} {query}", words, {"t.csv": FILE}, output="\n".join([*rows, ""]))


def viewed(number, rows):
    return "\n".join([f"viewer 1 edition {number}", *rows, ""])


EMPTY = ["R      S      SUM(V)", "-----  -----  ------", "(all)  (all)  NULL"]

CASES = [
    told(ROLLED, [*TITLES, *ROLLED_ROWS]),
    told(
        "SELECT S, R, COUNT(*) FROM T GROUP BY CUBE (R, S)",
        [
            "S      R      COUNT(*)",
            "-----  -----  --------",
            *["NULL   NULL          1", "a      NULL          1", "NULL   north         1", "a      north         1"],
            *["(all)  NULL          2", "(all)  north         2"],
            *["NULL   (all)         2", "a      (all)         2"],
            "(all)  (all)         4",
        ],
    ),
    told(
        "SELECT R, GROUPING(R), S, MIN(R), COUNT(*) FROM T GROUP BY GROUPING SETS (S, (), R)",
        [
            "R      GROUPING(R)  S      MIN(R)  COUNT(*)",
            "-----  -----------  -----  ------  --------",
            *["(all)            1  NULL   north          2", "(all)            1  a      north          2"],
            "(all)            1  (all)  north          4",
            *["NULL             0  (all)  NULL           2", "north            0  (all)  north          2"],
        ],
    ),
    # Of two columns that are grouped by one is shown, and a column may be shown twice.
    told("SELECT R, COUNT(*), R FROM T GROUP BY ROLLUP (R, S)", ["R      COUNT(*)  R", "-----  --------  -----", *2 * ["NULL          1  NULL"], *2 * ["north         1  north"], "NULL          2  NULL", "north         2  north", "(all)         4  (all)"]),
    # In the set of each row is what is shown.
    told("SELECT R, COUNT(*) FROM T GROUP BY R, ROLLUP (S)", ["R      COUNT(*)", "-----  --------", *2 * ["NULL          1"], *2 * ["north         1"], "NULL          2", "north         2"]),
    told(f"{ROLLED} HAVING R IS NULL AND COUNT(*) > 1", [*TITLES, FIRST[0], ALL[0]]),
    told(f"{ROLLED} HAVING GROUPING(S) = 1 AND SUM(V) > 7", [*TITLES, FIRST[1], ALL[0]]),
    # A text of the data may read so, too: it stands there as it is.
    told("SELECT R, COUNT(*) FROM T GROUP BY ROLLUP (R)", ["R      COUNT(*)", "-----  --------", "(all)         1", "(all)         1"], lines=[DECLARED, "put 1,(all),,", "publish"]),
    # A total of integers stands at the left, as NULL.
    told("SELECT V, COUNT(*) FROM T GROUP BY ROLLUP (V)", ["V      COUNT(*)", "-----  --------", "NULL          1", "    5         1", "    7         1", "   10         1", "(all)         4"]),
    told("SELECT R, S, SUM(V) FROM T WHERE K > 9 GROUP BY ROLLUP (R, S)", EMPTY),
    told("SELECT R, COUNT(*) FROM T GROUP BY ROLLUP (R)", ["R | COUNT(*)", "NULL | 2", "'north' | 2", "NULL | 4"], "classic"),
    script("the same, csv", "".join(f"{line}\n" for line in [*LINES, "report SELECT R, COUNT(*) FROM T GROUP BY ROLLUP (R)"]), 'line,7,edition,1\n"R","COUNT(*)"\n,2\nnorth,2\n,4\n', options=["--format", "csv"]),
    script(
        "the same, json",
        "".join(f"{line}\n" for line in [*LINES, "report SELECT R, COUNT(*) FROM T GROUP BY ROLLUP (R)"]),
        '{"line":7,"edition":1,"columns":["R","COUNT(*)"],"rows":[[null,2],["north",2],[null,4]]}\n',
        options=["--format", "json"],
    ),
    Case(
        "a viewer of totals",
        ["live", "--format", "table", "--query", ROLLED, "--viewers", "1", "--shots", "1", SCRIPT],
        {SCRIPT: "".join(f"{line}\n" for line in LINES)},
        output=OneOf([viewed(number, rows) + viewed(1, [*TITLES, *ROLLED_ROWS]) for number, rows in ((0, EMPTY), (1, [*TITLES, *ROLLED_ROWS]))]),
    ),
    Case(
        "a session of totals",
        ["session", "--format", "table"],
        {"lines": "".join(f"{line}\n" for line in [*LINES, f"report {ROLLED}"])},
        given="lines",
        output="\n".join(["line 7 edition 1", *TITLES, *ROLLED_ROWS, ""]),
    ),
    asked([], [*TITLES, *ROLLED_ROWS]),
    # A total is NULL where rows are put in order, and rows that tie stay as they are.
    asked(["--order", "R"], [*TITLES, BOTH[0], BOTH[1], FIRST[0], ALL[0], BOTH[2], BOTH[3], FIRST[1]]),
    asked(["--order", "S desc, SUM(V) desc", "--limit", "4"], [*TITLES, BOTH[3], BOTH[1], ALL[0], FIRST[1]]),
    asked(["--order", "SUM(V) desc", "--limit", "1"], [*TITLES, ALL[0]]),
    asked(["--limit", "1"], ["R     S     SUM(V)", "----  ----  ------", "NULL  NULL  NULL"]),
    Case("query: totals in CSV, in order", ["query", "--order", "R", ROLLED, "t.csv"], {"t.csv": FILE}, output=answer("R | S | SUM(V)", "NULL | NULL | NULL", "NULL | 'a' | 7", "NULL | NULL | 7", "NULL | NULL | 22", "'north' | NULL | 5", "'north' | 'a' | 10", "'north' | NULL | 15")),
]

# Where standard output is a terminal, the answer is a table.
ON_SCREEN = [
    Case("query: totals on a terminal", ["query", "--order", "SUM(V) desc", "--limit", "2", ROLLED, "t.csv"], {"t.csv": FILE}, errors="".join(f"{line}\r\n" for line in [*TITLES, ALL[0], FIRST[1]])),
]
