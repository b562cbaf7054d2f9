"""Runs with viewers beside them: what `olap live` writes after the output of `olap run`, or between its blocks."""

import pathlib

from cases.table import Case, OneOf, SCRIPT, Viewed, as_bytes, of_lines

SALES = ["ID,REGION,ITEM,UNITS", "1,north,pen,10", "2,north,ink,", "3,,pen,5", "4,south,pen,-2"]
PART = "".join(f"{line}\n" for line in SALES)
TABLE = "table T (K INT KEY)"
LOADED = ["table SALES (ID INT KEY, REGION TEXT, ITEM TEXT, UNITS INT)", "load 1", "publish"]
COUNT = "SELECT COUNT(*) FROM T"
# 512 sets.
MANY_SETS = f"CUBE({', '.join(['K'] * 9)})"


def view(viewer, edition, *rows):
    """A viewer's block."""
    return "".join(f"{line}\n" for line in (f"viewer {viewer} edition {edition}", *rows))


def counts(viewer, *pairs):
    """The blocks of a viewer that counts rows: an edition and its number of rows each."""
    return "".join(view(viewer, edition, "COUNT(*)", str(count)) for edition, count in pairs)


def live(title, rows, query, *tails, options=("--viewers", "1"), parts=()):
    """A script of these lines, as `of_lines` takes them, and the tails that are right behind its output."""
    text, output = of_lines(rows)
    names = [f"part{number}.csv" for number in range(1, len(parts) + 1)]
    files = {SCRIPT: text, **dict(zip(names, parts))}
    words = ["live", "--query", query, *options, SCRIPT, *names]
    return Case(title, words, files, output=OneOf([output + tail for tail in tails]))


ROWS = [
    live(
        "two viewers of a table without rows",
        [TABLE],
        COUNT,
        counts(1, (0, 0), (0, 0)) + counts(2, (0, 0), (0, 0)),
        options=(),
    ),
    live("viewers whose query names no column", [TABLE], "SELECT COUNT(X) FROM T", "viewers refused 11\n"),
    live("viewers whose query is none", [TABLE], "SELECT COUNT(* FROM T", "viewers refused 10\n"),
    live("viewers whose query has a wrong type", ["table T (K INT KEY, S TEXT)"], "SELECT SUM(S) FROM T", "viewers refused 13\n"),
    live("viewers whose query is not grouped", [TABLE], "SELECT K, COUNT(*) FROM T", "viewers refused 12\n"),
    live(
        "viewers whose HAVING has a column in no set",
        LOADED,
        "SELECT REGION FROM SALES GROUP BY REGION HAVING ITEM = 'pen'",
        "viewers refused 12\n",
        parts=[PART],
    ),
    live("viewers whose HAVING drops the one group", [TABLE], f"{COUNT} HAVING COUNT(*) > 0", view(1, 0, "COUNT(*)") * 2),
    live("viewers whose query is empty", [TABLE], "", "viewers refused 10\n"),
    live("viewers whose query has too many sets", [TABLE], f"SELECT COUNT(*) FROM T GROUP BY {MANY_SETS}", "viewers refused 14\n"),
    live("viewers whose query has too many items", [TABLE], f"SELECT {', '.join(['K'] * 33)} FROM T", "viewers refused 15\n"),
    live("viewers whose query has a GROUPING of too many names", [TABLE], f"SELECT GROUPING({', '.join(['K'] * 17)}) FROM T", "viewers refused 15\n"),
    live("viewers of a table that is declared twice", [TABLE, ("table U (K INT KEY)", 2)], COUNT, counts(1, (0, 0), (0, 0))),
    live("viewers of the empty script", [], COUNT, "viewers refused 1\n"),
    live("viewers of a script without a table", [("publish", 1)], "SELECT", "viewers refused 1\n"),
    live("viewers whose table is refused", [("table T (K INT)", 4)], COUNT, "viewers refused 1\n"),
    live("viewers of a table that is declared late", [("publish", 1), "", TABLE], COUNT, counts(1, (0, 0), (0, 0))),
    live(
        "a viewer of loaded sales",
        LOADED,
        "SELECT COUNT(*) FROM SALES",
        counts(1, (0, 0), (1, 4)),
        counts(1, (1, 4), (1, 4)),
        parts=[PART],
    ),
    live(
        "a report of the script stands before the viewers",
        [TABLE, "put 1", ("report SELECT COUNT(*) FROM T", "edition 0\nCOUNT(*)\n0"), ("put x", 7)],
        "SELECT COUNT(*), K FROM T GROUP BY K",
        view(1, 0, "COUNT(*) | K") * 2,
    ),
    live(
        "three shots of a draft that is never published",
        [TABLE, "put 1", "delete 1", "put 2"],
        COUNT,
        counts(1, *[(0, 0)] * 4) + counts(2, *[(0, 0)] * 4),
        options=("--viewers", "2", "--shots", "3"),
    ),
]

def coming(title, rows, viewers, shots, *reports, status=0, errors="", options=(), between=False):
    """A script of these lines, and viewers who count its rows as they come; the counts are those of its editions, in order.
    Where it is asked for, a viewer comes before the last report of the script."""
    text, output = of_lines(rows)
    words = ["live", "--as-they-come", "--query", COUNT, "--viewers", str(viewers), "--shots", str(shots), *options, SCRIPT]
    editions = {number: ["COUNT(*)", str(count)] for number, count in enumerate(reports)}
    wanted = Viewed(output=output, viewers=viewers, shots=shots, editions=editions, as_they_come=True, between=between)
    return Case(title, words, {SCRIPT: text}, output=wanted, errors=errors, status=status)


def put_and_publish(count):
    return [line for number in range(1, count + 1) for line in (f"put {number}", "publish")]


REPORT = f"report {COUNT}"
COMING = [
    live("a viewer as it comes", [TABLE], COUNT, counts(1, *[(0, 0)] * 4), options=("--as-they-come", "--viewers", "1", "--shots", "3")),
    coming("16 viewers as they come, 40 shots each", [TABLE, *put_and_publish(20)], 16, 40, *range(21)),
    coming(
        "viewers as they come between reports of the script",
        [TABLE, *put_and_publish(30), (REPORT, "edition 30\nCOUNT(*)\n30"), ("put x", 7), "put 31", "publish", (REPORT, "edition 31\nCOUNT(*)\n31")],
        3,
        100,
        *range(32),
    ),
    coming(
        "viewers as they come before a long script ends",
        [TABLE, *[line for number in range(600) for line in (*[f"put {100 * number + key}" for key in range(100)], "publish")], (REPORT, "edition 600\nCOUNT(*)\n60000")],
        2,
        10,
        *range(0, 60_001, 100),
        between=True,
    ),
    coming("more shots than lines, as they come", [TABLE, "put 1", "publish"], 2, 1_000, 0, 1),
    live("viewers as they come whose query is refused", [TABLE, ("put x", 7)], "SELECT COUNT(X) FROM T", "viewers refused 11\n", options=("--as-they-come",)),
    live("viewers as they come of no table", [("publish", 1)], COUNT, "viewers refused 1\n", options=("--as-they-come",)),
    Case(
        "viewers as they come of a script of one byte too many",
        ["live", "--as-they-come", "--query", COUNT, SCRIPT],
        {SCRIPT: b"#" * 1_048_577},
        output="line 0 refused 15\nviewers refused 1\n",
    ),
    Case(
        "viewers as they come, strict, and the first line is refused",
        ["live", "--as-they-come", "--strict", "--query", COUNT, SCRIPT],
        {SCRIPT: as_bytes(f"publish\n{TABLE}\n")},
        output="line 1 refused 1\n",
        errors="olap: stopped after a refused line\n",
        status=1,
    ),
    coming("viewers as they come, strict, and no line is refused", [TABLE, *put_and_publish(5)], 2, 3, *range(6), options=("--strict",)),
]

LIMITS = [
    Case(
        "viewers of a script of one byte too many",
        ["live", "--query", COUNT, SCRIPT],
        {SCRIPT: b"#" * 1_048_577},
        output="line 0 refused 15\nviewers refused 1\n",
    ),
    Case(
        "viewers of 65 parts",
        ["live", "--query", COUNT, SCRIPT, *["part.csv"] * 65],
        {SCRIPT: as_bytes(TABLE), "part.csv": "K\n"},
        output="line 0 refused 15\nviewers refused 1\n",
    ),
    live("16 viewers", [TABLE], COUNT, "".join(counts(v, (0, 0), (0, 0)) for v in range(1, 17)), options=("--viewers", "16")),
    live("1,000 shots", [TABLE], COUNT, counts(1, *[(0, 0)] * 1_001), options=("--viewers", "1", "--shots", "1000")),
]

EXAMPLES = pathlib.Path(__file__).resolve().parent.parent.parent / "examples"

EXAMPLE = [
    Case(
        f"the example with viewers, {' '.join(options)}",
        ["live", "--query", "SELECT COUNT(*) FROM SALES", *options, SCRIPT, "part.csv"],
        {SCRIPT: (EXAMPLES / "live.olap").read_bytes(), "part.csv": (EXAMPLES / "live.1.csv").read_bytes()},
        output=(EXAMPLES / "live.viewed").read_bytes(),
    )
    for options in [("--workers", "1"), ("--workers", "7", "--hash", "plain")]
]

CASES = ROWS + COMING + LIMITS + EXAMPLE
