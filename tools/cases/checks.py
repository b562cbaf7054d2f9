"""`olap check`: the faults of a script and of the parts that it lists, in lines as `--explain` has them, on standard output; and
the status, 0 where there is none and 1 where there is one. Nothing is loaded and no report is written."""

from cases.reasons import HEADER, PART, TABLE, told
from cases.table import Case, SCRIPT, as_bytes

GOOD = HEADER + "1,a,1\n2,b,\n"
# A table of two columns, and a part of it whose last field has all that follows its quote.
PAIRS = "table PAIRS (ID INT KEY, REGION TEXT)"
OPEN = 'ID,REGION\n1,a\n2,"b\n3,c\n'
COUNT = "report SELECT COUNT(*) FROM SALES"


def check(title, lines, output="", parts=(), words=None, status=None, errors=""):
    """A check of a script of these lines, with these parts."""
    names = [f"part{number}.csv" for number in range(1, len(parts) + 1)]
    files = {SCRIPT: b"".join(as_bytes(line) + b"\n" for line in lines), **dict(zip(names, parts))}
    status = (1 if output else 0) if status is None else status
    return Case(title, words or ["check", SCRIPT, *names], files, output=output, errors=errors, status=status)


def faulty(count):
    """So many faulty records of a part, each on a line of its own after the header, and what is told of each."""
    records = "".join(f"{key},a,+1\n" for key in range(1, count + 1))
    lines = [
        f"part1.csv:{key + 1}: record {key}, column UNITS: +1: a number has no plus {PART}\n" for key in range(1, count + 1)
    ]
    return HEADER + records, lines


def many(count):
    """A part of so many faulty records: the first hundred are told one by one."""
    text, lines = faulty(count)
    more = f"part1.csv: {count - 100} faulty records more {PART}\n" if count > 100 else ""
    return check(f"{count} faulty records", [TABLE, "load 1"], "".join(lines[:100]) + more, [text])


CASES = [
    check("an empty script", []),
    check("no fault", [TABLE, "load 1", "put 3,c,3", "delete 1", "publish", COUNT, "shape"], "", [GOOD]),
    check("a report is not written", [TABLE, "put 1,a,1", "publish", COUNT]),
    check(
        "faults of lines, in order",
        ["publish", TABLE, "put 1,a,1.5", "load 2", "report SELECT COUNT(*) FROM SALES;", "delete a"],
        told(1, "publish", 1, None, "no table is declared before this line")
        + told(3, "put 1,a,1.5", 7, None, "column UNITS: 1.5: numbers are whole")
        + told(4, "load 2", 5, "2", "2: no part of this number, of those handed in: 1")
        + told(5, "report SELECT COUNT(*) FROM SALES;", 10, ";", ";: no semicolon stands at the end")
        + told(6, "delete a", 8, "a", "a: the key, a number, should stand here"),
        [GOOD],
    ),
    check(
        "all faulty records of all listed parts, after the faults of lines",
        [TABLE, "load 3 1", "publish now"],
        told(3, "publish now", 3, "now", "now: the line should end before this")
        + f"part1.csv:2: record 1, fields found: 1, wanted: 3 {PART}\n"
        + f"part1.csv:4: record 3, column ID: x: no whole number {PART}\n"
        + f"part3.csv:1: record 0: the header is ID where ID,REGION,UNITS is wanted {PART}\n",
        [HEADER + "1\n2,b,2\nx,c,3\n", "nothing\n", "ID\n1\n"],
    ),
    check(
        "a number of no part after one of a part",
        [TABLE, "load 1 2"],
        told(2, "load 1 2", 5, "2", "2: no part of this number, of those handed in: 1"),
        [GOOD],
    ),
    check("a part that no line lists", [TABLE, "load 1"], "", [GOOD, "nothing\n"]),
    check("a part that is listed twice", [TABLE, "load 1 1", "load 01"], f"part1.csv:2: record 1, fields found: 1, wanted: 3 {PART}\n", [HEADER + "1\n"]),
    check("lines that end in a carriage return", [f"{TABLE}\r", "load 1\r"], f"part1.csv:2: record 1, fields found: 1, wanted: 3 {PART}\n", [HEADER + "1\n"]),
    check(
        "no table, so nothing of the parts",
        ["load 1"],
        told(1, "load 1", 1, None, "no table is declared before this line"),
        ["nothing\n"],
    ),
    check(
        "a quote that is opened and never closed, whose field has all that follows",
        [TABLE, "load 1"],
        "part1.csv:3: a quote is opened and never closed\n" + f"part1.csv:3: record 2, fields found: 2, wanted: 3 {PART}\n",
        [HEADER + '1,a,1\n2,"b,2\n3,c,3\n'],
    ),
    check(
        "the same at the end of a record, which no run refuses",
        [PAIRS, "load 1 2"],
        "part1.csv:3: a quote is opened and never closed\n",
        [OPEN, "ID,REGION\n4,d\n"],
    ),
    check(
        "a text after a closing quote, and a quote in a field that begins without one",
        [TABLE, "load 2 1"],
        "part1.csv:2: a text stands after a closing quote\npart2.csv:3: a quote stands in a field that does not begin with one\n",
        [HEADER + '1,"a"b,1\n', HEADER + '1,a,1\n2,b"c,2\n'],
    ),
    check("such a quote in a part that no line lists", [TABLE, "load 2"], "", [OPEN, GOOD]),
    many(99),
    many(100),
    many(103),
    check(
        "a script of one byte too many",
        [],
        f"{SCRIPT}: 1048577 bytes of a script, 1048576 at most (15 Limit)\n",
        words=["check", "long.olap"],
    ),
    check("no script", [], words=["check"], status=2, errors="error: no SCRIPT\n\nFor more information, try 'olap help check'.\n"),
    check("a script that is not there", [], words=["check", "none"], status=2, errors="olap: cannot read none: no such file\n"),
    check(
        "a part that is not there",
        [TABLE],
        words=["check", SCRIPT, "none"],
        status=2,
        errors="olap: cannot read none: no such file\n",
    ),
    check("after --, a file's name", [TABLE], words=["check", "--", SCRIPT]),
]
# The script that is too long is a file of another name.
for case in CASES:
    if case.words[-1] == "long.olap":
        case.files["long.olap"] = b"#" * 1_048_577
        case.output = case.output.replace(SCRIPT, "long.olap")
