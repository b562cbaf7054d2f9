"""Sessions: lines that come on standard input. All of the input is there at once in these cases, as it is for `olap run`;
`tools/talk` sends line after line."""

from cases import forms, loads, records, reports, schemas, scripts, shapes, strict, updates
from cases.table import SCRIPT, Case, Text, as_bytes, block, of_lines

LIMIT = 1_048_576
TABLE = "table T (K INT KEY)"
COUNT = "report SELECT COUNT(*) FROM T"
MORE = "\n\nFor more information, try '--help'.\n"
STOPPED = "olap: stopped after a refused line\n"
PART = "K\n1\n2\n"


def count(edition, rows):
    """What a count gives."""
    return block(edition, "COUNT(*)", str(rows))


def session(title, text, output="", parts=(), options=(), status=0, errors=""):
    """A session over this input."""
    names = [f"part{number}.csv" for number in range(1, len(parts) + 1)]
    files = {SCRIPT: text, **dict(zip(names, parts))}
    return Case(title, ["session", *options, *names], files, SCRIPT, output, errors, status)


def lines(title, rows, **more):
    """A session over these lines, as `of_lines` takes them."""
    return session(title, *of_lines(rows), **more)


def is_run(case):
    """It is a run of a script that a session can hear: one within the limits, of which nothing is told beside it."""
    told = {"--explain", "--progress"} & set(case.words)
    is_heard = case.words[0] == "run" and case.words.count(SCRIPT) == 1 and not told
    return is_heard and len(as_bytes(case.files[SCRIPT])) <= LIMIT and case.output != "line 0 refused 15\n"


def heard(case):
    """A session over the script of a run: it writes the same."""
    words = ["session", *(word for word in case.words[1:] if word != SCRIPT)]
    return Case(f"as a run, {case.title}", words, case.files, SCRIPT, case.output, case.errors, case.status)


# One line of each refusal that leaves a table as it stands, with its number.
FAULTY = [
    (TABLE, 2),
    ("table U (K INT)", 2),
    ("Put 3", 3),
    ("publish now", 3),
    ("shape x", 3),
    ("load", 3),
    (b"put \xff", 3),
    (b"\xff", 3),
    ("load 2", 5),
    ("load 1", "refused 6 part 1 record 2"),
    ("put x", 7),
    ("put 3,4", 7),
    ("put", 7),
    ("put 9223372036854775808", 7),
    ("put 3", 9),
    ("delete 'a'", 8),
    ("delete", 8),
    ("report", 10),
    ("report SELECT COUNT(* FROM T", 10),
    ("report SELECT COUNT(*) FROM U", 11),
    ("report SELECT K FROM T", 12),
    ("report SELECT COUNT(*) FROM T WHERE K = 'a'", 13),
    (f"{COUNT} GROUP BY CUBE({', '.join('K' * 9)})", 14),
    (f"report SELECT {', '.join(['COUNT(*)'] * 33)} FROM T", 15),
    (b"put " + b"7" * LIMIT, 15),
]


def stands(fault):
    """A table of two rows, a line that is refused, and the table after it: its edition and its draft."""
    return lines(
        f"a refused line leaves the table as it stands, {as_bytes(fault[0])[:30]}",
        [TABLE, "put 1", "put 2", "publish", fault, (COUNT, count(1, 2)), "publish", (COUNT, count(2, 2))],
        parts=["K\n5\nx\n"],
        options=["--rows", "2"],
    )


def comment(length):
    """A comment of so many bytes."""
    return "#" * length


TWO = of_lines([TABLE, "put 1", "publish", (COUNT, count(1, 1))])

CASES = [
    session("no line", ""),
    session("one line feed", "\n"),
    session("a last line without a line feed", "publish", "line 1 refused 1\n"),
    session("carriage returns", TWO[0].replace(b"\n", b"\r\n"), TWO[1]),
    session("a last carriage return without a line feed", "publish\r", "line 1 refused 3\n"),
    session("two carriage returns", "publish\r\r\n", "line 1 refused 3\n"),
    session("empty lines count", "\n\n\r\npublish\n", "line 4 refused 1\n"),
    session("bytes that are no UTF-8", b"\xff\n\xfe", "line 1 refused 3\nline 2 refused 3\n"),
    *map(stands, FAULTY),
    # A line may be as long as a script, and there may be more of them.
    lines("a line at the limit", [TABLE, comment(LIMIT), (COUNT, count(0, 0))]),
    lines("a line above the limit", [TABLE, (comment(LIMIT + 1), 15), (COUNT, count(0, 0))]),
    lines("a line far above the limit", [TABLE, (comment(3 * LIMIT), 15), "put 1", "publish", (COUNT, count(1, 1))]),
    lines("more lines than a script", [TABLE, *[comment(LIMIT)] * 3, "put 1", "publish", (COUNT, count(1, 1))]),
    session("a carriage return above the limit", f"{comment(LIMIT)}\r\npublish\r\n", "line 2 refused 1\n"),
    session("one above the limit with a carriage return", f"{comment(LIMIT + 1)}\r\n", "line 1 refused 15\n"),
    session("a last line at the limit", comment(LIMIT)),
    session("a last line above the limit", comment(LIMIT + 1), "line 1 refused 15\n"),
    session("a last carriage return above the limit", comment(LIMIT) + "\r", "line 1 refused 15\n"),
    # Parts, options and words.
    lines("parts", [TABLE, "load 1 2", "publish", (COUNT, count(1, 3))], parts=[PART, "K\n3\n"], options=["--workers", "3"]),
    lines("workers", [TABLE, "load 1", "publish", (COUNT, count(1, 2))], parts=[PART], options=["--workers=4", "--depth", "0"]),
    lines("the last of 64 parts", [TABLE, "load 64", "publish", (COUNT, count(1, 2))], parts=[PART] * 64),
    session("json", "publish\n", '{"line":1,"refused":1,"name":"NoTable"}\n', options=["--format", "json"]),
    session(
        "strict", "publish\npublish\n", "line 1 refused 1\n", options=["--strict"], status=1, errors=STOPPED
    ),
    lines("strict, and nothing is refused", [TABLE, "publish", (COUNT, count(1, 0))], options=["--strict"]),
    session("a line above the limit, strict", comment(LIMIT + 1), "line 1 refused 15\n", options=["--strict"], status=1, errors=STOPPED),
    session(
        "65 parts", "publish\n", parts=[PART] * 65, status=2, errors=f"error: at most 64 parts are read, and 65 were given{MORE}"
    ),
    session("no such part", "publish\n", options=["missing.csv"], status=2, errors="olap: cannot read missing.csv: no such file\n"),
    session(
        "workers beyond", "publish\n", options=["--workers", "65"], status=2, errors=f"error: '--workers' takes a number from 1 to 64{MORE}"
    ),
    session("no such option", "publish\n", options=["--query", "x"], status=2, errors=Text("error: ")),
    session("no such option of a run", "publish\n", options=["--progress"], status=2, errors=Text("error: ")),
    Case("a folder as the input", ["session"], {"folder": None}, "folder", errors="olap: cannot read -: it is a folder\n", status=3),
    Case("session --help", ["session", "--help"], output=Text(has="Usage: olap session [OPTIONS] [PART]...\n")),
    Case("session -h: options", ["session", "-h"], output=Text(has="--workers <N>")),
    Case("help session", ["help", "session"], output=Text(has="Usage: olap session [OPTIONS] [PART]...\n")),
    Case("help names sessions", ["--help"], output=Text(has="\n  olap session [PART]... ")),
    *[
        heard(case)
        for table in (forms, loads, records, reports, schemas, scripts, shapes, strict, updates)
        for case in getattr(table, "CASES", [])
        if is_run(case)
    ],
]

MANY = "publish\n" + "table T (K INT KEY, V TEXT)\n" + "".join(f"put {key},row {key}\n" for key in range(50_000))


def ends(title, text, kilobytes, streams="2> errors", output="line 1 refused 1\n", errors="", status=3):
    """A session that ends early."""
    case = Case(title, ["session"], {SCRIPT: text, "errors": ""}, output=output, errors=errors, status=status)
    return case, f'(ulimit -v {kilobytes}; "$@" < {SCRIPT} {streams}); echo $? > status'


WRITTEN_TO = [
    ends("no memory", MANY, 10_000, errors="olap: ended 90\n"),
    ends("a full disk", "publish\n", "unlimited", "> /dev/full 2> errors", "", "olap: ended 92\n"),
    ends("a full disk, and nothing to write", "\n", "unlimited", "> /dev/full 2> errors", "", "", 0),
    ends("a full disk that nobody reads of", "publish\n", "unlimited", "> /dev/full 2> /dev/full", ""),
]

# At a terminal each line is asked for, and each publish is told.
ON_SCREEN = [
    Case(
        "on a terminal",
        ["session"],
        {SCRIPT: f"{TABLE}\nput 1\nput 2\npublish\ndelete 1\npublish\n{COUNT}\nput x\n"},
        SCRIPT,
        errors="olap> olap> olap> olap> olap: edition 1, rows 2\r\nolap> olap> olap: edition 2, rows 1\r\nolap> "
        "line 7 edition 2\r\nCOUNT(*)\r\n1\r\nolap> line 8 refused 7\r\nolap> ",
    ),
]
