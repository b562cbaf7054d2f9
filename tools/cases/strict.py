"""Strict runs: `--strict` stops after the first refused line, with the status 1, and changes nothing where no line is refused."""

import pathlib

from cases.table import Case, SCRIPT, Viewed, as_bytes, block, of_lines, script

STOPPED = "olap: stopped after a refused line\n"
TURNED_AWAY = "olap: the query of the viewers is refused\n"
TABLE = "table T (K INT KEY)"
COUNT = "report SELECT COUNT(*) FROM T"
EXAMPLES = pathlib.Path(__file__).resolve().parent.parent.parent / "examples"


def counts(edition, rows):
    """What a count gives."""
    return block(edition, "COUNT(*)", str(rows))


def up_to_refused(rows):
    """The rows up to the first that gives a refusal, and whether there is one."""
    for place, row in enumerate(rows):
        gives = row[1] if isinstance(row, tuple) else None
        if isinstance(gives, int) or (gives or "").startswith("refused"):
            return rows[: place + 1], True
    return rows, False


def both(title, rows, parts=(), options=()):
    """A script of these lines, as `of_lines` takes them, strict and not."""
    text, output = of_lines(rows)
    first, is_refused = up_to_refused(rows)
    stopped = (1, STOPPED) if is_refused else (0, "")
    return [
        script(f"{title}, not strict", text, output, parts, options),
        script(f"{title}, strict", text, of_lines(first)[1], parts, (*options, "--strict"), *stopped),
    ]


LINES = [
    *both("the empty script", []),
    *both("no refused line", [TABLE, "put 1", "publish", (COUNT, counts(1, 1))]),
    *both("a refused table", [(f"{TABLE} x", 4), TABLE, (COUNT, counts(0, 0))]),
    *both("a second table", [TABLE, (TABLE, 2), (COUNT, counts(0, 0))]),
    *both("a line before the table", [("publish", 1), TABLE, "publish"]),
    *both("no command", ["# a comment", "", ("Put 1", 3), TABLE]),
    *both("bytes that are no UTF-8", [TABLE, (b"\xff", 3), (COUNT, counts(0, 0))]),
    *both("a refused put", [TABLE, "put 1", ("put x", 7), "put 2", "publish", (COUNT, counts(1, 2))]),
    *both("a full draft", [TABLE, "put 1", ("put 2", 9), "publish", (COUNT, counts(1, 1))], options=("--rows", "1")),
    *both("a refused delete", [TABLE, ("delete 'a'", 8), "delete 1", "publish"]),
    *both("a publish with a rest", [TABLE, "put 1", ("publish now", 3), (COUNT, counts(0, 0))]),
    *both("a shape with a rest", [TABLE, ("shape x", 3), ("shape", block(0))]),
    *both("a report that is no query", [TABLE, ("report SELECT COUNT(* FROM T", 10), (COUNT, counts(0, 0))]),
    *both("a report of another table", [TABLE, ("report SELECT COUNT(*) FROM U", 11), (COUNT, counts(0, 0))]),
    *both("a report of too many sets", [TABLE, (f"{COUNT} GROUP BY CUBE({', '.join('K' * 9)})", 14), "publish"]),
    *both("the last line alone", [TABLE, "publish", (COUNT, counts(1, 0)), ("put", 7)]),
    *both("two refused lines", [TABLE, ("put x", 7), ("delete", 8)]),
    # Shapes and reports are no refusals, whatever their texts say.
    *both(
        "a text that looks like a refusal",
        [
            "table T (K TEXT KEY)",
            "put line 1 refused 7",
            "publish",
            ("report SELECT K, COUNT(*) FROM T GROUP BY K", block(1, "K | COUNT(*)", "'line 1 refused 7' | 1")),
            ("shape", block(1)),
        ],
    ),
    # More reports than may be under way: all of them are written before the refusal.
    *both(
        "reports under way",
        [TABLE, "put 1", "publish", *[(COUNT, counts(1, 1))] * 12, ("put x", 7), (COUNT, counts(1, 1))],
        options=("--workers", "3"),
    ),
]

LOADS = [
    *both("a load of no part", [TABLE, ("load 1", 5), "publish", (COUNT, counts(1, 0))]),
    *both("a listing that is none", [TABLE, ("load 1,2", 3), "load 1"], ["K\n1\n"]),
    *both(
        "a faulty part",
        [TABLE, "load 1", ("load 1 2", "refused 6 part 2 record 2"), "publish", (COUNT, counts(1, 1))],
        ["K\n1\n", "K\n2\nx\n"],
        ("--workers", "2"),
    ),
    *both(
        "a load beyond the rows",
        [TABLE, ("load 1", 9), "put 5", "publish", (COUNT, counts(1, 1))],
        ["K\n1\n2\n3\n"],
        ("--rows", "2"),
    ),
]


def blocks_of(output):
    """The blocks of an output in which no text has a line of its own like `line N ..`."""
    found = []
    for line in output.splitlines(keepends=True):
        found += [line] if line.startswith("line ") else []
        found[-1] += "" if line.startswith("line ") else line
    return found


def example(path):
    """The script of an example as it stands, and with one spoilt line before its first report: strict and not."""
    lines = path.read_text().splitlines()
    output = path.with_suffix(".expected").read_text()
    parts = [part.read_bytes() for part in sorted(path.parent.glob(f"{path.stem}.*.csv"))]
    all_blocks = blocks_of(output)
    first = next((it for it, text in enumerate(all_blocks) if " refused " in text.split("\n")[0]), None)
    known = all_blocks if first is None else all_blocks[: first + 1]
    yield script(
        f"the example {path.stem}, strict",
        "\n".join(lines) + "\n",
        "".join(known),
        parts,
        ("--strict",),
        *((0, "") if first is None else (1, STOPPED)),
    )
    # One more line at the end, which is refused.
    spoilt = len(lines) + 1
    text = "\n".join([*lines, "report"]) + "\n"
    yield script(f"the example {path.stem} with a spoilt last line", text, f"{output}line {spoilt} refused 10\n", parts)
    if first is None:
        yield script(
            f"the example {path.stem} with a spoilt last line, strict",
            text,
            f"{output}line {spoilt} refused 10\n",
            parts,
            ("--strict", "--workers", "2"),
            1,
            STOPPED,
        )
    # The line of its table is spoilt, so no line after it does anything.
    place = next(number for number, line in enumerate(lines) if line.startswith("table "))
    if " refused " not in (all_blocks or [""])[0]:
        spoilt = [*lines[:place], "Table", *lines[place + 1 :]]
        yield script(
            f"the example {path.stem} with a spoilt table, strict",
            "\n".join(spoilt) + "\n",
            f"line {place + 1} refused 3\n",
            parts,
            ("--strict",),
            1,
            STOPPED,
        )


def live(title, rows, tail, options=(), files=(), status=0, errors=""):
    """A script of these lines with viewers, of which this is the whole output: what it gives, and then the tail."""
    text = of_lines(rows)[0]
    output = of_lines(up_to_refused(rows)[0])[1]
    if callable(tail):
        output = tail(output)
    words = ["live", "--query", "SELECT COUNT(*) FROM T", "--viewers", "2", *options, "--strict", SCRIPT]
    return Case(title, words, {SCRIPT: text, **dict(files)}, output=output, status=status, errors=errors)


def viewed(output):
    return Viewed(output=output, viewers=2, shots=1, editions={0: ["COUNT(*)", "0"], 1: ["COUNT(*)", "1"]})


def turned_away(title, query, number, *options, end="\n"):
    """A strict run of which each line is accepted, and the query of the viewers is not."""
    text = f"table T (K INT KEY, V TEXT){end}put 1,a{end}publish{end}{COUNT}{end}"
    output = f"line 4 {counts(1, 1)}\nviewers refused {number}\n"
    return Case(title, ["live", "--strict", *options, "--query", query, SCRIPT], {SCRIPT: text}, output=output, errors=TURNED_AWAY, status=1)


LIVE = [
    live("viewers of a strict run", [TABLE, "put 1", "publish", (COUNT, counts(1, 1))], viewed),
    live("viewers of a strict run that stops", [TABLE, "put 1", "publish", ("put x", 7), (COUNT, counts(1, 1))], None, status=1, errors=STOPPED),
    live("viewers of a strict run that stops before its table", [("publish", 1), TABLE], None, status=1, errors=STOPPED),
    # All lines are answered, and the viewers have no answer.
    live("viewers of a strict script without lines", [], lambda output: f"{output}viewers refused 1\n", status=1, errors=TURNED_AWAY),
    live("viewers of a strict script of comments alone", ["# nothing", ""], lambda output: f"{output}viewers refused 1\n", status=1, errors=TURNED_AWAY),
    *[
        turned_away(f"viewers of a strict run of {query!r}{more}", query, number, *options)
        for query, number in (
            ("SELECT COUNT(*) FROM U", 11),
            ("SELECT COUNT(* FROM T", 10),
            ("", 10),
            ("SELECT X FROM T", 11),
            ("SELECT K, COUNT(*) FROM T", 12),
            ("SELECT SUM(V) FROM T", 13),
            ("SELECT COUNT(*) FROM T GROUP BY CUBE(K, K, K, K, K, K, K, K, K)", 14),
            ("SELECT COUNT(*) FROM T" + " " * 65_536, 15),
        )
        for more, options in (("", ()), (" as they come", ("--as-they-come",)))
    ],
    turned_away("viewers of a strict run whose lines end in a carriage return", "SELECT COUNT(*) FROM U", 11, end="\r\n"),
    Case(
        "viewers of a strict run whose reason is told",
        ["live", "--strict", "--explain", "--query", "SELECT COUNT(*) FROM U", SCRIPT],
        {SCRIPT: f"{TABLE}\n"},
        output="viewers refused 11\n",
        errors=f"--query: the query is refused (11 Unknown)\n{TURNED_AWAY}",
        status=1,
    ),
    Case(
        "viewers of a run that is not strict",
        ["live", "--query", "SELECT COUNT(*) FROM U", SCRIPT],
        {SCRIPT: f"{TABLE}\n"},
        output="viewers refused 11\n",
    ),
    Case(
        "viewers of a strict run whose table ends in a carriage return",
        ["live", "--strict", "--viewers", "1", "--query", "SELECT COUNT(*) FROM T", SCRIPT],
        {SCRIPT: f"# first\r\n{TABLE}\r\n"},
        output="viewer 1 edition 0\nCOUNT(*)\n0\n" * 2,
    ),
    Case(
        "viewers of a strict run of one byte too many",
        ["live", "--query", "Q", "--strict", SCRIPT],
        {SCRIPT: b"#" * 1_048_577},
        output="line 0 refused 15\n",
        errors=STOPPED,
        status=1,
    ),
]

LIMITS = [
    script("a strict script of one byte too many", b"#" * 1_048_577, "line 0 refused 15\n", (), ("--strict",), 1, STOPPED),
    script("a strict script of as many bytes as there may be", b"#" * 1_048_576, "", (), ("--strict",)),
    Case(
        "a strict script of 65 parts",
        ["run", "--strict", SCRIPT, *["part.csv"] * 65],
        {SCRIPT: as_bytes(TABLE), "part.csv": "K\n"},
        output="line 0 refused 15\n",
        errors=STOPPED,
        status=1,
    ),
]

FILES = {SCRIPT: "publish\n", "--strict": "publish\n", "true": "K\n"}


def stops(*words):
    """The words of a strict run of the script whose one line is refused."""
    return Case(" ".join(words), list(words), FILES, output="line 1 refused 1\n", errors=STOPPED, status=1)


def goes_on(*words):
    """The words of one that is not strict."""
    return Case(" ".join(words), list(words), FILES, output="line 1 refused 1\n")


WORDS = [
    stops("run", "--strict", SCRIPT),
    stops("run", SCRIPT, "--strict"),
    stops("run", SCRIPT, "true", "--strict", "--workers", "2"),
    # A flag takes no value: what follows it is a file.
    stops("run", "--strict", SCRIPT, "true"),
    stops("live", SCRIPT, "--strict", "--query", "Q"),
    goes_on("run", SCRIPT),
    # After `--` it is a file's name.
    goes_on("run", "--", "--strict"),
    goes_on("run", SCRIPT, "--", "--strict"),
    stops("run", "--strict", "--", "--strict"),
]

CASES = LINES + LOADS + [case for path in sorted(EXAMPLES.glob("*.olap")) for case in example(path)] + LIVE + LIMITS + WORDS
