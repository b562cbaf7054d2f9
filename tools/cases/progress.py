"""How far a run is: that its first report is seen while it goes on, and what `--progress` tells on standard error. It tells of
time, so lines are compared but for their seconds; reports end in any order."""

from cases.table import Case, Like, SCRIPT, Text, of_lines, script

TABLE = "table T (K INT KEY, V INT)"
COUNT = "report SELECT V, COUNT(*) FROM T GROUP BY V"
PARTS = ["K,V\n1,5\n2,5\n", "K,V\n2,6\n3,7\n4,7\n"]
STOPPED = "olap: stopped after a refused line"
# What is written in the place of a line, on a screen.
ANEW, ERASED = "\r", "\x1b[K"
# More reasons than a pipe holds.
REFUSALS = 5_000


def groups(edition, *pairs):
    """What the report gives."""
    return "\n".join([f"edition {edition}", "V | COUNT(*)", *(f"{value} | {count}" for value, count in pairs)])


def reported(line, edition, rows, count):
    """What is told of a report."""
    return rf"olap: line {line} edition {edition}, rows {rows}, groups {count}, seconds \d+\.\d"


def read(part, parts, records):
    """What is told of a part."""
    return f"olap: part {part} of {parts}, records {records}"


def case(title, rows, errors, parts=PARTS, options=(), status=0, command=("run",), output=None):
    """A script of these lines, as `of_lines` takes them, with --progress."""
    text, writes = of_lines(rows)
    names = [f"part{number}.csv" for number in range(1, len(parts) + 1)]
    files = {SCRIPT: text, **dict(zip(names, parts))}
    words = [*command, "--progress", *options, SCRIPT, *names]
    return Case(title, words, files, output=writes if output is None else output, errors=errors, status=status)


LOADED = [TABLE, "load 1 2", "publish", (COUNT, groups(1, (5, 1), (6, 1), (7, 2)))]
TOLD = (read(1, 2, 2), read(2, 2, 5), reported(4, 1, 4, 3))
FAULTY = [PARTS[0], "K,V\n3,1\n4,x\n5,1\n"]
REFUSED = r"part2\.csv:3: record 2, column V: x: .* \(6 BadPart, 7 BadRecord\)"

ONE = [TABLE, (COUNT, groups(0)), "put 1,1", "publish", (COUNT, groups(1, (1, 1)))]
REFUSED_LOAD = [TABLE, ("load 1 2", "refused 6 part 2 record 2")]
TOLD_FAULTY = (read(1, 2, 2), read(2, 2, 3))
WATCH = ("--query", "SELECT COUNT(*) FROM T")
WATCHED = Text(of_lines(LOADED)[1], "viewer 2 edition 1\nCOUNT(*)\n4\n")
# Two workers may read the second part first.
TOLD_BY_TWO = (r"olap: part 1 of 2, records [25]", r"olap: part 2 of 2, records [35]", TOLD[2])

CASES = [
    case("two parts and a report", LOADED, Like(*TOLD)),
    case("the same with workers", LOADED, Like(*TOLD_BY_TWO), options=("--workers", "2")),
    case("no line that takes time", [TABLE, "put 1,1", "publish", "shape"], "", output=Text("line 4 edition 1\n")),
    case("reports of two editions", ONE, Like(reported(2, 0, 0, 0), reported(5, 1, 1, 1))),
    case("a faulty part", REFUSED_LOAD, Like(*TOLD_FAULTY), FAULTY),
    case("a faulty part, explained", REFUSED_LOAD, Like(*TOLD_FAULTY, REFUSED), FAULTY, ("--explain",)),
    case(
        "a quote that is opened and never closed",
        ["table T (K INT KEY, V TEXT)", "load 1", "publish", ("report SELECT COUNT(*) FROM T", "edition 1\nCOUNT(*)\n3")],
        Like(r"part1\.csv:4: a quote is opened and never closed", read(1, 1, 3), reported(4, 1, 3, 1)),
        [PARTS[0] + '3,"4\n5,6\n'],
    ),
    case("a strict run that stops", [*LOADED, ("put x", 7)], Like(*TOLD, STOPPED), options=("--strict",), status=1),
    case("no viewer's report is told", LOADED, Like(*TOLD), options=WATCH, command=("live",), output=WATCHED),
    script("nothing without the option", *of_lines(LOADED), PARTS),
]

FIRST = [TABLE, "put 1,5", "publish", (COUNT, groups(1, (5, 1)))]
LONG = FIRST + [("put x", 7)] * REFUSALS
HELD = [
    (
        Case(
            "a report is seen while the run goes on",
            ["run", "--explain", SCRIPT],
            {SCRIPT: of_lines(LONG)[0]},
            output=of_lines(LONG)[1],
            errors=Text(f"{SCRIPT}:5:", f"\n{SCRIPT}:{len(LONG)}:"),
        ),
        of_lines(FIRST)[1],
    ),
]

LARGE = "K,V\n" + "".join(f"{key},{key % 7}\n" for key in range(100_000))
SEVENTHS = [(value, 14_286 if value < 5 else 14_285) for value in range(7)]
MANY = [TABLE, *["load 1"] * 20, "publish", (COUNT, groups(1, *SEVENTHS))]
REPORT = [TABLE, (COUNT, groups(0))]
TOLD_ANEW = f"{ANEW}olap: line 2 edition 0, rows 0, groups 0, seconds "
PART_ANEW = f"{ANEW}olap: part 1 of 1, records "
PLAIN = (reported(2, 0, 0, 0), "line 2 edition 0", r"V \| COUNT\(\*\)")

ON_SCREEN = [
    # What takes less than a tenth of a second is told of by no line that is written anew.
    case("a report, on a screen", REPORT, Text(TOLD_ANEW, f"{ERASED}\r\n{ANEW}{ERASED}")),
    case("a line written anew", MANY, Text(PART_ANEW, f"{ERASED}{PART_ANEW}"), [LARGE]),
    case("a screen for both streams", REPORT, Like(*PLAIN), output=""),
]
