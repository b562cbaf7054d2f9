"""How a run ends early: its status and its line on standard error. What was written before it is there all the same."""

from cases.table import SCRIPT, Case

FIRST = "publish\n"
FIRST_WRITES = "line 1 refused 1\n"
TABLE = "table T (K INT KEY, V TEXT)\n"
# More rows than 10,000 kilobytes hold, and no thread.
MANY = FIRST + TABLE + "".join(f"put {key},row {key}\n" for key in range(50_000))
# The thread of a report takes more than 6,000 kilobytes.
REPORT = FIRST + TABLE + "report SELECT COUNT(*) FROM T\n"


# The threads of viewers, too; that of one alone takes less than 14,000.
VIEWED = FIRST + TABLE + "put x\n"
LIVE = ("live", "--query", "SELECT COUNT(*) FROM T")


def later(text):
    """The script without its first line."""
    return text.removeprefix(FIRST)


def ends(title, text, kilobytes, streams="2> errors", output=FIRST_WRITES, errors="", command=("run",)):
    case = Case(title, [*command, SCRIPT], {SCRIPT: text, "errors": ""}, output=output, errors=errors, status=3)
    return case, f'(ulimit -v {kilobytes}; "$@" {streams}); echo $? > status'


def untaken(words, streams="> /dev/full 2> errors", errors="olap: ended 92\n"):
    """Help that can't be written."""
    return Case(f"{words}, {streams}", words.split(" "), {"errors": ""}, errors=errors, status=3), f'"$@" {streams}; echo $? > status'


HELP = ("--help", "--version", "help", "run --help", "live --help", "session --help", "join --help", "help run", "help session", "help shard", "help join", "help 12", "query --help", "schema --help", "check --help")


WRITTEN_TO = [
    *[untaken(words) for words in HELP],
    untaken("--help", "> /dev/full 2> /dev/full", ""),
    ends("no memory", MANY, 10_000, errors="olap: ended 90\n"),
    ends("no thread", REPORT, 6_000, errors="olap: ended 91\n"),
    # Nothing was to be written to the full disk, or else it is met first, since each block is written at once.
    ends("no memory, and a full disk", later(MANY), 10_000, "> /dev/full 2> errors", "", "olap: ended 90\n"),
    ends("no thread, and a full disk", later(REPORT), 6_000, "> /dev/full 2> errors", "", "olap: ended 91\n"),
    ends("a full disk, and then no memory", MANY, 10_000, "> /dev/full 2> errors", "", "olap: ended 92\n"),
    ends("a full disk, and then no thread", REPORT, 6_000, "> /dev/full 2> errors", "", "olap: ended 92\n"),
    ends("no viewer's thread", VIEWED, 6_000, errors="olap: ended 91\n", command=LIVE),
    ends("one viewer's thread of two", VIEWED, 14_000, errors="olap: ended 91\n", command=LIVE),
    ends("no viewer's thread, and a full disk", later(VIEWED), 6_000, "> /dev/full 2> errors", "", "olap: ended 91\n", LIVE),
    ends("a full disk, and then no viewer's thread", VIEWED, 6_000, "> /dev/full 2> errors", "", "olap: ended 92\n", LIVE),
    ends("viewers, and a full disk", VIEWED, "unlimited", "> /dev/full 2> errors", "", "olap: ended 92\n", LIVE),
    # A line that nobody can read changes no status.
    ends("no memory, and nobody reads why", MANY, 10_000, "2> /dev/full"),
    ends("a full disk, and nobody reads why", FIRST, "unlimited", "> /dev/full 2> /dev/full", ""),
]
