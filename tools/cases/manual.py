"""The manual: `olap help` of the language and of each refusal."""

from cases.table import Case, Text

NAMES = {
    1: "NoTable",
    2: "TableAgain",
    3: "BadCommand",
    4: "BadSchema",
    5: "NoPart",
    6: "BadPart",
    7: "BadRecord",
    8: "BadKey",
    9: "TooManyRows",
    10: "QuerySyntax",
    11: "Unknown",
    12: "NotGrouped",
    13: "WrongType",
    14: "TooManySets",
    15: "Limit",
}

# What a page has, beside the name: an example, or a limit.
HAS = {
    1: "`publish` as the first line",
    2: "a second `table` line after an accepted one",
    3: "\n  publish now\n",
    4: "\n  table T (K INT)\n",
    5: "`load 3` where two parts were handed in",
    6: "record 0 is the header",
    7: "\n  put 1,2 ",
    8: "\n  delete 'a' ",
    9: "a `put` of a new key into a full draft",
    10: "\n  report SELECT COUNT(* FROM T\n",
    11: "`report SELECT COUNT(*) FROM U` where the table is T",
    12: "\n  report SELECT REGION FROM SALES\n",
    13: "\n  report SELECT SUM(REGION) FROM SALES\n",
    14: "more than 256 grouping sets",
    15: "of a query 65,536 bytes, 32 items, 32 aggregates in HAVING, 16 columns in one GROUPING",
    90: "Memory was refused",
    91: "A thread could not be started",
    92: "The output could not be written",
    93: "The place of a viewer was refused",
}

LANGUAGE = [
    "\n  table NAME (COLUMN TYPE [KEY], ..) ",
    "\n  load N N .. ",
    "\n  put RECORD ",
    "\n  delete LITERAL ",
    "\n  publish ",
    "\n  report QUERY ",
    "\n  shape ",
    "( ) , * = <> <= >= < >",
    "[ GROUP BY [ DISTINCT ] element { , element } ] [ HAVING predicate ]",
    "GROUPING SETS (element { , element })",
    "NULL first, then integers by value, then texts by their bytes",
    "`line L refused N`",
    "1,048,576 bytes and 64 parts",
]


def page(word, begins, has=""):
    """A page of the manual, which begins so and has this."""
    title = f"help {word}: {has.strip()}" if has else f"help {word}"
    return Case(title, ["help", word], output=Text(begins=begins, has=has))


def none(word):
    """A word of which the manual has no page."""
    there = "There is help of run, live, session, check, query, schema, shard, join and language, and of the numbers 1 to 15 and 90 to 93.\n"
    return Case(f"help of {word!r}", ["help", word], errors=f"error: no help of '{word}'\n\n{there}", status=2)


CASES = [
    *[page(str(number), f"{number} {name}\n\n", HAS[number]) for number, name in NAMES.items()],
    *[page(str(number), f"{number}\n\n", HAS[number]) for number in range(90, 94)],
    page("012", "12 NotGrouped\n\n"),
    page("check", "Looks for faults in a script and its parts, and loads nothing\n\nUsage: olap check [--part NAME=FILE]... SCRIPT [PART]...\n"),
    Case("check --help", ["check", "--help"], output=Text(has="\nUsage: olap check [--part NAME=FILE]... SCRIPT [PART]...\n")),
    Case("check -h", ["check", "-h"], output=Text(has="\nUsage: olap check [--part NAME=FILE]... SCRIPT [PART]...\n")),
    *[page("language", "The language of scripts\n\n", has) for has in LANGUAGE],
    *[none(word) for word in ("0", "16", "89", "94", "-1", "+1", "1.0", "", "walk", "Language", "NotGrouped", "shards", "partials")],
    Case("help of two words", ["help", "12", "13"], errors=Text("error: "), status=2),
    Case("help run is the help of run", ["help", "run"], output=Text(has="\nUsage: olap run [OPTIONS] <SCRIPT> [PART]...\n")),
    Case("help tells of help", ["help"], output=Text(has="\n  olap help language ")),
]
