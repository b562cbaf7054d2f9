"""Parts that have names of their own: `--part NAME=FILE`, and `load` lines that list them by these."""

from cases.reasons import PART
from cases.table import Case, SCRIPT, Text, as_bytes

MORE = "\n\nFor more information, try '--help'.\n"
TABLE = "table T (K INT KEY, V INT)"
KEYS = "report SELECT K FROM T GROUP BY K"
FILES = {"one.csv": "K,V\n1,10\n", "two.csv": "K,V\n2,20\n", "three.csv": "K,V\n3,30\n", "bad.csv": "K,V\n4,x\n"}
# Two files of the line, which are the parts 1 and 2, and two with names, which are 3 and 4.
WORDS = ["one.csv", "--part", "south=three.csv", "two.csv", "--part=_n1=two.csv"]


def script(title, lines, output, words=WORDS, errors="", status=0, command=("run",), end="\n"):
    """A script of these lines, with these words behind it."""
    text = b"".join(as_bytes(line + end) for line in lines)
    return Case(title, [*command, SCRIPT, *words], {**FILES, SCRIPT: text}, output=output, errors=errors, status=status)


def loads(title, listing, keys, **more):
    """A load of this listing: which keys there are then, or the number of its refusal."""
    if isinstance(keys, int):
        output = f"line 2 refused {keys}\nline 4 edition 1\nK\n"
    else:
        output = "\n".join(["line 4 edition 1", "K", *map(str, keys), ""])
    return script(title, [TABLE, f"load {listing}", "publish", KEYS], output, **more)


def refused(title, why, words, command=("run",), page="--help"):
    """Words by which no part is named."""
    more = MORE if page == "--help" else f"\n\nFor more information, try 'olap {page}'.\n"
    return script(title, [TABLE], "", words, f"error: {why}{more}", 2, command)


NAME = "'--part' takes NAME=FILE, where NAME is a letter or _ and then letters, digits and _: {}"
NO_PART = 5
BAD_LINE = 3

CASES = [
    loads("a name", "south", [3]),
    loads("names and numbers", "1 south _n1", [1, 2, 3]),
    loads("a number of a part that has a name", "3", [3]),
    loads("the first and the last name", "_n1 south", [2, 3]),
    loads("a name twice", "south south", [3]),
    loads("a number behind the last name", "5", NO_PART),
    loads("a name that no part has", "north", BAD_LINE),
    loads("a name in other letters", "South", BAD_LINE),
    loads("a beginning of a name", "sout", BAD_LINE),
    loads("a name with more behind it", "south1", BAD_LINE),
    loads("a name with a comma behind it", "south, 1", BAD_LINE),
    loads("two blanks before a name", "1  south", BAD_LINE),
    loads("a blank behind a name", "south ", BAD_LINE),
    loads("a tab before a name", "1\tsouth", BAD_LINE),
    loads("lines that end in a carriage return", "1 south", [1, 3], end="\r\n"),
    loads("names of one worker and of many", "south _n1", [2, 3], words=[*WORDS, "--workers", "3"]),
    loads("names alone", "a b", [1, 3], words=["--part", "a=one.csv", "--part", "b=three.csv"]),
    loads("no names", "south", BAD_LINE, words=["one.csv"]),
    loads("a file whose name has a =", "a", [1], words=["--part", "a=./one.csv"]),
    script(
        "a last line without an end",
        [TABLE, "publish", KEYS, "load south"],
        "line 3 edition 1\nK\n",
        end="\n",
    ),
    # In any other line the word stays.
    script(
        "other lines",
        ["table south (K INT KEY, V INT)", "# load south", " load south", "Load south", "put south", "publish south", "report SELECT COUNT(*) FROM south", "loads south"],
        "line 3 refused 3\nline 4 refused 3\nline 5 refused 7\nline 6 refused 3\nline 7 edition 0\nCOUNT(*)\n0\nline 8 refused 3\n",
    ),
    script(
        "a load before the table",
        ["load south"],
        "line 1 refused 1\n",
    ),
    script(
        "a faulty part of a name",
        [TABLE, "load b"],
        "line 2 refused 6 part 1 record 1\n",
        ["--part", "b=bad.csv"],
    ),
    script(
        "a faulty part of a name, explained",
        [TABLE, "load b"],
        "line 2 refused 6 part 1 record 1\n",
        ["--explain", "--part", "b=bad.csv"],
        Text(begins="bad.csv:2: record 1, column V: x: "),
    ),
    # (a number of two digits stands for each name of one letter, so that the script is longer than it may be)
    Case(
        "a script that is too long with the numbers",
        ["run", "s", *["one.csv"] * 9, "--part", "a=one.csv"],
        {**FILES, "s": "load " + "a " * (524_288 - 3) + "a"},
        output="line 0 refused 15\n",
    ),
    script("a name under live", [TABLE, "load south", "publish"], Text(begins="viewer 1 "), command=("live", "--query", "SELECT K FROM T GROUP BY K", "--viewers", "1")),
    script("a check by names", [TABLE, "load b"], f"bad.csv:2: record 1, column V: x: no whole number {PART}\n", ["--part", "b=bad.csv"], command=("check",), status=1),
    script("a check by names, with no fault", [TABLE, "load 1 a"], "", ["one.csv", "--part=a=two.csv"], command=("check",)),
    script("a check of a name that no part has", [TABLE, "load a"], Text(begins=f"{SCRIPT}:2:"), ["one.csv"], command=("check",), status=1),
    refused("no =", NAME.format("south"), ["--part", "south"]),
    refused("no name", NAME.format("=one.csv"), ["--part", "=one.csv"]),
    refused("a name that begins with a digit", NAME.format("1a=one.csv"), ["--part", "1a=one.csv"]),
    refused("a name with a blank", NAME.format("a b=one.csv"), ["--part", "a b=one.csv"]),
    refused("a name with a dash", NAME.format("a-b=one.csv"), ["--part", "a-b=one.csv"]),
    refused("a name with a letter that is not ASCII", NAME.format("ö=one.csv"), ["--part", "ö=one.csv"]),
    refused("two parts of one name", "two parts have the name a", ["--part", "a=one.csv", "--part", "a=two.csv"]),
    refused("the first fault of two", NAME.format("b"), ["--part", "a=one.csv", "--part", "b", "--part", "a=two.csv"]),
    refused("a check of no name", NAME.format("south"), ["--part", "south"], ("check",), "help check"),
    refused("a check of two parts of one name", "two parts have the name a", ["--part", "a=one.csv", "--part=a=two.csv"], ("check",), "help check"),
    refused("a check without a value", "'--part' takes a value", ["--part"], ("check",), "help check"),
    script("a file of a name that is not there", [TABLE], "", ["--part", "a=gone.csv"], "olap: cannot read gone.csv\n", 2),
    Case("an option without a value", ["run", SCRIPT, "--part"], {SCRIPT: ""}, errors=Text(begins="error: "), status=2),
]
