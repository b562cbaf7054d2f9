"""Shards of a table: what `olap run --shard` tells of each, put together by `olap join`, is what one run writes. Words, files and
streams of both, and each refusal."""

import hashlib
import json
import pathlib
import random
import shutil

from cases import columns, examples, groups, having, limits, loads, naming, parts, plans, queries, records, reports, scripts, sets, tokens, updates, worked, workers
from cases.ends import MANY
from cases.table import SCRIPT, Case, Text, as_bytes

MORE = "\n\nFor more information, try '--help'.\n"
FORMS = ("classic", "csv", "json", "table")
COUNTS = (1, 2, 3, 5, 16)
TREES = ("left", "right", "random", "flat")


# Partial answers, as a run writes them and as none does.


def framed(body, mark=b"olap partial answers 2 "):
    """A text with the right check sum of its body."""
    return mark + hashlib.sha256(body).hexdigest().encode() + b"\n" + body


def partial(shards, of=2, text="publish\n", told=(None,), division="keys"):
    """What these shards tell of a script."""
    return framed(json.dumps({"of": [division, of], "script": text, "shards": shards, "told": told}, separators=(",", ":")).encode())


def flipped(text, at):
    """The text with another bit at this place."""
    return text[:at] + bytes([text[at] ^ 1]) + text[at + 1 :]


def body(**members):
    """A body like that of a partial answer, of which some members are other ones, or left out."""
    all = {"of": ["keys", 2], "script": "publish\n", "shards": [2], "told": [None], **members}
    return json.dumps({name: value for name, value in all.items() if value is not ...}).encode()


FIRST, SECOND = partial([1]), partial([2])
HEAD = FIRST.index(b"\n") + 1
OTHER = "it is no partial answer of this version"
SPOILT = "it is spoilt: its check sum differs, or it ends too soon"
MALFORMED = "its check sum is right, but not its form"
UNFIT = "what it tells does not fit what the files before it tell"
NO_FILE = "it is no regular file, and the file would replace it: name another one"
LINK = "it is a link, which the file would replace: name the file that it leads to, or another one"
READ = "it is the script or a part, which the file would replace: name another one"
DIVIDED = "--own-parts was given for it and not for the files before it, or the other way round"

# A second file, and why it is refused.
SECONDS = {
    "an empty file": (b"", OTHER),
    "a script": ("publish\n", OTHER),
    "another word at the front": (flipped(SECOND, 0), OTHER),
    "an earlier version": (framed(body(), b"olap partial answers 1 "), OTHER),
    "a later version": (framed(body(), b"olap partial answers 3 "), OTHER),
    "a blank before it": (b" " + SECOND, OTHER),
    "an end within the first word": (SECOND[:10], OTHER),
    "an end within the sum": (SECOND[: HEAD // 2], SPOILT),
    "a head alone": (SECOND[:HEAD], SPOILT),
    "an end within the body": (SECOND[: HEAD + 10], SPOILT),
    "no last byte": (SECOND[:-1], SPOILT),
    "a byte more": (SECOND + b"\n", SPOILT),
    "another first digit of the sum": (flipped(SECOND, HEAD - 65), SPOILT),
    "another last digit of the sum": (flipped(SECOND, HEAD - 2), SPOILT),
    "a sum in capitals": (SECOND[: HEAD - 65] + SECOND[HEAD - 65 : HEAD].upper() + SECOND[HEAD:], SPOILT),
    "another end of the first line": (flipped(SECOND, HEAD - 1), SPOILT),
    "another first byte of the body": (flipped(SECOND, HEAD), SPOILT),
    "another last byte of the body": (flipped(SECOND, len(SECOND) - 1), SPOILT),
    "two files in one": (FIRST + SECOND, SPOILT),
    "no body": (framed(b""), MALFORMED),
    "a body that is no JSON": (framed(body()[:-1]), MALFORMED),
    "a body of two values": (framed(body() + body()), MALFORMED),
    "a body that is no object": (framed(b"[2,2]"), MALFORMED),
    "a body that is not UTF-8": (framed(body().replace(b"publish", b"\xff")), MALFORMED),
    "no member `of`": (framed(body(of=...)), MALFORMED),
    "no member `script`": (framed(body(script=...)), MALFORMED),
    "no member `shards`": (framed(body(shards=...)), MALFORMED),
    "no member `told`": (framed(body(told=...)), MALFORMED),
    "a number of shards alone": (framed(body(of=2)), MALFORMED),
    "a division alone": (framed(body(of=["keys"])), MALFORMED),
    "a division that there is not": (framed(body(of=["Keys", 2])), MALFORMED),
    "a text as the number of shards": (framed(body(of=["keys", "2"])), MALFORMED),
    "a negative number of shards": (framed(body(of=["keys", -2])), MALFORMED),
    "a number as the script": (framed(body(script=2)), MALFORMED),
    "a shard that is no number": (framed(body(shards=["2"])), MALFORMED),
    "an object that is told": (framed(body(told={})), MALFORMED),
    "a line of another word": (framed(body(told=[["lost", []]])), MALFORMED),
    "a line of one word": (framed(body(told=[["kept"]])), MALFORMED),
    "a refusal that there is not": (framed(body(told=[["refused", ["line", 16]]])), MALFORMED),
    "another script": (partial([2], text="publish \n"), "it is of another script than the files before it"),
    "another script with another number of shards": (partial([1], 3, "", []), "it is of another script than the files before it"),
    "parts of its own": (partial([2], division="parts"), DIVIDED),
    "parts of its own, and another number of shards": (partial([1], 3, division="parts"), DIVIDED),
    "another number of shards": (partial([2], 3), "its table has another number of shards than that of the files before it"),
    "another number of shards and the same shard": (partial([1], 3), "its table has another number of shards than that of the files before it"),
    "the same shard": (FIRST, "shard 1 is in a file before it, too"),
    "the same shard beside another": (partial([2, 1]), "shard 1 is in a file before it, too"),
    "more lines": (partial([2], told=[None, None]), UNFIT),
    "fewer lines": (partial([2], told=[]), UNFIT),
    "a fault of a line that has none": (partial([2], told=[["refused", ["line", 5]]]), UNFIT),
    "groups of a line that has none": (partial([2], told=[["kept", []]]), UNFIT),
}


def told(title, words, files, output="", errors="", status=2):
    """A start of the program over files of these names."""
    return Case(title, words, {f"p{at}": text for at, text in enumerate(files, 1)} | {"s": "publish\n"}, output=output, errors=errors, status=status)


def joined(title, files, errors, names=None):
    """Files that are refused, or not enough, where an output is wanted."""
    return told(f"join: {title}", ["join", *(names or [f"p{at}" for at in range(1, len(files) + 1)])], files, errors=f"olap: {errors}\n")


JOINED = [
    *[joined(f"second {title}", [FIRST, text], f"p2: {why}") for title, (text, why) in SECONDS.items()],
    *[joined(f"first {title}", [text, SECOND], f"p1: {why}") for title, (text, why) in SECONDS.items() if why in (OTHER, SPOILT, MALFORMED)],
    *[
        told(f"second {title}, for another file", ["join", "--partials", "out", "p1", "p2"], [FIRST, text], errors=f"olap: p2: {why}\n")
        for title, (text, why) in SECONDS.items()
    ],
    joined("the first of two that do not fit", [FIRST, FIRST, b""], "p2: shard 1 is in a file before it, too"),
    joined("the third of three", [FIRST, SECOND, b""], f"p3: {OTHER}"),
    joined("common parts after own ones", [partial([1], division="parts"), SECOND], f"p2: {DIVIDED}"),
    joined("the same shard of own parts", [partial([1], division="parts")] * 2, "p2: shard 1 is in a file before it, too"),
    joined("a shard of two files", [partial([1], 3), partial([2], 3), partial([3, 2], 3)], "p3: shard 2 is in a file before it, too"),
    joined("one file twice", [FIRST], "p1: shard 1 is in a file before it, too", ["p1", "p1"]),
    joined("a file that is not there", [FIRST], "cannot read p2: no such file", ["p1", "p2"]),
    joined("a folder", [FIRST], "cannot read .: it is a folder", ["p1", "."]),
    joined("no second shard", [FIRST], "shard 2 is missing"),
    joined("no first shard", [SECOND], "shard 1 is missing"),
    joined("the least of two that are missing", [partial([5], 5), partial([4, 1], 5)], "shard 2 is missing"),
    joined("a shard of very many", [partial([1], 2**64 - 1)], "shard 2 is missing"),
    joined("less than the script's lines", [partial([1], 1, told=[])], "what is told does not fit the script"),
    joined("more than the script's lines", [partial([1], 1, told=[None, None])], "what is told does not fit the script"),
    joined("a shape", [partial([1], 1, "table T (K INT KEY)\nshape\n", [None, None])], "what is told does not fit the script"),
    joined("a report without groups", [partial([1], 1, "table T (K INT KEY)\nreport SELECT K FROM T GROUP BY K\n", [None, None])], "what is told does not fit the script"),
    joined("a script that is too long", [partial([1], 1, "\n" * 1_048_577, [])], "the script has more than 1048576 bytes"),
    told("two shards", ["join", "p1", "p2"], [FIRST, SECOND], "line 1 refused 1\n", status=0),
    told("two shards, the other way round", ["join", "p2", "p1"], [FIRST, SECOND], "line 1 refused 1\n", status=0),
    told("two shards with own parts", ["join", "p1", "p2"], [partial([k], division="parts") for k in (1, 2)], "line 1 refused 1\n", status=0),
    told("one of one shard", ["join", "p1"], [partial([1], 1)], "line 1 refused 1\n", status=0),
    told("three of three shards in two files", ["join", "p1", "p2"], [partial([3, 1], 3), partial([2], 3)], "line 1 refused 1\n", status=0),
    told("a faulty load of two shards", ["join", "p1", "p2"], [partial([k], 2, "table T (K INT KEY)\nload 1\n", [None, ["refused", ["part", [1, 7]]]]) for k in (1, 2)], "line 2 refused 6 part 1 record 7\n", status=0),
    joined("two faults of one load", [partial([k], 2, "table T (K INT KEY)\nload 1\n", [None, ["refused", ["part", [1, k]]]]) for k in (1, 2)], f"p2: {UNFIT}"),
]


# Words.


def shard(word):
    """A word that names no shard."""
    return told(f"the shard {word!r}", ["run", f"--shard={word}", "--partials", "p", "s"], [], errors=f"error: '--shard' takes K/N, the shard K of N, from 1/1 on{MORE}")


def refused(line, has=""):
    """Words that are refused, as they come in a line."""
    return told(line, line.split(" "), [FIRST, SECOND], errors=Text("error: ", has))


WRONG = ["0/1", "0/0", "1/0", "2/1", "17/16", "1", "1/", "/1", "/", "", "a/2", "1/b", "+1/2", "1/+2", "-1/2", "1/-2", " 1/2", "1/2 ", "1 /2", "1/2/3", "1//2", "1,2", "1.0/2", "0x1/2"]
WRONG += ["1/18446744073709551616", "18446744073709551616/18446744073709551617", "18446744073709551615/18446744073709551614", "１/２"]
NEEDED = "the following required arguments were not provided:\n"
WORDS = [
    *map(shard, WRONG),
    refused("run --shard 1/2 s", f"{NEEDED}  --partials <FILE>\n"),
    refused("run --shard=1/2 s", f"{NEEDED}  --partials <FILE>\n"),
    refused("run --partials p s", f"{NEEDED}  --shard <K/N>\n"),
    refused("run s --partials=p", f"{NEEDED}  --shard <K/N>\n"),
    refused("run --shard 1/2 --partials p", f"{NEEDED}  <SCRIPT>\n"),
    refused("run --own-parts s", f"{NEEDED}  --shard <K/N>\n  --partials <FILE>\n"),
    refused("run --own-parts --shard 1/2 s", f"{NEEDED}  --partials <FILE>\n"),
    refused("run --own-parts --own-parts --shard 1/2 --partials p s", "'--own-parts'"),
    refused("run --own-parts=yes --shard 1/2 --partials p s", "'--own-parts'"),
    refused("live --query Q --own-parts s", "unexpected argument '--own-parts' found\n"),
    refused("join --own-parts p1 p2", "unexpected argument '--own-parts' found\n"),
    refused("run s --partials p --shard"),
    refused("run s --shard 1/2 --partials"),
    refused("run s --shard 1/2 --shard 1/2 --partials p", "'--shard"),
    refused("run s --shard 1/2 --partials p --partials p", "'--partials"),
    *[
        refused(f"run --shard 1/2 --partials p {option} s", f"unexpected argument '{option.split()[0]}' found\n")
        for option in ("--workers 1", "--depth 1", "--small 0", "--hash fnv", "--format csv", "--strict", "--explain", "--progress", "--query Q")
    ],
    refused("live --query Q --shard 1/2 s", "unexpected argument '--shard' found\n"),
    refused("join", f"{NEEDED}  <PARTIALS>...\n"),
    refused("join --partials p", f"{NEEDED}  <PARTIALS>...\n"),
    refused("join p1 p2 --partials"),
    refused("join p1 p2 --format"),
    refused("join --partials p --partials p p1 p2", "'--partials"),
    *[refused(f"join {option} p1 p2", f"unexpected argument '{option.split()[0]}' found\n") for option in ("--workers 1", "--rows 1", "--hash fnv", "--strict", "--shard 1/2")],
    told("join in no form", ["join", "--format", "xml", "p1", "p2"], [FIRST, SECOND], errors=f"error: '--format' takes classic, csv, json or table{MORE}"),
    *[
        told(f"rows {rows}", ["run", "--shard", "1/2", "--partials", "p", f"--rows={rows}", "s"], [], errors=f"error: '--rows' takes a number from 1 to 4294967296{MORE}")
        for rows in ("0", "4294967297", "-1", "")
    ],
    told("a part without a name", ["run", "--shard", "1/2", "--partials", "p", "--part", "south", "s"], [], errors=f"error: {naming.NAME.format('south')}{MORE}"),
    told("two parts of one name", ["run", "--shard", "1/2", "--partials", "p", "--part", "a=s", "--part=a=p", "s"], [], errors=f"error: two parts have the name a{MORE}"),
    # Behind the word `--` they are names of files.
    Case("a script of the name --shard", ["run", "--", "--shard"], {"--shard": "publish\n"}, output="line 1 refused 1\n"),
    Case("a part of the name --partials=p", ["run", "S", "--", "--partials=p"], {"S": "publish\n", "--partials=p": ""}, output="line 1 refused 1\n"),
]

SHARD = "\nUsage: olap run [OPTIONS] --shard <K/N> --partials <FILE> <SCRIPT> [PART]...\n"
JOIN = "\nUsage: olap join [OPTIONS] <PARTIALS>...\n"
HELP = [Case(line, line.split(" "), output=Text(has=SHARD)) for line in ("run --shard 1/2 --help", "run --shard=1/2 -h", "run --partials p --help", "help shard")]
HELP += [Case("help shard has --own-parts", ["help", "shard"], output=Text(has="\n      --own-parts "))]
HELP += [Case(line, line.split(" "), output=Text(has=JOIN)) for line in ("join --help", "join -h", "help join")]
HELP += [Case(f"{line} has {word}", line.split(" "), output=Text(has=f"\n      {word} <")) for line, words in (("help shard", ("--shard", "--partials", "--rows", "--part")), ("help join", ("--format", "--partials"))) for word in words]


# Scripts that no shard tells, and files that are not there.

TABLE = "table T (K INT KEY)\n"
FORTY = TABLE + "".join(f"put {key}\n" for key in range(40)) + "publish\nreport SELECT COUNT(*) FROM T\n"
FORTY_WRITE = "line 43 edition 1\nCOUNT(*)\n40\n"
FAR = "the shard would have more rows than --rows lets in"
SHAPE = "a shape is asked for, which no shard can tell"


PUT = "a row is put, and with --own-parts each row is in the parts of one shard"


def bad_load(why):
    return f"the load is refused ({why}), and with --own-parts no other shard knows of it"


def untold(title, text, errors, options=(), names=("q",), script="s"):
    """A script over a part, of which a shard tells nothing."""
    words = ["run", *options, "--shard", "1/1", "--partials", "p", script, *names]
    return Case(f"run: {title}", words, {"s": text, "q": "K\n1\n2\n", "bad": "K\n1\nx\n"}, errors=f"olap: {errors}\n", status=2)


UNTOLD = [
    untold("a shape", TABLE + "shape\n", f"s:2: {SHAPE}"),
    untold("a shape behind a refused line", TABLE + "put x\n\n# shape\nshape\nshape\n", f"s:5: {SHAPE}"),
    untold("a shape in a last line without an end, by another name", TABLE + "publish\r\nshape", f"./s:3: {SHAPE}", script="./s"),
    untold("a row too many", TABLE + "put 1\nput 1\nput 2\n", f"s:4: {FAR}", ["--rows", "1"]),
    untold("a load of a row too many", TABLE + "load 1\n", f"s:2: {FAR}", ["--rows=1"]),
    untold("a row too many before a shape", FORTY + "shape\n", f"s:41: {FAR}", ["--rows", "39"]),
    untold("a script that is too long", "\n" * 1_048_577, "s: it has more than 1048576 bytes"),
    untold("65 parts", TABLE, "at most 64 parts are read, and 65 were given", names=["q"] * 65),
    untold("65 parts, one of them by its name", TABLE, "at most 64 parts are read, and 65 were given", ["--part", "a=q"], ["q"] * 64),
    untold("a script that is not UTF-8", b"\xff\n", "s: it is not UTF-8"),
    untold("a comment that is not UTF-8", TABLE.encode() + b"# \xc3", "s: it is not UTF-8"),
    untold("no script", "", "cannot read t: no such file", script="t"),
    untold("no part", "", "cannot read r: no such file", names=["q", "r"]),
    untold("no part of a name", "", "cannot read r: no such file", ["--part", "a=r"]),
    untold("no script and no part", "", "cannot read t: no such file", script="t", names=["r"]),
    untold("a folder", "", "cannot read .: it is a folder", names=["."]),
    *[
        untold(f"own parts: {title}", text, errors, ["--own-parts", *options], names)
        for title, text, errors, options, names in (
            ("a put", TABLE + "load 1\nput 3\nput 4\n", f"s:3: {PUT}", (), ("q",)),
            ("a put after one of another text and one before the table", "put 1\n" + TABLE + "put x\n# put 2\nput 2", f"s:5: {PUT}", (), ("q",)),
            ("a put after a shape and a load that is refused", TABLE + "shape\nload 2\nput 2\n", f"s:4: {PUT}", (), ("q",)),
            ("no part of this number", TABLE + "load 1 2\n", f"s:2: {bad_load('5')}", (), ("q",)),
            ("a list of other words", TABLE + "load 1  1\nload 2\n", f"s:2: {bad_load('3')}", (), ("q",)),
            ("a faulty record", TABLE + "load 1\npublish\nload 1 2\n", f"s:4: {bad_load('6 part 2 record 2')}", (), ("q", "bad")),
            ("another header", TABLE + "load 1\n", f"s:2: {bad_load('6 part 1 record 0')}", (), ("s",)),
            ("a shape after a load that is refused", TABLE + "load 2\nshape\n", f"s:3: {SHAPE}", (), ("q",)),
            ("a row too many", TABLE + "load 1\n", f"s:2: {FAR}", ("--rows=1",), ("q",)),
            ("65 parts and a put", TABLE + "put 1\n", "at most 64 parts are read, and 65 were given", (), ("q",) * 65),
            ("a put in a script that is too long", TABLE + "put 1\n" + "\n" * 1_048_577, "s: it has more than 1048576 bytes", (), ("q",)),
        )
    ],
    # What is told is looked at where it is joined, below.
    Case("run: a shard with parts of its own", ["run", "--shard", "1/2", "--own-parts", "--partials", "p", "s", "q"], {"s": TABLE + "load 1\ndelete 1\npublish\nreport SELECT K FROM T GROUP BY K\n", "q": "K\n1\n2\n"}),
    Case("run: a shard of two", ["run", "--shard", "1/2", "--partials", "p", "s", "q"], {"s": FORTY + "load 1\npublish\nreport SELECT K FROM T GROUP BY K\n", "q": "K\n41\n42\n"}),
]


# Pipelines: starts that a shell makes, one after another until one fails.


def by_shell(title, command, output="", errors="", status=0, **files):
    """What a command does, in which `$olap` is the program."""
    case = Case(title, [], {"errors": "", "status": "-1", **files}, output=output, errors=errors, status=status)
    return case, f'olap=$1; (set -e; {command}) 2> errors; echo $? > status'


def tree_of(tree, count, chance):
    """The commands by which so many shards are put together, and what is left for the last one."""
    left = [f"{number}" for number in range(1, count + 1)]
    if tree == "left":
        return [f'"$olap" join --partials 1 1 {it}' for it in left[1:]], "1"
    if tree == "right":
        return [f'"$olap" join --partials {count} {it} {count}' for it in reversed(left[:-1])], f"{count}"
    commands = []
    while chance.shuffle(left) or tree == "random" and len(left) > chance.randint(1, 3):
        some, left = left[:3], [*left[3:], f"j{len(commands)}"]
        commands.append(f'"$olap" join --partials {left[-1]} {" ".join(some)}')
    return commands, " ".join(left)


def pipeline(title, text, parts, count, tree, form, chance, output=None, options=""):
    """So many shards, put together in a tree, beside one run. The output is known, or else only compared."""
    names = [f"part{number}.csv" for number in range(1, len(parts) + 1)]
    words = " ".join([options, SCRIPT, *names])
    joins, last = tree_of(tree, count, chance)
    tells = f'for k in $(seq {count}); do "$olap" run --shard $k/{count} --partials $k {words}; done'
    known = [] if output is None else [f'"$olap" join {last}']
    compared = [f'"$olap" run --format {form} {words} > whole', f'"$olap" join --format {form} {last} > joined', "cmp joined whole"]
    # (a file that is left behind would be named)
    command = "; ".join([tells, *joins, *known, *compared, "compgen -G '*.new' || true"])
    return by_shell(f"{title}: {count} shards, {tree} tree, {form}", command, output or "", **{SCRIPT: text, **dict(zip(names, parts))})


SALES = "table SALES (ID INT KEY, REGION TEXT, ITEM TEXT, UNITS INT)"
QUERIES = [
    "COUNT(*), COUNT(UNITS), SUM(UNITS), MIN(UNITS), MAX(ITEM), COUNT(DISTINCT ITEM), COUNT(DISTINCT UNITS) FROM SALES",
    "REGION, GROUPING(REGION), COUNT(*), SUM(UNITS) FROM SALES GROUP BY ROLLUP(REGION)",
    "ITEM, REGION, GROUPING(ITEM, REGION), SUM(UNITS), COUNT(DISTINCT UNITS) FROM SALES GROUP BY CUBE(REGION, ITEM)",
    "REGION, MIN(ITEM), MAX(ITEM), MIN(UNITS), MAX(UNITS) FROM SALES GROUP BY GROUPING SETS (REGION, (REGION, ITEM), REGION, ())",
    "REGION, COUNT(DISTINCT ITEM) FROM SALES WHERE UNITS > 0 GROUP BY DISTINCT GROUPING SETS (REGION, REGION, ())",
    "REGION, SUM(UNITS) FROM SALES GROUP BY REGION HAVING SUM(UNITS) > 9223372036854775807 OR COUNT(*) = 1 OR MIN(ITEM) IS NULL",
    "ID, REGION, ITEM, UNITS FROM SALES GROUP BY ID, REGION, ITEM, UNITS HAVING COUNT(DISTINCT REGION) = 0 OR ID < 5",
    "COUNT(*), SUM(UNITS) FROM SALES WHERE ID > 1000",
    "REGION, COUNT(*) FROM SALES WHERE REGION IS NULL OR NOT ITEM IN ('pen', 'ink') GROUP BY REGION",
    "COUNT(*) FROM SALES HAVING COUNT(*) < 0",
]
# A refused line of each number, but for 1, 4, which come before the table, and 9, of which no shard can tell.
REFUSED = ["table T (K INT KEY)", "publish now", "shapes", "load 9", "load 1 2 9", "load 3", "load 1 3 2", "put x", "put 1,a", "delete 'a'", "report SELECT COUNT(* FROM SALES"]
REFUSED += ["report SELECT X FROM SALES", "report SELECT ITEM, COUNT(*) FROM SALES GROUP BY REGION", "report SELECT SUM(REGION) FROM SALES"]
REFUSED += [f"report SELECT COUNT(*) FROM SALES GROUP BY CUBE({', '.join(['ID'] * 9)})", f"report SELECT {', '.join(['COUNT(*)'] * 33)} FROM SALES"]


def row(chance):
    """A record of a sale: with few values, of which some are NULL, and some sums have more than 64 bits."""
    units = chance.choice(["", *range(-2, 9), 9223372036854775807, -9223372036854775808])
    return f"{chance.randrange(40)},{chance.choice(['', 'north', 'south', 'é'])},{chance.choice(['', 'pen', 'ink', 'a b'])},{units}"


def random_script(chance, lines):
    """A script of about so many lines, with two parts that are right and one with a fault."""
    kinds = [lambda: f"put {row(chance)}"] * 8 + [lambda: f"delete {chance.randrange(40)}"] * 2 + [lambda: f"load {chance.choice(['1', '2', '2 1'])}", lambda: "publish"]
    kinds += [lambda: f"report SELECT {chance.choice(QUERIES)}"] * 2 + [lambda: chance.choice(["", "# shape", *REFUSED])]
    first = ["publish", "report SELECT COUNT(*) FROM SALES", "table SALES (ID INT)", SALES, *(chance.choice(kinds)() for _ in range(lines))]
    end = chance.choice(["\n", "\r\n"])
    texts = ["".join(f"{it}{end}" for it in ["ID,REGION,ITEM,UNITS", *(row(chance) for _ in range(count)), *more]) for count, more in ((30, []), (9, []), (5, ["x,,,"]))]
    return end.join([*first, "publish", *(f"report SELECT {query}" for query in QUERIES)]), texts


def own_script(chance, lines):
    """A script of about so many lines that puts no row and loads no part with a fault, and two parts of all rows."""
    kinds = [lambda: f"delete {chance.randrange(40)}"] * 3 + [lambda: f"load {chance.choice(['1', '2', '2 1', '1 1'])}"] * 2 + [lambda: "publish"] * 2
    kinds += [lambda: f"report SELECT {chance.choice(QUERIES)}"] * 2 + [lambda: chance.choice([it for it in REFUSED if not it.startswith("load")])]
    first = ["put 1", SALES, "load 1 2", "publish", *(chance.choice(kinds)() for _ in range(lines)), "publish", *(f"report SELECT {query}" for query in QUERIES)]
    return "\n".join(first), [[row(chance) for _ in range(count)] for count in (40, 9)]


def own_pipeline(number, count, tree, form, chance):
    """So many shards, each with the rows of its keys in parts of its own, in some order of the keys' first rows, beside one run over all rows."""
    text, rows = own_script(chance, 30)
    owner = {f"{key}": chance.randrange(count) + 1 for key in range(40)}
    header = "ID,REGION,ITEM,UNITS"
    names = [f"part{part}.csv" for part in range(1, len(rows) + 1)]
    own = {f"{shard}.{name}": "\n".join([header, *(it for it in some if owner[it.split(",")[0]] == shard)]) for shard in range(1, count + 1) for name, some in zip(names, rows)}
    # (of the run over all rows: the rows of one shard after those of another)
    whole = {name: "\n".join([header, *sorted(some, key=lambda it: owner[it.split(",")[0]])]) for name, some in zip(names, rows)}
    joins, last = tree_of(tree, count, chance)
    tells = f'for k in $(seq {count}); do "$olap" run --own-parts --shard $k/{count} --partials $k {SCRIPT} {" ".join(f"$k.{name}" for name in names)}; done'
    compared = [f'"$olap" run --format {form} {SCRIPT} {" ".join(names)} > whole', f'"$olap" join --format {form} {last} > joined', "cmp joined whole"]
    return by_shell(f"own parts {number}: {count} shards, {tree} tree, {form}", "; ".join([tells, *joins, *compared]), **{SCRIPT: text, **own, **whole})


def is_utf8(text):
    return text == text.decode(errors="ignore").encode()


def drawn():
    """Scripts of other tables, each with its parts and its output, but for those that no shard tells and those that are refused
    for want of room."""
    found = {}
    for module in (columns, examples, groups, having, limits, loads, parts, plans, queries, records, reports, scripts, sets, tokens, updates, worked, workers):
        for case in module.CASES:
            if case.words[:1] != ["run"] or SCRIPT not in case.words or case.status or not isinstance(case.output, (str, bytes)):
                continue
            at = case.words.index(SCRIPT)
            text, output, names = as_bytes(case.files[SCRIPT]), as_bytes(case.output), case.words[at + 1 :]
            is_classic = {"--workers", "--depth", "--small", "--hash", "--rows"} >= set(case.words[1:at:2]) and set(names) <= set(case.files)
            has_limit = any(word in output for word in (b"line 0 refused", b" refused 9\n")) or b"\nshape" in text or not is_utf8(text)
            # (what is told of many rows takes long to read and to write, again and again)
            if is_classic and not has_limit and len(text) < 300_000 and sum(len(as_bytes(case.files[name])) for name in names) < 100_000:
                found.setdefault((text, *(as_bytes(case.files[name]) for name in names)), (f"{module.__name__[6:]}, {case.title}", output))
    return [(title, text, texts, output) for (text, *texts), (title, output) in found.items()]


def pipelines(chance):
    rich, texts = random_script(chance, 60)
    rich = rich.replace(SALES, "\n".join([SALES, "load 2 1", *REFUSED, "publish"]), 1)
    for count in COUNTS:
        for tree in TREES:
            for form in FORMS:
                yield pipeline("all kinds of lines", rich, texts, count, tree, form, chance)
    for number in range(1, 25):
        yield pipeline(f"random script {number}", *random_script(chance, 40), chance.choice(COUNTS), chance.choice(TREES), chance.choice(FORMS), chance)
    for number in range(1, 25):
        yield own_pipeline(number, chance.choice(COUNTS), chance.choice(TREES), chance.choice(FORMS), chance)
    for title, text, texts, output in drawn():
        yield pipeline(title, text, texts, chance.choice(COUNTS), chance.choice(TREES), chance.choice(FORMS), chance, output)
    by_names = "table T (K INT KEY, V INT)\nload south part1\nload 1 south\npublish\nreport SELECT K, V FROM T GROUP BY K, V\n"
    yield pipeline("parts by names", by_names, ["K,V\n1,10\n", "K,V\n2,20\n"], 3, "flat", "json", chance, "line 2 refused 3\nline 5 edition 1\nK | V\n1 | 10\n2 | 20\n", "--part south=part2.csv")


# Files and streams.

RUN = '"$olap" run --shard 1/2 --partials'
# What is there afterwards: of the file p its text, and of all but what was there the name.
LEFT = 'echo $?; cat p; ls | grep -vxF -e errors -e status -e old -e s -e p1 -e p2 || true'


def kept(title, command, errors, output="2\nold\np\n", status=0, **files):
    """A start that writes no file: an old one stays as it was, and no other one is there."""
    return by_shell(title, f"set +e; cp old p; {command}; {LEFT}", output, errors, status, **{"old": "old\n", "s": "publish\n", "p1": FIRST, "p2": SECOND, **files})


def files(title, command, output="", errors="", status=0, **more):
    return by_shell(title, command, output, errors, status, **{"s": "publish\n", "p1": FIRST, "p2": SECOND, **more})


OF_FILES = [
    files("what a shard tells", f"{RUN} p s; cmp p p1"),
    files("the last of as many shards as there may be", f'"$olap" run --shard 18446744073709551615/18446744073709551615 --partials p s; cmp p far', far=partial([2**64 - 1], 2**64 - 1)),
    files("what a shard with parts of its own tells", f'"$olap" run --shard 1/2 --own-parts --partials p s; cmp p own', own=partial([1], division="parts")),
    files("own parts, and a shard that has no row", 'for k in 1 2; do "$olap" run --own-parts --shard $k/2 --partials p$k s part$k; done; "$olap" join p1 p2', "line 4 edition 1\nCOUNT(*) | MAX(K)\n2 | 7\n", s=TABLE + "load 1\npublish\nreport SELECT COUNT(*), MAX(K) FROM T\n", part1="K\n5\n7\n", part2="K\n"),
    files("own parts by their names", 'for k in 1 2; do "$olap" run --own-parts --shard $k/2 --partials p$k --part south=part$k s; done; "$olap" join p2 p1', "line 5 edition 1\nK\n1\n2\n", s=TABLE + "load south\ndelete 3\npublish\nreport SELECT K FROM T GROUP BY K\n", part1="K\n1\n", part2="K\n2\n3\n"),
    files("a shard by numbers with zeros", '"$olap" run s --partials=p --shard=0001/02; cmp p p1'),
    files("a file that is replaced", f"echo old > p; echo old > p.new; {RUN} p s; cmp p p1; ls p*; cat p.new", "p\np.new\np1\np2\nold\n"),
    files("a link that somebody put beside it", f"ln -s s p.new; {RUN} p s; cmp p p1; cat s", "publish\n"),
    files("the first names beside it are taken", f'bash -c \'for n in 1 2 3; do ln -s s p.$$-$n.new; done; exec "$@"\' - {RUN} p s; cmp p p1; cat s; ls | grep -c new', "publish\n3\n"),
    files("sixteen writers of one file", f"for n in $(seq 16); do {RUN} p s & done; wait; cmp p p1; ls p*", "p\np1\np2\n"),
    files("a file in a folder", f"mkdir d; {RUN} d/p s; cmp d/p p1; ls d", "p\n"),
    files("a script through a pipe", f"cat s | {RUN} p /dev/stdin; cmp p p1"),
    files("a shard that needs no standard output", f"{RUN} p s > /dev/full; cmp p p1"),
    files("one file for another", '"$olap" join --partials p p1; cmp p p1; ls p*', "p\np1\np2\n"),
    files("a file that is read and written", '"$olap" join --partials p1 p2 p1; "$olap" join p1; ls p*', "line 1 refused 1\np1\np2\n"),
    files("files through pipes", '"$olap" join <(cat p1) <(cat p2)', "line 1 refused 1\n"),
    files("a form beside a file", '"$olap" join --format csv --partials p p1 p2; "$olap" join --format csv p', "line,1,refused,1,NoTable\n"),
    files("rows of a shard alone", 'for k in 1 2; do "$olap" run --shard $k/2 --partials p$k --rows 39 s; done; "$olap" join p1 p2', FORTY_WRITE, s=FORTY),
    files("other parts", f'{RUN} p1 load q; "$olap" run --shard 2/2 --partials p2 load r; "$olap" join p1 p2', "", f"olap: p2: {UNFIT}\n", 2, load=TABLE + "load 1\n", q="K\n1\n", r="K\nx\n"),
    files("a folder that is not there", f"{RUN} d/p s", "", "olap: cannot write d/p: no such file\n", 3),
    files("a file in the place of the folder", f"{RUN} s/p s", Text(), Text("olap: cannot write s/p: "), 3),
    files("join: a folder that is not there", '"$olap" join --partials d/p p1 p2', "", "olap: cannot write d/p: no such file\n", 3),
    kept("a folder in the place of the file", f"mkdir d; {RUN} d s", "olap: cannot write d: it is a folder\n", "2\nold\nd\np\n"),
    kept("join: a folder in the place of the file", 'mkdir d; "$olap" join --partials d p1 p2', "olap: cannot write d: it is a folder\n", "2\nold\nd\np\n"),
    # What would be lost stays as it was, and nothing is read: the script that is named last is not there.
    *[
        case
        for command, last in ((f"{RUN} FILE none", ""), ('"$olap" join --partials FILE none', "join: "))
        for case in (
            kept(f"{last}a device", command.replace("FILE", "/dev/null"), f"olap: cannot write /dev/null: {NO_FILE}\n"),
            kept(f"{last}a pipe", f'mkfifo f; {command.replace("FILE", "f")}', f"olap: cannot write f: {NO_FILE}\n", "2\nold\nf\np\n"),
            kept(f"{last}standard output by its name", command.replace("FILE", "/dev/stdout"), f"olap: cannot write /dev/stdout: {LINK}\n"),
            kept(f"{last}a link to a file", f'ln -s old l; {command.replace("FILE", "l")} || (readlink l; exit 2)', f"olap: cannot write l: {LINK}\n", "old\n2\nold\nl\np\n"),
            kept(f"{last}a link that leads nowhere", f'ln -s gone l; {command.replace("FILE", "l")}', f"olap: cannot write l: {LINK}\n", "2\nold\nl\np\n"),
        )
    ],
    *[
        kept(f"the file is {title}", f"{before}{RUN} {names}", f"olap: cannot write {name}: {READ}\n", left)
        for title, before, names, name, left in (
            ("the script", "", "p p", "p", "2\nold\np\n"),
            ("the script by another name", "", "./p p", "./p", "2\nold\np\n"),
            ("the script by a second name", "ln p q; ", "q p none", "q", "2\nold\np\nq\n"),
            ("where a link leads that is the script", "ln -s p l; ", "p l", "p", "2\nold\nl\np\n"),
            ("the first part", "", "p s p none", "p", "2\nold\np\n"),
            ("the last part", "", "p s old p", "p", "2\nold\np\n"),
            ("a part that has a name", "", "p --part a=p s", "p", "2\nold\np\n"),
            ("standard input", "", "p s /dev/stdin < p", "p", "2\nold\np\n"),
        )
    ],
    kept("a device, and the words are refused", '"$olap" run --shard 3/2 --partials /dev/null s', f"error: '--shard' takes K/N, the shard K of N, from 1/1 on{MORE}"),
    files("a file of a name of two lines", f"mkdir d; {RUN} $'d/a\\nb\\e' s; {RUN} $'e/a\\nb\\e' s", "", "olap: cannot write e/a\\nb\\u001b: no such file\n", 3),
    kept("an old file beside refused words", '"$olap" run --shard 3/2 --partials p s', f"error: '--shard' takes K/N, the shard K of N, from 1/1 on{MORE}"),
    kept("an old file beside a script that is not there", f"{RUN} p t", "olap: cannot read t: no such file\n"),
    kept("an old file beside a shape", f"{RUN} p s", f"olap: s:2: {SHAPE}\n", s=TABLE + "shape\n"),
    kept("an old file beside rows too many", '"$olap" run --shard 1/1 --rows 1 --partials p s', f"olap: s:3: {FAR}\n", s=FORTY),
    kept("an old file beside a script that is not UTF-8", f"{RUN} p s", "olap: s: it is not UTF-8\n", s=b"\xff"),
    kept("an old file beside no memory", f"(ulimit -v 10000; {RUN} p s)", "olap: ended 90\n", "3\nold\np\n", s=MANY),
    kept("an old file beside a spoilt one", '"$olap" join --partials p p1 p2', f"olap: p2: {SPOILT}\n", p2=SECOND[:-1]),
    kept("an old file beside the same shard twice", '"$olap" join --partials p p1 p1', "olap: p1: shard 1 is in a file before it, too\n"),
    kept("an old file beside one that is not there", '"$olap" join --partials p p1 p3', "olap: cannot read p3: no such file\n"),
    kept("an old file that is read and does not fit", '"$olap" join --partials p p1 p', f"olap: p: {OTHER}\n"),
    files("a full disk", '"$olap" join p1 p2 > /dev/full', "", "olap: ended 92\n", 3),
    files("a closed pipe", '(sleep 1; "$olap" join p1 p2 || echo $? > ended) | true; cat ended', "3\n"),
    files("a full disk, and nobody reads why", '"$olap" join p1 p2 > /dev/full 2> /dev/full', "", "", 3),
    files("a full disk that is not asked for", '"$olap" join --partials p p1 p2 > /dev/full; "$olap" join p', "line 1 refused 1\n"),
]

# The script for GNU Parallel, where that is here.
PARALLEL = pathlib.Path(__file__).resolve().parent.parent.parent / "examples/parallel.sh"
SIDE_BY_SIDE = [
    files("examples/parallel.sh", f'OLAP="$olap" FORM=json "{PARALLEL}" 5 s "a b" > joined; "$olap" run --format json s "a b" > whole; cmp joined whole; ls -d shards.* || true', "", Text(begins="ls: "), s=TABLE + "load 1\npublish\nreport SELECT COUNT(*) FROM T\n", **{"a b": "K\n1\n2\n3\n"}),
    files("examples/parallel.sh of a shape", f'OLAP="$olap" "{PARALLEL}" 2 s', "", Text(begins=f"olap: s:2: {SHAPE}\n"), 2, s=TABLE + "shape\n"),
]

CASES = JOINED + WORDS + HELP + UNTOLD
WRITTEN_TO = [*OF_FILES, *(SIDE_BY_SIDE if shutil.which("parallel") else []), *pipelines(random.Random(13))]
