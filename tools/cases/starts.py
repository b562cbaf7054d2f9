"""How the program is started: its words, its files, its streams."""

import gzip

from cases.table import Case, Text

TABLE = "table T (K INT KEY)\n"
COUNT = "report SELECT COUNT(*) FROM T\n"
TWO = TABLE + "put 1\nput 2\npublish\n" + COUNT
TWO_WRITES = "line 5 edition 1\nCOUNT(*)\n2\n"
SHAPE = TABLE + "put 2\nput 34\npublish\nshape\n"
LOAD = TABLE + "load 1 2\nload 3\npublish\n" + COUNT
ONE_CSV = "k\n1\n"
TWO_CSV = b'\xef\xbb\xbfK\r\n"1"\r\n2\r\n'
LARGE = TABLE + "load 1\npublish\nreport SELECT COUNT(*), MAX(K) FROM T\n"
# (more than a pipe holds)
LARGE_CSV = "K\n" + "".join(f"{key}\n" for key in range(100_000))
LIMIT = "line 0 refused 15\n"
LONG = "\n" * 1_048_577
MORE = "\n\nFor more information, try '--help'.\n"
PARTS = {f"part{number}": "" for number in range(1, 66)}
NAMES = list(PARTS)


def run(title, words, files, output="", **more):
    return Case(title, ["run", *words], files, output=output, **more)


def given(title, text, output):
    """No words: the script is standard input."""
    return Case(title, [], {"given": text}, "given", output)


def refused(title, words, errors):
    return Case(title, words, {"two.olap": TWO}, status=2, errors=errors)


RUNS = [
    run("a script", ["two.olap"], {"two.olap": TWO}, TWO_WRITES),
    given("a script as standard input", TWO, TWO_WRITES),
    run("64 parts", ["two.olap", *NAMES[:64]], {"two.olap": TWO, **PARTS}, TWO_WRITES),
    run("65 parts", ["two.olap", *NAMES], {"two.olap": TWO, **PARTS}, LIMIT),
    run(
        "parts by two workers",
        ["--workers", "2", "load.olap", "one.csv", "two.csv"],
        {"load.olap": LOAD, "one.csv": ONE_CSV, "two.csv": TWO_CSV},
        "line 3 refused 5\nline 5 edition 1\nCOUNT(*)\n2\n",
    ),
    run(
        "a part with a fault",
        ["load.olap", "one.csv", "faulty.csv"],
        {"load.olap": LOAD, "one.csv": ONE_CSV, "faulty.csv": "K\n3\nx\n"},
        "line 2 refused 6 part 2 record 2\nline 3 refused 5\nline 5 edition 1\nCOUNT(*)\n0\n",
    ),
    run("a script that is too long", ["long.olap"], {"long.olap": LONG}, LIMIT),
    given("a script that is too long as standard input", LONG, LIMIT),
    run("no lines", ["empty.olap"], {"empty.olap": ""}),
    given("no lines as standard input", "", ""),
    run(
        "a line that is not UTF-8",
        ["bytes.olap"],
        {"bytes.olap": b"\xff\n" + (TABLE + COUNT).encode()},
        "line 1 refused 3\nline 3 edition 0\nCOUNT(*)\n0\n",
    ),
    run(
        "all options at their greatest",
        ["--workers", "64", "--depth=13", "--small", "18446744073709551615", "--rows", "2", "two.olap"],
        {"two.olap": TWO},
        TWO_WRITES,
    ),
    run(
        "one row at most",
        ["--rows", "1", "two.olap"],
        {"two.olap": TWO},
        "line 3 refused 9\nline 5 edition 1\nCOUNT(*)\n1\n",
    ),
    run("the hash fnv", ["--hash", "fnv", "shape.olap"], {"shape.olap": SHAPE}, "line 5 edition 1\n- 2\ne 2\n"),
    run("the hash plain", ["--hash", "plain", "shape.olap"], {"shape.olap": SHAPE}, "line 5 edition 1\n- 2\n2 2\n"),
]

HELP = [
    Case("help", ["--help"], output=Text(has="Usage: olap <COMMAND>")),
    Case("help of run", ["run", "--help"], output=Text(has="Usage: olap run [OPTIONS] <SCRIPT> [PART]...")),
    Case("the version", ["--version"], output="olap 1.14.1 (rattle-kit-13f logic dac8208d650f15bf)\n"),
]

REFUSED = [
    refused("another command", ["walk", "two.olap"], Text("error: unrecognized subcommand 'walk'\n")),
    refused(
        "no script",
        ["run"],
        Text("error: the following required arguments were not provided:\n  <SCRIPT>\n"),
    ),
    refused("another option", ["run", "two.olap", "--speed", "1"], Text("error: unexpected argument '--speed' found\n")),
    refused(
        "65 workers",
        ["run", "--workers", "65", "two.olap"],
        f"error: '--workers' takes a number from 1 to 64{MORE}",
    ),
    refused("depth 14", ["run", "--depth", "14", "two.olap"], f"error: '--depth' takes a number from 0 to 13{MORE}"),
    refused(
        "a number with a sign",
        ["run", "--small=-1", "two.olap"],
        f"error: '--small' takes a number from 0 to 18446744073709551615{MORE}",
    ),
    refused(
        "no rows at all",
        ["run", "--rows", "0", "two.olap"],
        f"error: '--rows' takes a number from 1 to 4294967296{MORE}",
    ),
    refused("another hash", ["run", "--hash", "md5", "two.olap"], f"error: '--hash' takes fnv or plain{MORE}"),
    refused("a word that is not UTF-8", ["run", b"\xff"], "olap: a word of the command line is not UTF-8\n"),
]

UNREAD = [
    refused("a script that is not there", ["run", "none.olap"], "olap: cannot read none.olap\n"),
    run("a script that is a folder", ["folder"], {"folder": None}, status=2, errors="olap: cannot read folder\n"),
    run(
        "a part that is not there",
        ["two.olap", "part1", "none", "part2"],
        {"two.olap": TWO, **PARTS},
        status=2,
        errors="olap: cannot read none\n",
    ),
    run(
        "a part in a file that is no folder",
        ["two.olap", "two.olap/part"],
        {"two.olap": TWO},
        status=2,
        errors="olap: cannot read two.olap/part\n",
    ),
    # The reason is on a line of its own, and only where the run explains.
    refused("an explained script that is not there", ["run", "--explain", "none.olap"], "olap: cannot read none.olap\nolap: none.olap: no such file\n"),
    refused("an explained part that is a folder", ["run", "two.olap", ".", "--explain"], "olap: cannot read .\nolap: .: it is a folder\n"),
    refused("a live script that is not there", ["live", "--query", "Q", "none.olap"], "olap: cannot read none.olap\n"),
    refused("an explained live script that is not there", ["live", "--explain", "--query", "Q", "none.olap"], "olap: cannot read none.olap\nolap: none.olap: no such file\n"),
    # The first line ends with the name as it is.
    refused("an explained file of a name of two lines", ["run", "--explain", "a\nolap: b\u202e"], "olap: cannot read a\nolap: b\u202e\nolap: a\\nolap: b\\u202e: no such file\n"),
    # Of an error that has no name it is told what the system says.
    refused("a file that no opening can read, explained", ["run", "--explain", "/proc/self/mem"], "olap: cannot read /proc/self/mem\nolap: /proc/self/mem: Input/output error (os error 5)\n"),
    refused("a session over such a file", ["session", "/proc/self/mem"], "olap: cannot read /proc/self/mem: Input/output error (os error 5)\n"),
    refused("a session over a file of a name of two lines", ["session", "a\nb\x7f\u0085"], "olap: cannot read a\\nb\\u007f\\u0085: no such file\n"),
    refused("a page of a name of two lines", ["help", "a\nb"], Text("error: no help of 'a\\nb'\n")),
    Case(
        "standard input that is a folder",
        [],
        {"folder": None},
        "folder",
        status=2,
        errors="olap: cannot read -\n",
    ),
]

LOADED_WRITES = "line 3 refused 5\nline 5 edition 1\nCOUNT(*)\n2\n"

# Standard input by the name that the system has for it, and files that the shell makes of what another program writes.
# `-` is a file's name like any other.
STREAMS = [
    Case("a script as /dev/stdin", ["run", "/dev/stdin"], {"two.olap": TWO}, "two.olap", TWO_WRITES),
    Case(
        "a part as /dev/stdin",
        ["run", "load.olap", "one.csv", "/dev/stdin"],
        {"load.olap": LOAD, "one.csv": ONE_CSV, "two.csv": TWO_CSV},
        "two.csv",
        LOADED_WRITES,
    ),
    run("a file of the name -", ["-"], {"-": TWO}, TWO_WRITES),
    Case(
        "no file of the name -",
        ["run", "-"],
        {"two.olap": TWO},
        "two.olap",
        status=2,
        errors="olap: cannot read -\n",
    ),
]

CASES = RUNS + HELP + REFUSED + UNREAD + STREAMS

# A full disk, a reader that goes away after one line, and what other programs write.
WRITTEN_TO = [
    (
        run("a full disk", ["two.olap"], {"two.olap": TWO}, status=3, errors="olap: ended 92\n"),
        'status=0; "$@" > /dev/full 2> errors || status=$?; echo $status > status',
    ),
    (
        run(
            "a reader that goes away",
            ["reports.olap"],
            {"reports.olap": TABLE + 5000 * COUNT},
            "line 2 edition 0\n",
            status=3,
            errors="olap: ended 92\n",
        ),
        'echo 0 > status; { "$@" 2> errors || echo $? > status; } | head -n 1',
    ),
    (
        run("a script through a pipe", ["/dev/stdin"], {"two.olap": TWO}, TWO_WRITES),
        'cat two.olap | { "$@" 2> errors; echo $? > status; }',
    ),
    (
        run("a script through a pipe, with no words of its own", ["/dev/stdin"], {"long.olap": LONG}, LIMIT),
        'cat long.olap | { "$1" 2> errors; echo $? > status; }',
    ),
    (
        run(
            "packed parts",
            ["--workers", "2", "load.olap"],
            {"load.olap": LOAD, "one.csv.gz": gzip.compress(ONE_CSV.encode()), "two.csv.gz": gzip.compress(TWO_CSV)},
            LOADED_WRITES,
        ),
        '"$@" <(zcat one.csv.gz) <(zcat two.csv.gz) 2> errors; echo $? > status',
    ),
    (
        run(
            "a packed part through a pipe",
            ["load.olap", "one.csv", "/dev/stdin"],
            {"load.olap": LOAD, "one.csv": ONE_CSV, "two.csv.gz": gzip.compress(TWO_CSV)},
            LOADED_WRITES,
        ),
        'zcat two.csv.gz | { "$@" 2> errors; echo $? > status; }',
    ),
    (
        run(
            "a large packed part",
            ["large.olap"],
            {"large.olap": LARGE, "large.csv.gz": gzip.compress(LARGE_CSV.encode())},
            "line 4 edition 1\nCOUNT(*) | MAX(K)\n100000 | 99999\n",
        ),
        '"$@" <(zcat large.csv.gz) 2> errors; echo $? > status',
    ),
]
