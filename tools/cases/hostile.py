"""Input that is made to be a burden: lines, names, texts, parts and queries at their limits, and keys of one hash."""

from itertools import product

from cases.live import counts, live
from cases.table import Case, block, lines, lines_by, of_lines, script

TABLE = "table T (K INT KEY)"
COUNT = "report SELECT COUNT(*) FROM T"
# The most bytes of a script.
SCRIPT = 1_048_576


def counted(number, edition=1):
    return block(edition, "COUNT(*)", str(number))


# One line each behind the table's, with no byte to spare, and what it gives.
FULL_LINES = [
    ("a comment", "#", "x", None),
    ("an unknown word", "x", "x", 3),
    ("a line of zero bytes", "\0", "\0", 3),
    ("a put of digits", "put ", "9", 7),
    ("a put of zeros", "put ", "0", None),
    ("a put of fields", "put ", ",", 7),
    ("a put of a field that is not closed", 'put "', "x", 7),
    ("a put of quotes", "put ", '"', 7),
    ("a put of carriage returns", "put 1", "\r", None),
    ("a delete of zeros", "delete ", "0", None),
    ("a delete of a text that is not closed", "delete '", "x", 8),
    ("a delete of quotes", "delete ", "'", 8),
    ("a delete of spaces", "delete 1", " ", None),
    ("a second table", "table ", "x", 2),
    ("a load of zeros", "load ", "0", 5),
    ("a load of digits", "load ", "9", 5),
    ("a load of spaces", "load 1", " ", 3),
    ("a rest of a publish", "publish ", " ", 3),
    ("a query", "report ", "(", 15),
]


def full(title, front, filler, gives):
    room = SCRIPT - len(TABLE) - 1 - len(front)
    text = f"{TABLE}\n{front}{room * filler}"
    return script(f"{title} to the end of the script", text, f"line 2 refused {gives}\n" if gives else "", ["K\n"])


WHOLE_SCRIPTS = [
    script("a script of empty lines", SCRIPT * "\n", ""),
    script("a table's name to the end of the script", "table " + (SCRIPT - 6) * "x", "line 1 refused 4\n"),
    script("a table of columns of one name", "table T (" + 130_000 * "A INT, " + "K INT KEY)", "line 1 refused 4\n"),
    script("a table of parentheses", "table T (" + 1_000_000 * "(", "line 1 refused 4\n"),
    script("refusals alone", 500_000 * "x\n", "".join(f"line {number} refused 3\n" for number in range(1, 500_001))),
]

# A name has no limit but the script's.
NAME = 1_000_000 * "n"
NAMED = [
    f"table T (K INT KEY, {NAME} INT)",
    "load 1",
    ("load 2", "refused 6 part 2 record 0"),
    ("load 3", "refused 6 part 3 record 0"),
    ("load 4", "refused 6 part 4 record 0"),
    "publish",
    (COUNT, counted(1)),
]
HEADERS = [f"K,{name}\n1,2\n" for name in (NAME.swapcase(), NAME[1:], NAME + "n", NAME[1:] + "m")]

LONG = 1_024 * "x"
QUOTES = 1_024 * "'"
WIDE = ", ".join(f"C{number} TEXT" for number in range(2, 17))
WIDEST = [
    f"table T (C1 TEXT KEY, {WIDE})",
    f"put {','.join([LONG] * 15 + [QUOTES])}",
    (f"put {','.join([LONG] * 15 + [QUOTES + 'x'])}", 7),
    (f"put {','.join([LONG] * 17)}", 7),
    "publish",
    ("report SELECT C1, MAX(C16) FROM T GROUP BY C1", block(1, "C1 | MAX(C16)", f"'{LONG}' | '{2 * QUOTES}'")),
    (f"delete '{LONG}x'", 8),
    f"delete '{LONG}'",
    "publish",
    (COUNT, counted(0, 2)),
]

TOKENS = [
    (b"\xff", 3),
    TABLE,
    (b"\xff", 3),
    (b"#\xff", None),
    ("put 9223372036854775808", 7),
    ("put -9223372036854775809", 7),
    ("put +1", 7),
    ("put 1,2", 7),
    ("put", 7),
    ("delete", 8),
    ("delete 'a'", 8),
    ("delete 1 2", 8),
    "put -9223372036854775808",
    "put 9223372036854775807",
    "publish ",
    ("publish  ", 3),
    ("report SELECT MIN(K), MAX(K) FROM T", block(1, "MIN(K) | MAX(K)", "-9223372036854775808 | 9223372036854775807")),
]


def items(number):
    return f"report SELECT {', '.join(number * ['COUNT(*)'])} FROM T"


QUERIES = [
    TABLE,
    "put 1",
    "publish",
    (f"{COUNT} WHERE {64 * '('}K = 1{64 * ')'}", counted(1)),
    (f"{COUNT} WHERE {65 * '('}K = 1{65 * ')'}", 15),
    (f"{COUNT} WHERE {65 * '('}", 15),
    (f"{COUNT} WHERE {65 * '('}?", 10),
    (f"{COUNT} WHERE NOT NOT K = 1", 10),
    (items(32), block(1, " | ".join(32 * ["COUNT(*)"]), " | ".join(32 * ["1"]))),
    (items(33), 15),
    # More sets than 64 bits count, and than 64 bits of sets hold.
    (f"{COUNT} GROUP BY {', '.join(64 * ['ROLLUP(K)'])}", 14),
    (f"{COUNT} GROUP BY {', '.join(5_000 * ['ROLLUP(K)'])}", 14),
    (f"{COUNT} GROUP BY {', '.join(6_000 * ['()'])}", counted(1)),
    (f"{COUNT} GROUP BY GROUPING SETS ({', '.join(256 * ['()'])})", block(1, "COUNT(*)", *256 * ["1"])),
    (f"{COUNT} GROUP BY GROUPING SETS ({', '.join(257 * ['()'])})", 14),
    (f"{COUNT} WHERE K IN ({', '.join(6_000 * ['1'])})", counted(1)),
    (f"{COUNT} WHERE {' OR '.join(3_000 * ['NOT K = 1'])}", counted(0)),
    (f"{COUNT} WHERE {' '.join(15_000 * ['NOT'])}", 10),
]

# Parts, and the number of the faulty record, or None where there is none.
PARTS = [
    ("", 0),
    ("k\n", None),
    (1_000_000 * "\n", 0),
    ("K\n" + 1_000_000 * "\n" + "1\n", None),
    ("K\n" + 1_000_000 * ",", 1),
    ('K\n"' + 1_000_000 * "1\n", 1),
    ('K\n"' + 999_999 * '""', 1),
    ('K\n1\n"' + 1_000_000 * "0" + "7", None),
    (1_000_000 * "K", 0),
    (b"\xef\xbb\xbf" + 1_000_000 * b"\xef\xbb\xbf", 0),
    (b"K\n" + 1_000_000 * b"\xff", 1),
    ("K\n" + 1_000_000 * "\0", 1),
]
LOADS = [
    (f"load {number}", None if record is None else f"refused 6 part {number} record {record}")
    for number, (_, record) in enumerate(PARTS, 1)
]
LOADED = [
    TABLE,
    *LOADS,
    "publish",
    ("report SELECT COUNT(*), MAX(K) FROM T", block(1, "COUNT(*) | MAX(K)", "2 | 7")),
]

# A part that is listed as often as a line has room for.
LISTED = [TABLE, "load 1" + 500_000 * " 1", "publish", (COUNT, counted(1))]

# 64 parts with the same thousand keys, each listed once: files of one text, or one file that is handed in 64 times.
EVERY = [
    TABLE,
    f"load {' '.join(map(str, range(1, 65)))}",
    ("load 65", 5),
    "publish",
    (COUNT, counted(1_000)),
]
THOUSAND = "K\n" + "".join(f"{key}\n" for key in range(1_000))


def one_file(workers):
    """One file that is handed in 64 times."""
    text, output = of_lines(EVERY)
    words = ["run", "--workers", workers, "every.olap", *["part.csv"] * 64]
    return Case(f"64 times one file, --workers {workers}", words, {"every.olap": text, "part.csv": THOUSAND}, output=output)


# A draft of two rows, which is all that it may have.
ROOM = [
    "table T (K INT KEY, V INT)",
    "put 1,1",
    "put 2,2",
    "load 1",
    ("load 2", 9),
    ("load 1 2", 9),
    "publish",
    ("report SELECT COUNT(*), SUM(V) FROM T", block(1, "COUNT(*) | SUM(V)", "2 | 12")),
]


def keys(first, last):
    """Texts of one length, and so of one hash where that is the length."""
    return [f"k{number:04}" for number in range(first, last)]


def part(names, value):
    return "K,V\n" + "".join(f"{name},{value}\n" for name in names)


def one_hash(last):
    """Puts, deletes, loads, merges and reports over so many keys, and the parts that are loaded."""
    half, third = last // 2, last // 3
    script = [
        "table T (K TEXT KEY, V INT)",
        "load 1",
        "publish",
        (
            "report SELECT COUNT(*), SUM(V), MIN(K), MAX(K) FROM T",
            block(1, "COUNT(*) | SUM(V) | MIN(K) | MAX(K)", f"{half} | {half} | 'k0000' | 'k{half - 1:04}'"),
        ),
        *[f"put {name},5" for name in keys(third, half)],
        *[f"delete '{name}'" for name in keys(0, third)],
        "publish",
        (
            "report SELECT COUNT(*), SUM(V), MIN(K) FROM T",
            block(2, "COUNT(*) | SUM(V) | MIN(K)", f"{half - third} | {5 * (half - third)} | 'k{third:04}'"),
        ),
        "load 1 2 1 3",
        "publish",
        (
            "report SELECT V, COUNT(*), COUNT(DISTINCT K) FROM T GROUP BY ROLLUP(V)",
            block(
                3,
                "V | COUNT(*) | COUNT(DISTINCT K)",
                f"1 | {half} | {half}",
                f"3 | {last - half} | {last - half}",
                f"NULL | {last} | {last}",
            ),
        ),
        (
            f"report SELECT K, SUM(V) FROM T WHERE K >= 'k{last - 2:04}' GROUP BY K",
            block(3, "K | SUM(V)", f"'k{last - 2:04}' | 3", f"'k{last - 1:04}' | 3"),
        ),
    ]
    return script, [part(keys(0, half), 1), part(keys(0, last), 2), part(keys(half, last), 3)]


# So many keys of one hash that their square is more than a run has time for.
MANY = 400_000


def crowd():
    """A load of so many keys, a load of as many that lies over half of them, one put and one delete, and reports."""
    half = MANY // 2
    names = [f"k{number:06}" for number in range(MANY + half)]
    script = [
        "table T (K TEXT KEY, V INT)",
        "load 1",
        "publish",
        (
            "report SELECT COUNT(*), SUM(V), MIN(K), MAX(K) FROM T",
            block(1, "COUNT(*) | SUM(V) | MIN(K) | MAX(K)", f"{MANY} | {MANY} | '{names[0]}' | '{names[MANY - 1]}'"),
        ),
        "load 2",
        f"put {names[1]},5",
        f"delete '{names[0]}'",
        "publish",
        (
            "report SELECT V, COUNT(DISTINCT K) FROM T GROUP BY ROLLUP(V)",
            block(2, "V | COUNT(DISTINCT K)", f"1 | {half - 2}", f"2 | {MANY}", "5 | 1", f"NULL | {MANY + half - 1}"),
        ),
    ]
    return script, [part(names[:MANY], 1), part(names[:half - 1:-1], 2)]


# Nine letters each, which FNV-1a takes to one state from any whose lowest byte is 0, and the lowest byte of that is 0, too.
TWINS = ("eItP20f59", "1980aZLBs")
LETTERS = b"abcdefghijklmnopqrstuvwxyz"


def fnv(state, octets):
    """The state of FNV-1a after these bytes."""
    for octet in octets:
        state = (state ^ octet) * 1_099_511_628_211 % 2**64
    return state


def twin_texts(blocks):
    """Texts of one FNV-1a hash, rising: two letters that lead to the lowest byte 0, and then so many twins in each choice."""
    state = fnv(14_695_981_039_346_656_037, [2, *(2 + 9 * blocks).to_bytes(8, "little")])
    first = next(letter for letter in LETTERS if fnv(state, [letter]) % 256 in LETTERS)
    start = chr(first) + chr(fnv(state, [first]) % 256)
    return sorted(start + "".join(chosen) for chosen in product(TWINS, repeat=blocks))


def shape_of_twins(names):
    """A shape in which these texts share each prefix of the digits of one hash."""
    hash = fnv(14_695_981_039_346_656_037, [2, *len(names[0]).to_bytes(8, "little"), *names[0].encode()])
    digits = "".join("0123456789abcdefghijklmnopqrstuv"[hash >> 5 * depth & 31] for depth in range(13))
    return [f"{digits[:depth] or '-'} {len(names)}" for depth in range(14)]


def twins():
    """Texts of one hash in a table: loaded twice, put, deleted and counted."""
    names = twin_texts(7)
    script = [
        "table T (K TEXT KEY, V INT)",
        "load 1",
        f"put {names[0]},9",
        f"delete '{names[-1]}'",
        f"delete '{names[1][:-1]}x'",
        "publish",
        (
            "report SELECT COUNT(*), COUNT(DISTINCT K), SUM(V), MIN(K), MAX(K) FROM T",
            block(1, "COUNT(*) | COUNT(DISTINCT K) | SUM(V) | MIN(K) | MAX(K)", f"127 | 127 | 135 | '{names[0]}' | '{names[-2]}'"),
        ),
        ("shape", block(1, *shape_of_twins(names[:-1]))),
    ]
    return script, [part(names[::-1] + names[:64], 1)]


# A query of 65,536 bytes, and one of a byte more.
LONG_QUERY = f"SELECT COUNT(*) FROM T{65_514 * ' '}"

WAYS = [
    ("--workers", workers, "--depth", depth, "--hash", hash)
    for workers, depth in (("1", "0"), ("7", "1"))
    for hash in ("fnv", "plain")
]
OF_ONE_HASH, OF_ONE_HASH_PARTS = one_hash(500)
CROWD, CROWD_PARTS = crowd()
TWIN, TWIN_PARTS = twins()

CASES = [
    *[full(*line) for line in FULL_LINES],
    *WHOLE_SCRIPTS,
    lines("names of 1,000,000 letters", NAMED, HEADERS),
    lines("texts of 1,024 bytes in 16 columns", WIDEST),
    lines("bytes, numbers and rests", TOKENS),
    lines("queries at their limits", QUERIES),
    lines("parts of a million bytes", LOADED, [text for text, _ in PARTS]),
    lines("a part that is listed 500,001 times", LISTED, ["K\n1\n"]),
    *lines_by("64 parts of one text", EVERY, 64 * [THOUSAND], [("--workers", workers) for workers in ("1", "64")]),
    *[one_file(workers) for workers in ("1", "64")],
    lines("a draft that is full", ROOM, [part("2", 11), part("23", 4)], ["--rows", "2"]),
    live("viewers with a query of 65,536 bytes", [TABLE], LONG_QUERY, counts(1, (0, 0), (0, 0))),
    live("viewers with a query of a byte more", [TABLE], LONG_QUERY + " ", "viewers refused 15\n"),
    *lines_by("500 keys of one hash", OF_ONE_HASH, OF_ONE_HASH_PARTS, WAYS),
    lines(f"{MANY:,} keys of one hash", CROWD, CROWD_PARTS, ("--hash", "plain")),
    lines("128 texts of one FNV-1a hash", TWIN, TWIN_PARTS),
]
