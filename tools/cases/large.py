"""Parts that are so large that several workers read them, in pieces that end where records end: what is written is the same
as with one worker. What follows from the rows is worked out here, row by row."""

from cases.table import lines_by

BY_WORKERS = [("--workers", number) for number in ("1", "2", "4", "7")]

# Each part has some more bytes than this, which is three pieces at least, and rows of some length.
BYTES = 3_300_000
FILLED = "-" * 40

TABLE = "table T (K INT KEY, V INT, S TEXT)"
QUERY = "report SELECT V, COUNT(*), SUM(K), COUNT(DISTINCT S) FROM T GROUP BY V"

# Texts of rows, of which some are between quotes: what stands there looks like the end of a field, of a record or of the quotes.
TEXTS = [
    "plain",
    "a,b",
    'with "quotes" in it',
    '"',
    '""\n',
    "two\nlines",
    'a record\n99,9,"x"\n98,9,y',
    "another\r\n97,9,z\r\n",
    "\n\n\n",
    "last",
]


def quoted(text):
    """The text as a field: between quotes where it has to be."""
    return '"' + text.replace('"', '""') + '"' if any(it in text for it in ',"\r\n') else text


def record(row):
    key, value, text = row
    return f"{key},{value},{quoted(text)}"


def part(rows, end="\n", front="K,V,S"):
    return front + end + "".join(record(row) + end for row in rows)


def rows_of(texts):
    """Rows of these texts in turn, as many as such a part has, and then some of the same keys with other values."""
    size, rows = 0, []
    while size < BYTES:
        key = 1_000_000 + len(rows)
        rows.append((key, key % 5, f"{texts[key % len(texts)]}{FILLED}{key % 3}"))
        size += len(record(rows[-1])) + 1
    return rows + [(key, 7, "again") for key, _, _ in rows[:: len(rows) // 20]]


def told(rows):
    """What the report gives of these rows, put one after another."""
    table = {key: (value, text) for key, value, text in rows}
    values = sorted({value for value, _ in table.values()})
    lines = ["edition 1", "V | COUNT(*) | SUM(K) | COUNT(DISTINCT S)"]
    for wanted in values:
        found = [(key, text) for key, (value, text) in table.items() if value == wanted]
        lines.append(f"{wanted} | {len(found)} | {sum(key for key, _ in found)} | {len({text for _, text in found})}")
    return "\n".join(lines)


def loaded(title, parts, rows):
    """A load of the parts, whose rows together are these."""
    numbers = " ".join(str(number) for number in range(1, len(parts) + 1))
    script = [TABLE, f"load {numbers}", "publish", (QUERY, told(rows))]
    return lines_by(title, script, parts, BY_WORKERS)


QUOTED = rows_of(TEXTS)
PLAIN = rows_of(["plain", "text"])
SMALL = [(1, 1, "small"), (1_000_001, 8, "small")]

# A record whose last field opens quotes that nothing closes: it goes to the end of the part.
CUT_OFF = '8000000,3,"cut off'

# A record that is none, and later ones; and how many records are before it.
DEEP = 2 * len(QUOTED) // 3
FAULTY = QUOTED[:DEEP] + [("x", 1, "no number")] + QUOTED[DEEP:] + [("y", 1, "nor this")]

# A mark at the front of a text is none of a key that begins as it does.
MARKED = [f"{mark}{key}" for key in range(200_000) for mark in ("", "\ufeff")]
MARKED_PART = "K,V\n" + "".join(f"{key},1\n" for key in MARKED)

# Rows of so many groups that they are dealt to several lists, of which each has 131,072 rows and more.
DEALT = 300_000
DEALT_PART = "K,A\n" + "".join(f"{key},{key // 2}\n" for key in range(DEALT))
DEALT_TOLD = "".join(f"\n{group} | 2 | {4 * group + 1}" for group in range(DEALT // 2))

FIRST = [TABLE, ("load 1", "refused 6 part 1 record 0")]
FAULTS = [TABLE, ("load 1 2 3", f"refused 6 part 2 record {DEEP + 1}")]

CASES = [
    *loaded("quotes and line breaks in a part of several pieces", [part(QUOTED)], QUOTED),
    *loaded("the same with carriage returns", [part(QUOTED, "\r\n")], QUOTED),
    *loaded("no quotes", [part(PLAIN)], PLAIN),
    *loaded("no quotes, with carriage returns", [part(PLAIN, "\r\n")], PLAIN),
    *loaded("lines that end by carriage returns alone", [part(PLAIN, "\r")], PLAIN),
    *loaded("a mark and a header between quotes", [part(QUOTED, front='\ufeff"K","V","S"')], QUOTED),
    *loaded("no quotes behind a mark", [part(PLAIN, front="\ufeffK,V,S")], PLAIN),
    *loaded("a last field whose quotes the end cuts off", [part(QUOTED) + CUT_OFF], QUOTED + [(8_000_000, 3, "cut off")]),
    *loaded("the same in a small part", [part(SMALL) + CUT_OFF], SMALL + [(8_000_000, 3, "cut off")]),
    *loaded("empty lines before the header", ["\n" * BYTES + part(SMALL)], SMALL),
    *loaded("small parts beside two large ones", [part(QUOTED), part(SMALL), part(PLAIN)], QUOTED + SMALL + PLAIN),
    *lines_by(
        "keys that begin as a mark does",
        [
            "table T (K TEXT KEY, V INT)",
            "load 1",
            "publish",
            ("report SELECT COUNT(*) FROM T", f"edition 1\nCOUNT(*)\n{len(MARKED)}"),
        ],
        [MARKED_PART],
        BY_WORKERS,
    ),
    *lines_by(
        "groups of rows that are dealt to several lists",
        [
            "table T (K INT KEY, A INT)",
            "load 1",
            "publish",
            ("report SELECT A, COUNT(*), SUM(K) FROM T GROUP BY A", f"edition 1\nA | COUNT(*) | SUM(K){DEALT_TOLD}"),
        ],
        [DEALT_PART],
        BY_WORKERS,
    ),
    *lines_by("a faulty record behind others", FAULTS, [part(SMALL), part(FAULTY), part([("z", 1, "")])], BY_WORKERS),
    *lines_by("a header that is none", FIRST, [part(QUOTED, front="K,V")], BY_WORKERS),
    *lines_by("empty lines alone", FIRST, ["\n" * BYTES], BY_WORKERS),
]
