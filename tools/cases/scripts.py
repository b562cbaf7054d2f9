"""Scripts of single lines and of a few, and how a text is cut into lines."""

from cases.table import block, lines, script

# Before a table the line `publish` gives 1, and any other that is no comment 3.
TEXTS = [
    ("no lines", "", ""),
    ("a last line without an end", "publish", "line 1 refused 1\n"),
    ("one line", "publish\n", "line 1 refused 1\n"),
    ("two lines", "publish\npublish", "line 1 refused 1\nline 2 refused 1\n"),
    ("a carriage return at the end", "publish\r\npublish\r", "line 1 refused 1\nline 2 refused 3\n"),
    ("empty lines", "\n\npublish", "line 3 refused 1\n"),
    ("two carriage returns", "publish\r\r\n", "line 1 refused 3\n"),
    ("a carriage return and a newline", "\r\n", ""),
    ("a carriage return alone", "\r", "line 1 refused 3\n"),
    ("a carriage return at the front", "\rpublish\n", "line 1 refused 3\n"),
    ("a byte that is no UTF-8", b"\xff", "line 1 refused 3\n"),
]

SCRIPTS = [
    lines("a command before the table", [("publish", 1)]),
    lines("a command in capitals", [("Table T (K INT KEY)", 3)]),
    lines(
        "a report of edition 0",
        [
            "table T (K INT KEY)",
            ("report SELECT COUNT(*) FROM T", block(0, "COUNT(*)", "0")),
        ],
    ),
    lines(
        "a report of an edition",
        [
            "table T (K INT KEY)",
            "put 1",
            "publish",
            ("report SELECT COUNT(*) FROM T", block(1, "COUNT(*)", "1")),
        ],
    ),
    lines(
        "lines that end in a carriage return",
        [
            "table T (K INT KEY)\r",
            "put 1\r",
            "publish\r",
            ("report select count ( * ) from t\r", block(1, "COUNT(*)", "1")),
        ],
    ),
    lines(
        "comments",
        [
            "# table",
            "",
            b"#\xff",
            "table T (K INT KEY)",
            ("put x", 7),
        ],
    ),
    lines("a byte order mark at the front of a script", [("\ufefftable T (K INT KEY)", 3)]),
    lines(
        "tables",
        [
            ("table T (K INT)", 4),
            "table T (K INT KEY)",
            ("table T (K INT KEY)", 2),
            ("table", 2),
        ],
    ),
    lines(
        "commands before the table",
        [
            ("put 1", 1),
            ("report x", 1),
            ("publish now", 1),
            ("load 1", 1),
            (" put 1", 3),
        ],
    ),
    lines(
        "rests of commands",
        [
            "table T (K INT KEY)",
            "publish ",
            ("publish  ", 3),
            ("puts 1", 3),
            ("put", 7),
            ("put ", 7),
        ],
    ),
    lines(
        "records of an INT key",
        [
            "table T (K INT KEY)",
            ("put 9223372036854775808", 7),
            ("put +1", 7),
            ("put 1,2", 7),
            "put -9223372036854775808",
        ],
    ),
    lines(
        "records of a TEXT key",
        [
            "table T (K TEXT KEY)",
            'put "a,b"',
            'put "a\rb"',
            "put \ufeffa",
            "put a",
            ("put a\rb", 7),
            "publish",
            ("report SELECT COUNT(*) FROM T", block(1, "COUNT(*)", "3")),
        ],
    ),
    lines(
        "faulty queries",
        [
            "table T (K INT KEY)",
            ("report SELECT COUNT(* FROM T", 10),
            ("report SELECT COUNT(*) FROM U", 11),
            ("report", 10),
            ("report SELECT COUNT(*) FROM T T", 10),
        ],
    ),
    lines(
        "names in queries",
        [
            "table T (K INT KEY)",
            ("report SELECT COUNT(*) FROM FROM", 10),
            ("report SELECT COUNT(K) FROM T", block(0, "COUNT(K)", "0")),
            ("report 1a", 10),
        ],
    ),
    lines(
        "reports of the edition at their line",
        [
            "table T (K INT KEY)",
            "put 1",
            ("report SELECT COUNT(*) FROM T", block(0, "COUNT(*)", "0")),
            "publish",
            "put 2",
            ("report SELECT COUNT(*) FROM T", block(1, "COUNT(*)", "1")),
            "publish",
            "publish",
            ("report SELECT COUNT(*) FROM T", block(3, "COUNT(*)", "2")),
        ],
    ),
    lines(
        "a draft of two rows",
        [
            "table T (K INT KEY, V INT)",
            "put 1,1",
            "put 2,2",
            ("put 3,3", 9),
            "put 2,7",
            ("put 4", 7),
            "publish",
            ("report SELECT COUNT(*) FROM T", block(1, "COUNT(*)", "2")),
        ],
        options=["--rows", "2"],
    ),
]

CASES = [script(title, text, output) for title, text, output in TEXTS] + SCRIPTS
