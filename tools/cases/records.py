"""The record of a `put` line, and the row that it spells."""

from cases.table import lines

SALES = "SALES (ID INT KEY, REGION TEXT, ITEM TEXT, UNITS INT)"
TWO = "T (K INT KEY, V TEXT)"
ONE = "T (K INT KEY)"


def bytes_of(text):
    return text if isinstance(text, bytes) else text.encode()


def records(title, table, names, rows):
    """Each record beside its row as a report prints it, of which the first cell is the key, or beside its number."""
    script = [(f"table {table}", None)]
    edition = 0
    for record, gives in rows:
        put = b"put " + bytes_of(record)
        if isinstance(gives, int):
            script.append((put, gives))
            continue
        edition += 1
        name = table.split()[0]
        heading = names.replace(", ", " | ")
        key = gives.split(" | ")[0]
        script += [
            (put, None),
            ("publish", None),
            (f"report SELECT {names} FROM {name} GROUP BY {names}", f"edition {edition}\n{heading}\n{gives}"),
            (f"delete {key}", None),
        ]
    return lines(title, script)


FOUR_FIELDS = [
    ("1,north,pen,10", "1 | 'north' | 'pen' | 10"),
    ("2,north,ink,", "2 | 'north' | 'ink' | NULL"),
    ("3,,pen,5", "3 | NULL | 'pen' | 5"),
    ("4,south,pen,-2", "4 | 'south' | 'pen' | -2"),
    ("007, ,',-0", "7 | ' ' | '''' | 0"),
    (
        "-9223372036854775808,é€𝄞,NULL,9223372036854775807",
        "-9223372036854775808 | 'é€𝄞' | 'NULL' | 9223372036854775807",
    ),
    (",north,pen,10", 7),
    (b"1,\xff,pen,10", 3),
]

TWO_FIELDS = [
    ("1,a", "1 | 'a'"),
    ("1,", "1 | NULL"),
    ('1,""', "1 | NULL"),
    ("1, a ", "1 | ' a '"),
    ("1,#a", "1 | '#a'"),
    ('1,"a,b"', "1 | 'a,b'"),
    ('1,"a""b"', "1 | 'a\"b'"),
    ('1,"a"b', "1 | 'ab'"),
    ('1,a"b"', "1 | 'a\"b\"'"),
    ('"1","a b"', "1 | 'a b'"),
    ('1,"a\rb"', "1 | 'a\rb'"),
    ("\ufeff1,a", "1 | 'a'"),
    ("1,\ufeffa", "1 | '\ufeffa'"),
    ("1,a\r\r\r", "1 | 'a'"),
    ("\ufeff\ufeff1,a", 7),
    ("", 7),
    ("1", 7),
    ("1,a,", 7),
    (",a", 7),
    ("1,a\r2,b", 7),
    ("1\r2,b", 7),
    (b"1,\xff", 3),
    ("1," + "x" * 1024, "1 | '" + "x" * 1024 + "'"),
    ("1," + "x" * 1025, 7),
    ("1," + "é" * 512, "1 | '" + "é" * 512 + "'"),
    ("1," + "é" * 512 + "x", 7),
]

ONE_FIELD = [
    ("1", "1"),
    ('"1', "1"),
    ('"1"', "1"),
    ("\r1", "1"),
    ("9223372036854775807", "9223372036854775807"),
    ("-9223372036854775808", "-9223372036854775808"),
    ("0" * 30 + "7", "7"),
    ("", 7),
    ("\r\r", 7),
    ("\ufeff", 7),
    ('""', 7),
    ("+1", 7),
    ("-", 7),
    ("--1", 7),
    ("1.0", 7),
    ("1e3", 7),
    (" 1", 7),
    ("1 ", 7),
    ("x", 7),
    ("#1", 7),
    ("9223372036854775808", 7),
    ("-9223372036854775809", 7),
    (b"\xff", 3),
    (b"\xc3", 3),
    ("1\0", 7),
    ("1\r2", 7),
    ("1,2", 7),
]

# the key is the second column
SECOND = [
    ("table T (V INT, K TEXT KEY)", None),
    ("put 1,", 7),
    ("put 1,0", None),
    ("put ,1", None),
    ("put 2,0", None),
    ("publish", None),
    ("report SELECT K, SUM(V) FROM T GROUP BY K", "edition 1\nK | SUM(V)\n'0' | 2\n'1' | NULL"),
]

FEW = [("table T (K INT KEY, V INT)", None), ("put", 7), ("put 1", 7), ("put 1,2,3", 7), ("put 1,2", None)]

KEYS = [
    ("table T (K TEXT KEY)", None),
    ("put " + "x" * 1024, None),
    ("put " + "x" * 1025, 7),
    ("publish", None),
    ("report SELECT K FROM T GROUP BY K", "edition 1\nK\n'" + "x" * 1024 + "'"),
]

# what a keeper of three rows holds: the draft is seen from the next publish on
COUNT = "report SELECT K, SUM(V) FROM T GROUP BY K"
HEADING = "K | SUM(V)"

UPDATES = [
    ("table T (K INT KEY, V INT)", None),
    ("put 1,10", None),
    ("put 2,20", None),
    (COUNT, f"edition 0\n{HEADING}"),
    ("publish", None),
    (COUNT, f"edition 1\n{HEADING}\n1 | 10\n2 | 20"),
    ("put 1,11", None),
    ("put 3,30", None),
    ("put 4,40", 9),
    ("put 3,33", None),
    (COUNT, f"edition 1\n{HEADING}\n1 | 10\n2 | 20"),
    ("delete 4", None),
    ("delete 2", None),
    ("put 4,40", None),
    ("put 5,50", 9),
    ("publish", None),
    (COUNT, f"edition 2\n{HEADING}\n1 | 11\n3 | 33\n4 | 40"),
    ("publish", None),
    (COUNT, f"edition 3\n{HEADING}\n1 | 11\n3 | 33\n4 | 40"),
]

CASES = [
    records("records of four fields", SALES, "ID, REGION, ITEM, UNITS", FOUR_FIELDS),
    records("records of two fields", TWO, "K, V", TWO_FIELDS),
    records("records of one field", ONE, "K", ONE_FIELD),
    lines("a key behind another column", SECOND),
    lines("too few fields, and too many", FEW),
    lines("keys of 1,024 bytes", KEYS),
    lines("updates of at most three rows", UPDATES, options=("--rows", "3")),
]
