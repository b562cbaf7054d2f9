"""Parts, and the rows that a `load` puts."""

from cases.table import lines, scripts

TABLE = ("table T (K INT KEY, V TEXT)", None)
HEADER = "K,V\n"

# a part, and the text of its row of key 1
TEXTS = [
    ("K,V\n1,a", "'a'"),
    ("k,v\n1,a\n", "'a'"),
    ("K,V\r\n1,a\r\n", "'a'"),
    (b"\xef\xbb\xbfK,V\n1,a", "'a'"),
    ('"K","v"\n1,"a,b"', "'a,b'"),
    ('K,V\n1,"a""b"\n', "'a\"b'"),
    ('K,V\n1,"a\nb"\n2,c\n', "'a\nb'"),
    ('K,V\n1,"a\r\nb"\r\n2,c', "'a\r\nb'"),
    ('K,V\n2,b\n1,"a', "'a'"),
    ('K,V\n1,"a\n2,b\n', "'a\n2,b\n'"),
    ('K,V\n2,b\n1,"', "NULL"),
    ('K,V\n2,b\n1,"a,', "'a,'"),
    ('K,V\n2,b\n1,"a""', "'a\"'"),
    ("\n\nK,V\n\n1,a\n\n", "'a'"),
    ("K,V\n1,a\n2,b\n1,c\n2,d\n", "'c'"),
    ("K,V\n1,\n", "NULL"),
    ('K,V\n1,"\n"', "'\n'"),
    (HEADER + "1," + "a" * 1024, "'" + "a" * 1024 + "'"),
]

# a part, and the number of its faulty record
FAULTS = [
    ("", 0),
    ("\n\r\n", 0),
    (b"\xef\xbb\xbf", 0),
    ("V,K\n1,a", 0),
    ("K\n1,a", 0),
    ("K,V,\n1,a", 0),
    ("K ,V\n1,a", 0),
    ("1,a\n2,b", 0),
    ("K,V\nK,V\n", 1),
    ("K,V\n1,a\n2", 2),
    ("K,V\n1,a\n2,b,\n3", 2),
    ("K,V\n1,a\n\n,b\n", 2),
    (b"K,V\n1,a\n2,\xff", 2),
    (b"K,V\n1,a\n2,\xc3", 2),
    ("K,V\n1,a\n9223372036854775808,b\n", 2),
    ("K,V\n-9223372036854775809,a\n", 1),
    (HEADER + "1," + "a" * 1025, 1),
]

HEADERS = ["K,V", "k,V\n", b"\xef\xbb\xbfK,v\r\n"]

ENDS = "K,V\n9223372036854775807,a\n-9223372036854775808,b\n"


def texts():
    yield TABLE
    for number, (_, text) in enumerate(TEXTS, 1):
        yield f"load {number}", None
        yield "publish", None
        yield "report SELECT V FROM T WHERE K = 1 GROUP BY V", f"edition {number}\nV\n{text}"


def faults():
    yield TABLE
    yield "put 0,a", None
    for number, (_, record) in enumerate(FAULTS, 1):
        yield f"load {number}", f"refused 6 part {number} record {record}"
    yield "publish", None
    yield "report SELECT K FROM T GROUP BY K", "edition 1\nK\n0"


NOTHING = [
    TABLE,
    *[(f"load {number}", None) for number in range(1, 4)],
    ("load 1 2 3", None),
    ("publish", None),
    ("report SELECT COUNT(*) FROM T", "edition 1\nCOUNT(*)\n0"),
    ("load", 3),
    ("load 4", 5),
]

BITS = [
    TABLE,
    ("load 1", None),
    ("publish", None),
    ("report SELECT MIN(K), MAX(K) FROM T", "edition 1\nMIN(K) | MAX(K)\n-9223372036854775808 | 9223372036854775807"),
]

LOW = "K,V\n1,10\n2,20\n1,11\n"
MIDDLE = "k,v\r\n2,21\r\n3,30\r\n"
HIGH = "K,v\n3,31\n4,40\n3,32\n"
FAULTY = "K,V\n1,12\nx,1\ny,1\n"
EMPTY = ""
ALONE = "K,V"
SIX = [LOW, MIDDLE, HIGH, FAULTY, EMPTY, ALONE]

LISTS = """table T (K INT KEY, V INT)
load 1 2 3 6
publish
report SELECT K, SUM(V) FROM T GROUP BY K
load 3 2 1 6
publish
report SELECT K, SUM(V) FROM T GROUP BY K
load 1 2 3 1
publish
report SELECT K, SUM(V) FROM T GROUP BY K
load 1 2 4 5
load 5 4 1 4
load 4 5
"""

LISTS_WRITE = """line 4 edition 1
K | SUM(V)
1 | 11
2 | 21
3 | 32
4 | 40
line 7 edition 2
K | SUM(V)
1 | 11
2 | 20
3 | 30
4 | 40
line 10 edition 3
K | SUM(V)
1 | 11
2 | 20
3 | 32
4 | 40
line 11 refused 6 part 4 record 2
line 12 refused 6 part 5 record 0
line 13 refused 6 part 4 record 2
"""

WAYS = [("--workers", workers, "--hash", key_hash) for workers in ("1", "2", "7", "64") for key_hash in ("fnv", "plain")]

CASES = [
    lines("texts of a part", list(texts()), [text for text, _ in TEXTS]),
    lines("faults of a part", list(faults()), [text for text, _ in FAULTS]),
    lines("headers alone", NOTHING, HEADERS),
    lines("integers have 64 bits", BITS, [ENDS]),
    *scripts("lists of parts", LISTS, LISTS_WRITE, SIX, WAYS),
]
