"""Both sides of each limit of a script, its lines, its parts and its queries."""

from cases.table import script

COUNTED = "table T (K INT KEY)\nreport SELECT COUNT(*) FROM T"
COUNTED_WRITES = "line 2 edition 0\nCOUNT(*)\n0\n"
ASKED = "table T (K INT KEY)\nreport "
LIMIT = "line 0 refused 15\n"
FIRST = "line 1 refused 1\n"

CASES = [
    script("1,048,576 bytes", "publish\n#" + 1_048_567 * "x", FIRST),
    script("a byte more", "publish\n#" + 1_048_568 * "x", LIMIT),
    script("64 empty parts", "publish\n#", FIRST, 64 * [""]),
    script("an empty part more", "publish\n#", LIMIT, 65 * [""]),
    # The query's tokens are its first 22 bytes.
    script("a query of 65,536 bytes", COUNTED + 65_514 * " ", COUNTED_WRITES),
    script("a query of a byte more", COUNTED + 65_515 * " ", "line 2 refused 15\n"),
    script("64 open parentheses", ASKED + 64 * "(", "line 2 refused 10\n"),
    script("65 open parentheses", ASKED + 65 * "(", "line 2 refused 15\n"),
    script("65 open parentheses before a character of no token", ASKED + 65 * "(" + "?", "line 2 refused 10\n"),
    script("65 open parentheses behind a closed one", ASKED + ")" + 65 * "(", "line 2 refused 10\n"),
    script("more lines than 16 bits count", 65_536 * "\n" + "publish", "line 65537 refused 1\n"),
]
