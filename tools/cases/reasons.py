"""Reasons (`--explain`): mistakes that people bring along from other engines, each with the place and the reason that standard
error has, and nothing there without the option. The output is the same with it and without it."""

from cases.manual import NAMES
from cases.table import Case, SCRIPT, as_bytes, of_lines

TABLE = "table SALES (ID INT KEY, REGION TEXT, UNITS INT)"
STOPPED = "olap: stopped after a refused line\n"
COMMANDS = "the commands are table, load, put, delete, publish, report and shape, in small letters"
FUNCTIONS = "the functions are COUNT, SUM, MIN, MAX and GROUPING"
CALLS = "aggregates and GROUPING stand in the select list and in HAVING"
LONG = "'" + "a" * 1025 + "'"
PART = "(6 BadPart, 7 BadRecord)"


def told(number, line, fault, at, why):
    """The line that is told of a line of the script: `at` is what stands where the fault begins, if it is a place of it."""
    place = f":{len(as_bytes(line[: line.index(at)])) + 1}" if at is not None else ""
    return f"{SCRIPT}:{number}{place}: {why} ({fault} {NAMES[fault]})\n"


def both(title, rows, errors, parts=(), options=(), status=0):
    """A script of these lines, as `of_lines` takes them, with --explain and without it."""
    text, output = of_lines(rows)
    names = [f"part{number}.csv" for number in range(1, len(parts) + 1)]
    files = {SCRIPT: text, **dict(zip(names, parts))}
    end = STOPPED if status == 1 else ""
    words = ["run", *options, SCRIPT, *names]
    return [
        Case(f"{title}, not explained", words, files, output=output, errors=end, status=status),
        Case(title, [*words, "--explain"], files, output=output, errors=errors + end, status=status),
    ]


def query(fault, text, at, why):
    """A query that is refused for this fault, at the place where this stands."""
    line = f"report SELECT {text}"
    return both(f"query: {text[:60]}", [TABLE, (line, fault)], told(2, line, fault, at, f"{at}: {why}"))


def line(fault, text, at, why, before=(TABLE,), parts=(), options=()):
    """A line that is refused for this fault."""
    number = len(before) + 1
    return both(f"line: {text[:60]}", [*before, (text, fault)], told(number, text, fault, at, why), parts, options)


def table(text, at, why):
    """The text of a table that is refused."""
    return line(4, f"table {text}", at, why, before=())


QUERIES = [
    *query(10, "COUNT(*) FROM SALES;", ";", "no semicolon stands at the end"),
    *query(10, "REGION FROM SALES GROUP BY REGION ORDER BY REGION", "ORDER", "the query should end here"),
    *query(10, "COUNT(*) FROM SALES LIMIT 5", "LIMIT", "the query should end here"),
    *query(10, 'COUNT(*) FROM SALES WHERE REGION = "north"', '"', "names stand without quotes, and texts in single quotes"),
    *query(10, "COUNT(*) FROM SALES WHERE UNITS != 5", "!=", "not equal is written <>"),
    *query(10, "COUNT(*) FROM SALES WHERE UNITS > 10.0", ".", "numbers are whole"),
    *query(10, "AVG(UNITS) FROM SALES", "(", FUNCTIONS),
    *query(10, "* FROM SALES", "*", "columns are named one by one, and rows are counted by COUNT(*)"),
    *query(10, "COUNT(*) AS N FROM SALES", "AS", "items and tables have no other names"),
    *query(10, "REGION AREA, COUNT(*) FROM SALES", "AREA", "a comma or FROM should stand here"),
    *query(10, "REGION COUNT(*) FROM SALES", "COUNT", "a comma or FROM should stand here"),
    *query(10, "COUNT(*) FROM SALES JOIN T", "JOIN", "a query reads one table, and there are no joins"),
    *query(10, "COUNT(*) FROM SALES, T", ",", "WHERE, GROUP BY, HAVING or the end should stand here"),
    *query(10, "COUNT(*) FROM SALES WHERE REGION = NULL", "NULL", "NULL is tested by IS NULL"),
    *query(10, "DISTINCT REGION FROM SALES", "DISTINCT", "each group has one row, and SELECT has no DISTINCT"),
    *query(10, "COUNT(*) FROM SALES WHERE SUM(UNITS) > 5", "SUM", CALLS),
    *query(10, "COUNT(*) FROM SALES WHERE REGION LIKE 'n%'", "LIKE", "texts are compared whole, and there is no LIKE"),
    *query(10, "COUNT(*) FROM SALES WHERE UNITS = +5", "+", "a number has no plus, and there is no arithmetic"),
    *query(10, "SUM(UNITS * 2) FROM SALES", "*", ") should stand here"),
    *query(10, "SUM(UNITS) / 2 FROM SALES", "/", "there is no arithmetic"),
    *query(10, "COUNT(* FROM SALES", "FROM", ") should stand here"),
    *query(10, "COUNT(*) FROM SALES WHERE REGION = 'north", "'north", "the text is not closed"),
    *query(10, "SALES.REGION FROM SALES", ".", "a column is named without its table"),
    *query(10, "COUNT(*) FROM SALES GROUP REGION", "REGION", "BY should stand here"),
    *query(10, "COUNT(*) FROM SALES WHERE UNITS > 12a", "12a", "a letter, a digit or _ may not touch a number"),
    *query(11, "COUNT(*) FROM SALE", "SALE", "the table is SALES"),
    *query(11, "SUM(UNIT) FROM SALES", "UNIT", "no column of the table, in the select list"),
    *query(12, "REGION, COUNT(*) FROM SALES", "REGION", "in no grouping set, though it stands in the select list"),
    *query(12, "COUNT(*) FROM SALES GROUP BY REGION HAVING UNITS > 5", "UNITS", "in no grouping set, though it stands in HAVING"),
    *query(13, "SUM(REGION) FROM SALES", "REGION", "a column of texts has no sum"),
    *query(13, "COUNT(*) FROM SALES WHERE UNITS = '5'", "'5'", "a text is compared with an integer"),
]

LINES = [
    *both("a report alone", [TABLE, ("report", 10)], f"{SCRIPT}:2:7: the end of the line: SELECT should stand here (10 QuerySyntax)\n"),
    *line(10, f"report SELECT COUNT(*) FROM SALES WHERE REGION = {LONG}", LONG, f"{LONG[:40]}..: a text has 1024 bytes at most"),
    *line(10, f"report SELECT COUNT(*) FROM SALES WHERE REGION = {LONG[:-2]}' GROUP TO", "TO", "TO: BY should stand here"),
    *line(3, "Report SELECT COUNT(*) FROM SALES", "Report", f"Report: {COMMANDS}"),
    *line(3, "SELECT COUNT(*) FROM SALES", "SELECT", f"SELECT: {COMMANDS}"),
    *line(3, "publish now", "now", "now: the line should end before this"),
    *line(3, "load 1, 2", "1,", "1,: no part number"),
    *line(3, "load sales.csv", "sales.csv", "sales.csv: no part number"),
    *line(5, "load 1", "1", "1: no part of this number, of those handed in: 0"),
    *line(7, "put 1,north,10.0", None, "column UNITS: 10.0: numbers are whole"),
    *line(7, "put 1,north,+5", None, "column UNITS: +5: a number has no plus"),
    *line(7, "put 1,north", None, "fields found: 2, wanted: 3"),
    *line(7, "put ,north,5", None, "column ID: empty, and the key may not be NULL"),
    *line(7, "put 1,north, 5", None, "column UNITS:  5: no whole number"),
    *line(8, "delete north", "north", "north: the key, a number, should stand here"),
    *line(1, "publish", None, "no table is declared before this line", before=()),
    *line(2, TABLE, None, "a table is declared already, on line 1"),
    *line(9, "put 2,b,2", None, "the draft would have more rows than --rows allows", (TABLE, "put 1,a,1"), (), ("--rows", "1")),
]

TABLES = [
    *table("SALES (ID INTEGER KEY)", "INTEGER", "INTEGER: the type of the column, INT or TEXT, should stand here"),
    *table("SALES (ID INT PRIMARY KEY)", "PRIMARY", "PRIMARY: KEY, a comma or ) should stand here"),
    *table("SALES (ID INT)", None, "no column is the KEY"),
    *line(3, "create table SALES (ID INT KEY)", "create", f"create: {COMMANDS}", before=()),
]


def part(title, text, record, at_line, why):
    """A load of a part that is refused for this record, which begins on this line of the part."""
    rows = [TABLE, ("load 1", f"refused 6 part 1 record {record}")]
    return both(f"part: {title}", rows, f"part1.csv:{at_line}: record {record}{why} {PART}\n", [text], ("--workers", "2"))


HEADER = "ID,REGION,UNITS\n"
PARTS = [
    *part("a record over two lines", HEADER + '1,a,1\n2,"b\nc",2\n3,"x\ny",+3\n4,d,4\n', 3, 5, ", column UNITS: +3: a number has no plus"),
    *part("a field too many", HEADER + "1,a,1\n2,b,2,2\n", 2, 3, ", fields found: 4, wanted: 3"),
    *part("a text of 1,025 bytes", HEADER + f"1,{'a' * 1025},1\n", 1, 2, ", column REGION: a text of 1025 bytes, 1024 at most"),
    *part("semicolons for commas", "ID;REGION;UNITS\n1;a;1\n", 0, 1, ": the header is ID;REGION;UNITS where ID,REGION,UNITS is wanted"),
    *part("no record at all", "", 0, 1, ": the part has no record, and so no header"),
]

SEVERAL = [
    # Each refused line is told once, in order, and a strict run tells of one alone.
    *both(
        "several refused lines",
        [("publish", 1), TABLE, ("put x", 7), "put 1,a,1", ("delete a", 8)],
        told(1, "publish", 1, None, "no table is declared before this line")
        + told(3, "put x", 7, None, "fields found: 1, wanted: 3")
        + told(5, "delete a", 8, "a", "a: the key, a number, should stand here"),
    ),
    *both(
        "a strict run",
        [TABLE, ("put x", 7)],
        told(2, "put x", 7, None, "fields found: 1, wanted: 3"),
        options=("--strict",),
        status=1,
    ),
    *both("no refused line", [TABLE, "put 1,a,1", "publish"], ""),
    # No line is refused for it: what its records are is fixed.
    *both(
        "a quote that is opened and never closed",
        ["table T (ID INT KEY, REGION TEXT)", "load 1", "publish", ("report SELECT COUNT(*) FROM T", "edition 1\nCOUNT(*)\n2")],
        "part1.csv:3: a quote is opened and never closed\n",
        ['ID,REGION\n1,a\n2,"b\n3,c\n'],
        ("--strict",),
    ),
    Case(
        "viewers whose query is refused",
        ["live", "--query", "SELECT COUNT(*) FROM U", "--explain", SCRIPT],
        {SCRIPT: f"{TABLE}\n"},
        output="viewers refused 11\n",
        errors="--query: the query is refused (11 Unknown)\n",
    ),
    Case(
        "viewers of no table",
        ["live", "--query", "Q", "--explain", SCRIPT],
        {SCRIPT: "\n"},
        output="viewers refused 1\n",
        errors="--query: no table is declared, so nobody looks at it (1 NoTable)\n",
    ),
    Case(
        "a script of one byte too many",
        ["run", "--explain", SCRIPT],
        {SCRIPT: b"#" * 1_048_577},
        output="line 0 refused 15\n",
        errors=f"{SCRIPT}: 1048577 bytes of a script, 1048576 at most (15 Limit)\n",
    ),
    Case(
        "65 parts",
        ["run", "--explain", SCRIPT, *["part.csv"] * 65],
        {SCRIPT: TABLE, "part.csv": HEADER},
        output="line 0 refused 15\n",
        errors=f"{SCRIPT}: 65 parts, 64 at most (15 Limit)\n",
    ),
]

CASES = QUERIES + LINES + TABLES + PARTS + SEVERAL
