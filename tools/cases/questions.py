"""`olap query` and `olap schema`: one question of CSV files as other tools write them, the table that is proposed for them, and
what is said where a file, a query or a word is refused."""

import re

from cases.manual import NAMES
from cases.table import Case, Like, Text

MORE = "\n\nFor more information, try 'olap {} --help'.\n"
STOPPED = "olap: stopped after a refused line\n"
PART = "(6 BadPart, 7 BadRecord)"
TWO = "; rename one, or write its name exactly where they differ in case\n"
SALES = "ID,REGION,UNITS\n1,north,10\n2,north,\n3,,5\n4,south,-2\n"
BY_REGION = "SELECT REGION, COUNT(*), SUM(UNITS) FROM SALES GROUP BY REGION"
TABLE = "table SALES (ID INT KEY, REGION TEXT, UNITS INT)\n"


def in_csv(cell):
    """The field of a value that is spelt as in the classic form."""
    if cell == "NULL":
        return ""
    if not cell.startswith("'"):
        return cell
    text = cell[1:-1].replace("''", "'")
    return '"' + text.replace('"', '""') + '"' if re.search('[",\r\n]', text) else text


def answer(heading, *rows):
    """What a query writes that is answered: CSV, of the heading and the rows as the classic form spells them."""
    lines = [",".join(f'"{name}"' for name in heading.split(" | "))]
    lines += [",".join(map(in_csv, row.split(" | "))) or '""' for row in rows]
    return "\n".join([*lines, ""])


def query(title, files, text, rows, options=()):
    """A query of files that is answered by these rows."""
    return Case(f"query: {title}", ["query", *options, text, *files], dict(files), output=answer(*rows))


def schema(title, text, line, options=(), name="sales.csv"):
    """The table that is proposed for a file of this text."""
    return Case(f"schema: {title}", ["schema", *options, name], {name: text}, output=line + "\n")


def both(title, name, text, line, query_text, rows, options=()):
    """The table of a file, and a query of it that is answered by these rows."""
    return [schema(title, text, line, options, name), query(title, {name: text}, query_text, rows, options)]


def fault(title, files, errors, options=(), text="SELECT COUNT(*) FROM SALES", output="", status=1):
    """A query of files that is not answered."""
    return Case(f"query: {title}", ["query", *options, text, *files], dict(files), output=output, errors=errors, status=status)


def text_at(field):
    """What is told of the first field of the regions, which makes them texts."""
    return f"sales.csv:2: REGION is text here: '{field}'\n"


def refused(number, text, place, why, more=""):
    """A query that is refused by the run for this reason; `place` is where the fault is, as a query's text before it, or None."""
    at = "" if place is None else f":{text.rindex(place) + 1}"
    errors = f"query{at}: {why} ({number} {NAMES[number]})\n{more}{STOPPED}"
    return fault(text, {"sales.csv": SALES}, errors, text=text, output=f"line,4,refused,{number},{NAMES[number]}\n")


def words(title, command, given, why):
    """Words that are refused."""
    return Case(f"{command}: {title}", [command, *given], {"sales.csv": SALES}, errors=f"error: {why}{MORE.format(command)}", status=2)


def typed(title, text, line, field, more=None):
    """A sum of a column that a field makes one of texts, in the last of the files; None: the field is not shown."""
    files = {"sales.csv": text, **(more or {})}
    shown = "" if field is None else f": '{field}'"
    where = f"{list(files)[-1]}:{line}: AMOUNT is text here{shown}\n"
    why = f"query:12: AMOUNT: a column of texts has no sum (13 WrongType)\n{where}{STOPPED}"
    return fault(title, files, why, text="SELECT SUM(AMOUNT) FROM SALES", output="line,4,refused,13,WrongType\n")


FORTY = ",".join(f"c{number}" for number in range(1, 41)) + "\n" + "".join(
    ",".join(str(row * number % 7) for number in range(1, 41)) + "\n" for row in range(1, 6)
)

def form(word, *lines):
    """The answer of a query by regions, in a form."""
    return Case(f"query: the form {word}", ["query", "--format", word, BY_REGION, "sales.csv"], {"sales.csv": SALES}, output="\n".join([*lines, ""]))


FORMS = [
    form("classic", "REGION | COUNT(*) | SUM(UNITS)", "NULL | 1 | 5", "'north' | 2 | 10", "'south' | 1 | -2"),
    form("csv", '"REGION","COUNT(*)","SUM(UNITS)"', ",1,5", "north,2,10", "south,1,-2"),
    form("json", '{"columns":["REGION","COUNT(*)","SUM(UNITS)"],"rows":[[null,1,5],["north",2,10],["south",1,-2]]}'),
    form(
        "table",
        "REGION  COUNT(*)  SUM(UNITS)",
        "------  --------  ----------",
        "NULL           1           5",
        "north          2          10",
        "south          1          -2",
    ),
]

FILES = [
    *both("a plain file", "sales.csv", SALES, TABLE[:-1], BY_REGION, ["REGION | COUNT(*) | SUM(UNITS)", "NULL | 1 | 5", "'north' | 2 | 10", "'south' | 1 | -2"]),
    *both(
        "a spreadsheet's export, with a byte order mark and CRLF",
        "Orders 2024.csv",
        b'\xef\xbb\xbfOrder Id,Customer,Amount\r\n17,"Smith, Jane",100\r\n18,"O""Neil",250\r\n19,"Smith, Jane",50\r\n',
        "table T (ORDER_ID INT KEY, CUSTOMER TEXT, AMOUNT INT)",
        "SELECT CUSTOMER, SUM(AMOUNT) FROM T GROUP BY CUSTOMER",
        ["CUSTOMER | SUM(AMOUNT)", "'O\"Neil' | 250", "'Smith, Jane' | 150"],
    ),
    *both(
        "semicolons and quotes",
        "umsatz.csv",
        'Nr;Stadt;Menge\n1;"Köln; West";3\n2;Bonn;4\n3;"Köln; West";5\n',
        "table UMSATZ (NR INT KEY, STADT TEXT, MENGE INT)",
        "SELECT STADT, SUM(MENGE) FROM UMSATZ GROUP BY STADT",
        ["STADT | SUM(MENGE)", "'Bonn' | 4", "'Köln; West' | 8"],
        ["--delimiter", ";"],
    ),
    *both(
        "tabs",
        "visits.tsv",
        "day\tpage\thits\n1\t/a\t5\n1\t/b\t6\n2\t/a\t7\n",
        "table VISITS (DAY INT, PAGE TEXT, HITS INT KEY)",
        "SELECT PAGE, SUM(HITS) FROM VISITS GROUP BY PAGE",
        ["PAGE | SUM(HITS)", "'/a' | 12", "'/b' | 6"],
        ["--delimiter=tab"],
    ),
    *both(
        "blanks after commas",
        "blanks.csv",
        "id, city, units\n1, Oslo, 3\n2, Rome, 4\n3, Oslo, 5\n",
        "table BLANKS (ID INT KEY, CITY TEXT, UNITS INT)",
        "SELECT CITY, SUM(UNITS) FROM BLANKS GROUP BY CITY",
        ["CITY | SUM(UNITS)", "'Oslo' | 8", "'Rome' | 4"],
        ["--trim"],
    ),
    schema("blanks that are not left out", "id, city, units\n1, Oslo, 3\n", "table SALES (ID INT KEY, _CITY TEXT, _UNITS TEXT)"),
    *both(
        "a dump with \\N",
        "dump.csv",
        "id\tname\tscore\n1\tann\t\\N\n2\t\\N\t7\n3\tbob\t9\n",
        "table DUMP (ID INT KEY, NAME TEXT, SCORE INT)",
        "SELECT COUNT(*), COUNT(NAME), SUM(SCORE) FROM DUMP",
        ["COUNT(*) | COUNT(NAME) | SUM(SCORE)", "3 | 2 | 16"],
        ["--null", "\\N", "--delimiter", "tab"],
    ),
    *both(
        "a dump with NULL",
        "dump.csv",
        'id,name,score\n1,ann,NULL\n2,NULL,7\n3,"NULL",9\n',
        "table DUMP (ID INT KEY, NAME TEXT, SCORE INT)",
        "SELECT NAME, COUNT(*) FROM DUMP GROUP BY NAME",
        ["NAME | COUNT(*)", "NULL | 2", "'ann' | 1"],
        ["--null=NULL"],
    ),
    *both(
        "a dump with -h for NULL",
        "dump.csv",
        "id,name\n1,-h\n2,bob\n",
        "table DUMP (ID INT KEY, NAME TEXT)",
        "SELECT COUNT(NAME) FROM DUMP",
        ["COUNT(NAME)", "1"],
        ["--null", "-h"],
    ),
    query(
        "40 columns, of which the query names two",
        {"wide.csv": FORTY},
        "SELECT C2, SUM(C40) FROM WIDE GROUP BY C2",
        # (a row has at c2 twice its number, and at c40 five times, both modulo 7)
        ["C2 | SUM(C40)", "1 | 6", "2 | 5", "3 | 4", "4 | 3", "6 | 1"],
    ),
    query("40 columns, of which the query names none", {"wide.csv": FORTY}, "SELECT COUNT(*) FROM WIDE", ["COUNT(*)", "5"]),
    *both(
        "40 columns, of which some are listed",
        "wide.csv",
        FORTY,
        "table WIDE (C1 INT KEY, LAST INT)",
        "SELECT MAX(C1), SUM(LAST) FROM WIDE",
        ["MAX(C1) | SUM(LAST)", "5 | 19"],
        ["--columns", "c1,LAST=c40"],
    ),
    *both(
        "no key",
        "log.csv",
        "level,code\nwarn,1\nwarn,1\ninfo,\n",
        "table LOG (N INT KEY, LEVEL TEXT, CODE INT)",
        "SELECT LEVEL, COUNT(*), MAX(N) FROM LOG GROUP BY LEVEL",
        ["LEVEL | COUNT(*) | MAX(N)", "'info' | 1 | 3", "'warn' | 2 | 2"],
    ),
    schema("no key, where N is a column", "n,N_\n1,1\n1,1\n", "table SALES (N__ INT KEY, N INT, N_ INT)"),
    *both(
        "a counted column that is asked for",
        "log.csv",
        "level,code\nwarn,1\ninfo,2\n",
        "table LOG (LINE INT KEY, LEVEL TEXT, CODE INT)",
        "SELECT MAX(LINE) FROM LOG",
        ["MAX(LINE)", "2"],
        ["--number", "line"],
    ),
    schema(
        "names that are no words",
        "Order Date,2nd,sum,Größe,\n1,2,3,4,5\n",
        "table SALES (ORDER_DATE INT KEY, _2ND INT, SUM_ INT, GR____E INT, _ INT)",
    ),
    *both(
        "Order Date under another name",
        "sales.csv",
        "Order Date,Units\n2024-01-02,3\n2024-01-03,4\n",
        "table SALES (DAY TEXT KEY, UNITS INT)",
        "SELECT MIN(DAY), SUM(UNITS) FROM SALES",
        ["MIN(DAY) | SUM(UNITS)", "'2024-01-02' | 7"],
        ["--columns=Day=order date,units"],
    ),
    *both(
        "quoted line breaks",
        "notes.csv",
        'id,note\n1,"two\nlines"\n2,"one"\n',
        "table NOTES (ID INT KEY, NOTE TEXT)",
        "SELECT NOTE, COUNT(*) FROM NOTES GROUP BY NOTE",
        ["NOTE | COUNT(*)", "'one' | 1", "'two\nlines' | 1"],
    ),
    *both("one column", "one.csv", "k\n3\n1\n2\n", "table ONE (K INT KEY)", "SELECT COUNT(*), SUM(K) FROM ONE", ["COUNT(*) | SUM(K)", "3 | 6"]),
    *both("a header alone", "sales.csv", "id,units\n", "table SALES (ID INT KEY, UNITS INT)", "SELECT COUNT(*), SUM(UNITS) FROM SALES", ["COUNT(*) | SUM(UNITS)", "0 | NULL"]),
    schema("a key that has no value twice", "a,b,c\n1,,1\n1,2,2\n", "table SALES (A INT, B INT, C INT KEY)"),
    schema("integers that are one by their value, and texts by their bytes", "a,b\n7,x\n07,y\n", "table SALES (A TEXT KEY, B TEXT)"),
    *[schema(f"the field {field}, which is no integer as it is printed", f"a\n1\n{field}\n", "table SALES (A TEXT KEY)") for field in ("00501", "00", "-0", "-01", "+7", "-", "9223372036854775808")],
    *[schema(f"the field {field}, which is an integer as it is printed", f"a\n1\n{field}\n", "table SALES (A INT KEY)") for field in ("0", "10", "-10", "-9223372036854775808")],
    query("zeros in front, which are kept", {"z4.csv": "zip,n\n00501,1\n501,2\n"}, "SELECT ZIP, SUM(N) FROM Z4 GROUP BY ZIP", ["ZIP | SUM(N)", "'00501' | 1", "'501' | 2"]),
    query("a column of exactly the name, after one in another case", {"c1.csv": "id,V\n1,2\n", "c2.csv": "id,v,V\n2,100,3\n"}, "SELECT SUM(V) FROM C1", ["SUM(V)", "5"]),
    query("a column in another case, where it is the only one", {"c1.csv": "id,V\n1,2\n", "c2.csv": "v,id\n3,2\n"}, "SELECT SUM(V) FROM C1", ["SUM(V)", "5"]),
    query("three columns that differ in case alone, listed", {"ids.csv": "Id,id,ID\n1,2,3\n"}, "SELECT MIN(A), MIN(B), MIN(C) FROM IDS", ["MIN(A) | MIN(B) | MIN(C)", "1 | 2 | 3"], ["--columns", "A=Id,B=id,C=ID"]),
    query("two columns of one name, of which no name is asked for", {"x1.csv": "id,v\n1,2\n", "x2.csv": "id,w,v,w\n2,3,4,5\n"}, "SELECT SUM(V) FROM X1", ["SUM(V)", "6"]),
    query(
        "40 columns, of which two differ in case from the one that is named",
        {"wide.csv": FORTY, "more.csv": FORTY.replace("c1,", "C2,", 1)},
        "SELECT COUNT(C2), SUM(C40) FROM WIDE",
        # (the rows of each file have at c40 5, 3, 1, 6 and 4)
        ["COUNT(C2) | SUM(C40)", "10 | 38"],
    ),
    schema("texts that differ by their bytes", "a\n7\n07\nx\n", "table SALES (A TEXT KEY)"),
    schema("integers of 64 bits", "a,b\n9223372036854775807,9223372036854775808\n-9223372036854775808,1\n", "table SALES (A INT KEY, B TEXT)"),
    schema("a name of the language", "a\n1\n", "table T (A INT KEY)", name="select.csv"),
    schema("a folder and two endings", "a\n1\n", "table T (A INT KEY)", name="sales.2024.csv"),
    query(
        "several files, with columns in another order",
        {"a.csv": "id,city\n1,Oslo\n2,Rome\n", "b.csv": "city,more,id\nOslo,x,3\n"},
        "SELECT CITY, COUNT(*) FROM A GROUP BY CITY",
        ["CITY | COUNT(*)", "'Oslo' | 2", "'Rome' | 1"],
    ),
    query(
        "several files without a key, whose records are counted on",
        {"a.csv": "city\nOslo\nRome\n", "b.csv": "city\nOslo\n"},
        "SELECT COUNT(*), MAX(N) FROM A",
        ["COUNT(*) | MAX(N)", "3 | 3"],
    ),
    query(
        "a column that is a text in the second file alone",
        {"a.csv": "id,v\n1,1\n", "b.csv": "id,v\n2,x\n"},
        "SELECT V, COUNT(*) FROM A GROUP BY V",
        ["V | COUNT(*)", "'1' | 1", "'x' | 1"],
    ),
    query("a query on two lines, of one worker", {"sales.csv": SALES}, "SELECT COUNT(*)\r\nFROM\tSALES", ["COUNT(*)", "4"], ["--workers", "1"]),
    query("names behind --", {"-x.csv": "a\n1\n"}, "SELECT COUNT(*) FROM T", ["COUNT(*)", "1"], ["--workers=2", "--rows=1", "--"]),
]

MEND = "; mend it (a field with a quote in it stands in quotes, that quote twice), or read the file as it is with --lenient-quotes\n"
OPEN, FOLLOWED, STRAY = "a quote is opened and never closed", "a text stands after a closing quote", "a quote stands in a field that does not begin with one"
COUNT_Q = "SELECT COUNT(*) FROM Q"


def misquoted(title, text, line, why, options=(), more=None):
    """A file whose quotes are refused, for `query` and, alone, for `schema`."""
    files = {**(more or {}), "q.csv": text}
    errors = f"q.csv:{line}: {why}{MEND}"
    told = [fault(f"quotes: {title}", files, errors, options, text=COUNT_Q)]
    return told if more else [*told, Case(f"schema: quotes: {title}", ["schema", *options, "q.csv"], files, errors=errors, status=1)]


def lenient(title, text, rows, options=()):
    """The texts of a file whose quotes are read as they stand."""
    return query(f"quotes as they stand: {title}", {"q.csv": text}, "SELECT V, COUNT(*) FROM Q GROUP BY V", ["V | COUNT(*)", *rows], ["--lenient-quotes", *options])


QUOTES = [
    *misquoted("one that is never closed", 'id,v\n1,2\n2,6\n3,"oops\n4,5\n', 4, OPEN),
    *misquoted("one that is the last byte", 'id,v\n1,"', 2, OPEN),
    *misquoted("one that is never closed, with a doubled one after it", 'id,v\n1,"a""\n2,b\n', 2, OPEN),
    *misquoted("one that is never closed, in the header", 'id,"v\n1,2\n', 1, OPEN),
    *misquoted("two that take the records between them", 'id,v\n1,"oops\n2,7\n3,"oops\n4,8\n', 4, FOLLOWED),
    *misquoted("a text after a closing one", 'id,v\n1,2\n2,"a"b\n', 3, FOLLOWED),
    *misquoted("a blank after a closing one", 'id,v\n1,"a" \n', 2, FOLLOWED, ["--trim"]),
    *misquoted("a comma after a closing one, where fields stand apart by semicolons", 'id;v\n1;"a",b\n', 2, FOLLOWED, ["--delimiter", ";"]),
    *misquoted("one within a field", 'id,v\n1,a"b\n', 2, STRAY),
    *misquoted("a blank before a field in quotes", 'id,v\n1, "a"\n', 2, STRAY, ["--trim"]),
    *misquoted("one within a field, after a field on two lines", 'id,v\n1,"x\ny"\n2,a"\n', 4, STRAY),
    *misquoted("one within a field, after empty lines, by tabs", 'id\tv\n\n\n1\t5"\n', 4, STRAY, ["--delimiter", "tab"]),
    *misquoted("after a byte order mark and CRLF", b'\xef\xbb\xbfid;v\r\n1;"x;y"\r\n2;a"b\r\n', 3, STRAY, ["--delimiter", ";"]),
    *misquoted("the first of two faults", 'id,v\n1,a"b\n2,"c\n', 2, STRAY),
    *misquoted("a fault of quotes before one of the header", 'id,w\n1,a"b\n', 2, STRAY, ["--columns", "V"]),
    *misquoted("one in the second file", 'id,v\n2,a"b\n', 2, STRAY, more={"a.csv": "id,v\n1,2\n"}),
    query(
        "quotes that are right",
        {"q.csv": 'id,"v"\r\n1,"a ""b"""\r\n2,""\r\n3,"x,\r\ny"\r\n4,""""\r\n5,"c"'},
        "SELECT V, COUNT(*) FROM Q GROUP BY V",
        ["V | COUNT(*)", "NULL | 1", "'\"' | 1", "'a \"b\"' | 1", "'c' | 1", "'x,\r\ny' | 1"],
    ),
    query("a file of one field in quotes", {"q.csv": '"v"'}, COUNT_Q, ["COUNT(*)", "0"]),
    lenient("one that is never closed", 'id,v\n1,2\n2,6\n3,"oops\n4,5\n', ["'2' | 1", "'6' | 1", "'oops\n4,5\n' | 1"]),
    lenient("a text after a closing one, and one within a field", 'id,v\n1,"a"b\n2,c"d\n', ["'ab' | 1", "'c\"d' | 1"]),
    words("--lenient-quotes with a value", "query", ["--lenient-quotes=1", BY_REGION, "sales.csv"], "'--lenient-quotes=1' takes no value"),
]

LATIN = b"id,city\n1,K\xf6ln\n"
LONG = "x" * 1025

FAULTS = [
    fault("a bad number in line 5, which makes a column of texts", {"sales.csv": "id,units\n1,2\n2,3\n3,4\n4,5x\n"}, f"query:12: UNITS: a column of texts has no sum (13 WrongType)\nsales.csv:5: UNITS is text here: '5x'\n{STOPPED}", text="SELECT SUM(UNITS) FROM SALES", output="line,4,refused,13,WrongType\n"),
    fault("a record with a field less", {"sales.csv": 'id,note\n1,"a\nb"\n\n2\n'}, "sales.csv:5: record 2 has 1 fields, and the header 2\n"),
    fault("no header", {"sales.csv": ""}, "sales.csv:1: there is no header\n"),
    fault("no header in the second file", {"a.csv": "id\n1\n", "b.csv": "\n\n"}, "b.csv:1: there is no header\n"),
    fault("a column that is not there", {"sales.csv": SALES}, "sales.csv:1: the header has no column 'Pris'\n", ["--columns", "ID,Pris"]),
    fault("a column that is not there in the second file", {"a.csv": "id,v\n1,1\n", "b.csv": "id\n2\n"}, "b.csv:1: the header has no column 'v'\n"),
    fault("a name in another coding", {"sales.csv": b"id,Gr\xf6\xdfe\n1,2\n"}, "sales.csv:1: the name of column 2 is not UTF-8\n"),
    fault("two columns of one name", {"sales.csv": "a b,A_B\n1,2\n"}, "sales.csv:1: two columns make the name A_B; --columns chooses columns and names them, as in --columns 'A,B=Other Name'\n"),
    *[fault(f"two columns that fit a name equally, in {name}", {"x1.csv": "id,v\n1,2\n", name: text}, f"{name}:1: columns {places} both have the name 'v'{TWO}") for name, text, places in [("x2.csv", "id,v,v\n2,3,4\n", "2 and 3"), ("x3.csv", "V,id,x,V\n2,3,4,5\n", "1 and 4"), ("x4.csv", "V,id,v,v,v\n2,3,4,5,6\n", "3 and 4")]],
    fault("one name listed twice, of two columns", {"dup.csv": "id,a,a\n1,2,3\n"}, f"dup.csv:1: columns 2 and 3 both have the name 'a'{TWO}", ["--columns", "A=a,B=a"]),
    fault("a listed name that two columns have in another case", {"ids.csv": "Id,x,ID\n1,2,3\n"}, f"ids.csv:1: columns 1 and 3 both have the name 'iD'{TWO}", ["--columns", "A=iD"]),
    fault("17 columns that are listed", {"wide.csv": FORTY}, "wide.csv:1: 17 columns are wanted, and a table has 16 at most; --columns chooses some\n", ["--columns", ",".join(f"c{number}" for number in range(1, 18))]),
    fault("16 columns and one that counts", {"wide.csv": FORTY}, "wide.csv:1: 17 columns are wanted, and a table has 16 at most; --columns chooses some\n", ["--number", "N", "--columns", ",".join(f"c{number}" for number in range(1, 17))]),
    fault("16 columns without a key", {"wide.csv": ",".join("abcdefghijklmnop") + "\n" + ",".join("1" * 16) + "\n" + ",".join("1" * 16) + "\n"}, "wide.csv:1: no column is a key, and 16 columns leave no room for one that counts records; --columns chooses some\n"),
    fault("a counted column of the name of another", {"sales.csv": SALES}, "sales.csv:1: a column makes the name ID, and --number needs another one\n", ["--number", "id"]),
    fault("a text in another coding", {"sales.csv": LATIN}, Text(begins="sales.csv:2: record 1, column CITY: "), output="line,2,refused,6,BadPart,part,1,record,1\n"),
    fault("a text that is too long", {"sales.csv": f'\nid;"the\nname"\n1;{LONG}\n'}, Text(begins="sales.csv:4: record 1, column THE_NAME: "), ["--delimiter", ";"], output="line,2,refused,6,BadPart,part,1,record,1\n"),
    fault("more rows than are allowed", {"sales.csv": SALES}, f"olap: the draft would have more rows than --rows allows (9 TooManyRows)\n{STOPPED}", ["--rows", "3"], output="line,2,refused,9,TooManyRows\n"),
    Case("query: a file called --help", ["query", "--", "SELECT COUNT(*) FROM T", "--help"], errors="olap: cannot read --help: no such file\n", status=2),
    Case("query: a file that is not there", ["query", "SELECT COUNT(*) FROM T", "gone.csv"], errors="olap: cannot read gone.csv: no such file\n", status=2),
    Case("schema: a folder", ["schema", "room"], {"room": None}, errors="olap: cannot read room: it is a folder\n", status=2),
    refused(10, "SELECT COUNT(*) FROM SALES;", ";", ";: no semicolon stands at the end"),
    refused(10, "SELECT REGION FROM SALES ORDER BY REGION", "ORDER", "ORDER: the query should end here"),
    refused(11, "SELECT COUNT(*) FROM SALE", "SALE", "SALE: the table is SALES"),
    refused(11, "SELECT SUM(UNIT) FROM SALES", "UNIT", "UNIT: no column of the table, in the select list"),
    refused(12, "SELECT REGION FROM SALES", "REGION", "REGION: in no grouping set, though it stands in the select list"),
    refused(13, "SELECT SUM(REGION) FROM SALES", "REGION", "REGION: a column of texts has no sum", text_at("north")),
    refused(13, "SELECT COUNT(*) FROM SALES WHERE UNITS > 1 AND REGION < 7", "7", "7: an integer is compared with a text", text_at("north")),
    refused(13, "SELECT COUNT(*) FROM SALES WHERE 7 < REGION", "REGION", "REGION: a text is compared with an integer", text_at("north")),
    refused(13, "SELECT COUNT(*) FROM SALES WHERE UNITS = '7'", "'7'", "'7': a text is compared with an integer"),
    fault("a sum of numbers with zeros in front", {"z4.csv": "zip,n\n00501,1\n501,2\n"}, f"query:12: ZIP: a column of texts has no sum (13 WrongType)\nz4.csv:2: ZIP is text here: '00501'\n{STOPPED}", text="SELECT SUM(ZIP) FROM Z4", output="line,4,refused,13,WrongType\n"),
    typed("a number with a comma", "id,amount\n1,7\n2,\n3,\"12,50\"\n4,x\n", 4, "12,50"),
    typed("the first text in the second file", "id,amount\n1,7\n", 3, "+5", {"more.csv": "amount,id\n-3,2\n+5,3\n"}),
    typed("lines that end by both, and one of them empty", "id,amount\r\n1,7\r\n\r\n3,1.5\r\n", 4, "1.5"),
    typed("a text after records on several lines", 'note,amount\n"a\nb",1\n\n"c",1.5\n', 5, "1.5"),
    typed("a text with a line end", 'id,amount\n1,"a\nb"\n', 2, None),
    typed("a long text", f"id,amount\n1,{'x' * 61}\n", 2, None),
    typed("a text of 60 bytes", f"id,amount\n1,{'x' * 60}\n", 2, "x" * 60),
    Case("schema: 40 columns", ["schema", "wide.csv"], {"wide.csv": FORTY}, errors="wide.csv:1: the header has 40 columns, and a table 16 at most; --columns chooses some\n", status=1),
]

WORDS = [
    words("no words", "query", [], "no QUERY"),
    words("no file", "query", ["SELECT COUNT(*) FROM T"], "no FILE"),
    words("no file of a schema", "schema", [], "no FILE"),
    words("two files of a schema", "schema", ["sales.csv", "more.csv"], "one FILE is wanted, and more.csv comes after it"),
    words("an option that is not there", "query", ["--strict", "Q", "sales.csv"], "there is no option '--strict'"),
    words("an option of one letter", "query", ["-d", "Q", "sales.csv"], "there is no option '-d'"),
    words("a form of a schema", "schema", ["--format", "csv", "sales.csv"], "there is no option '--format'"),
    words("a form that there is not", "query", ["--format=xml", "Q", "sales.csv"], "'--format' takes classic, csv, json or table"),
    words("workers of a schema", "schema", ["--workers", "2", "sales.csv"], "there is no option '--workers'"),
    words("rows of a schema", "schema", ["--rows=2", "sales.csv"], "there is no option '--rows'"),
    words("an option without a value", "query", ["Q", "sales.csv", "--null"], "'--null' takes a value"),
    words("a flag with a value", "query", ["--trim=no", "Q", "sales.csv"], "'--trim=no' takes no value"),
    words("an option that comes twice", "query", ["--null", "a", "--null", "b", "Q", "sales.csv"], "'--null' is given twice"),
    *[
        words(f"the delimiter {text!r}", "query", ["--delimiter", text, "Q", "sales.csv"], f"'--delimiter' takes one character of ASCII, but no quote and no line end, or the word tab: {shown}")
        for text, shown in [*((it, it) for it in ("", ";;", "ö", '"', "TAB")), ("\n", "\\n"), ("\r", "\\r")]
    ],
    *[
        words(f"the counted column {text!r}", "query", ["--number", text, "Q", "sales.csv"], f"'--number' takes a name for the column that counts, a letter or _ and then letters, digits and _, but no word of the language: {text}")
        for text in ("", "a b", "1a", "key")
    ],
    *[words(f"{text} workers", "query", [f"--workers={text}", "Q", "sales.csv"], "'--workers' takes a number from 1 to 64") for text in ("0", "65", "-1", "x")],
    words("no rows", "query", ["--rows", "0", "Q", "sales.csv"], "'--rows' takes a number from 1 to 4294967296"),
    words("65 files", "query", ["Q", *["sales.csv"] * 65], "at most 64 files are read, and 65 were given"),
    *[
        words(f"{end!r} in a text", "query", [f"SELECT COUNT(*) FROM T WHERE A = 'x{end}y'", "sales.csv"], "a text of the query has a line break, which a script can't have")
        for end in ("\n", "\r", "\r\n")
    ],
    Case("query --help", ["query", "--help"], output=Text(has="\nUsage: olap query [OPTIONS] 'SELECT ..' FILE...\n")),
    Case("query -h, behind other words", ["query", "Q", "-h"], output=Text(has="\nUsage: olap query [OPTIONS] 'SELECT ..' FILE...\n")),
    Case("help query", ["help", "query"], output=Text(begins="Answers one query over CSV files\n\n")),
    Case("schema --help", ["schema", "--help"], output=Text(has="\nUsage: olap schema [OPTIONS] FILE\n")),
    Case("help schema", ["help", "schema"], output=Text(begins="Shows the table that `olap query` proposes ")),
    Case("help tells of query and schema", ["--help"], output=Text(has="\n  olap query 'SELECT ..' FILE...  answers ")),
]

HEADER = "REGION | COUNT(*) | SUM(UNITS)"
NONE, NORTH, SOUTH = "NULL | 1 | 5", "'north' | 2 | 10", "'south' | 1 | -2"
LACKS = "'--order' names what is no column of the answer: {}"
NO_ORDER = "'--order' takes columns of the answer, as its header names them, with commas between them, and asc or desc after each that wants it: {}"
PLACES = "K,A,B\n1,x,1\n2,x,\n3,y,1\n"
BY_BOTH = "SELECT GROUPING(A, B), COUNT(DISTINCT K) FROM PLACES GROUP BY CUBE(A, B)"


def ordered(options, rows):
    """The query by regions, whose rows come so."""
    return query(f"rows by {' '.join(options)}", {"sales.csv": SALES}, BY_REGION, [HEADER, *rows], options)


ORDERS = [
    ordered(["--order", "SUM(UNITS) desc"], [NORTH, NONE, SOUTH]),
    ordered(["--order=sum( units ) ASC"], [SOUTH, NONE, NORTH]),
    ordered(["--order", "REGION desc"], [SOUTH, NORTH, NONE]),
    ordered(["--order", "COUNT(*)"], [NONE, SOUTH, NORTH]),
    ordered(["--order", "COUNT(*),region desc"], [SOUTH, NONE, NORTH]),
    ordered(["--order", "COUNT(*) desc , SUM(UNITS)"], [NORTH, SOUTH, NONE]),
    ordered(["--order", "REGION,REGION desc"], [NONE, NORTH, SOUTH]),
    ordered(["--limit", "2"], [NONE, NORTH]),
    ordered(["--order", "SUM(UNITS)", "--limit", "1"], [SOUTH]),
    ordered(["--limit", "0"], []),
    ordered(["--limit", "007"], [NONE, NORTH, SOUTH]),
    query(
        "an order by GROUPING of two columns and different values",
        {"places.csv": PLACES},
        BY_BOTH,
        ["GROUPING(A, B) | COUNT(DISTINCT K)", "3 | 3", "2 | 2", "2 | 1", "1 | 2", "1 | 1", "0 | 1", "0 | 1", "0 | 1"],
        ["--order", "grouping(a,b) desc, count(distinct k) desc"],
    ),
    Case(
        "query: rows by a sum, in JSON",
        ["query", "--format", "json", "--order", "SUM(UNITS) desc", "--limit", "1", BY_REGION, "sales.csv"],
        {"sales.csv": SALES},
        output='{"columns":["REGION","COUNT(*)","SUM(UNITS)"],"rows":[["north",2,10]]}\n',
    ),
    *[words(f"an order by {text!r}", "query", ["--order", text, BY_REGION, "sales.csv"], LACKS.format(text)) for text in ("UNITS", "REGION, sum(id)", "COUNT(REGION)")],
    *[
        words(f"an order by {text!r}", "query", ["--order", text, BY_REGION, "sales.csv"], NO_ORDER.format(text))
        for text in ("", ",", "REGION,", "REGION up", "REGION desc asc", "'REGION'", "1", "REGION; COUNT(*)", "REGION = 1", "REGION desc (")
    ],
    *[words(f"a limit of {text!r}", "query", ["--limit", text, BY_REGION, "sales.csv"], f"'--limit' takes a number of rows: {text}") for text in ("", "-1", "x", "18446744073709551616")],
    words("an order of a schema", "schema", ["--order", "A", "sales.csv"], "there is no option '--order'"),
    words("a limit of a schema", "schema", ["--limit", "1", "sales.csv"], "there is no option '--limit'"),
]

MORE_SALES = "Units,Note,ID,,Region,id\n7,new,5,x,west,6\n"


def told_progress(title, files, text, heading, row, unread, records, options=()):
    """A question whose answer is one row, with --progress: which columns of the files are not read, the records of each part and
    those before it, and the report."""
    parts = [f"olap: part {at} of {len(records)}, records {count}" for at, count in enumerate(records, 1)]
    report = rf"olap: line 4 edition 1, rows {records[-1]}, groups 1, seconds \d+\.\d"
    lines = [f"olap: {name}: columns that are not read: {names}" for name, names in unread.items()]
    words = ["query", "--progress", "--workers", "1", *options, text, *files]
    return Case(f"query: {title}", words, files, output=answer(heading, row), errors=Like(*map(re.escape, lines), *parts, report))


UNITS = "SELECT SUM(UNITS) FROM SALES"
PROGRESS = [
    told_progress("columns that are not chosen", {"sales.csv": SALES}, UNITS, "SUM(UNITS)", "13", {"sales.csv": "REGION"}, [4], ["--columns", "id,units"]),
    told_progress("columns of the first file alone", {"sales.csv": SALES, "more.csv": MORE_SALES}, UNITS, "SUM(UNITS)", "20", {"more.csv": "Note, column 4, id"}, [4, 5]),
    told_progress("columns that differ in case from those that are read", {"c1.csv": "id,V\n1,2\n", "c2.csv": "id,v,V,x\n2,100,3,4\n"}, "SELECT SUM(V) FROM C1", "SUM(V)", "5", {"c2.csv": "v, x"}, [1, 2]),
    told_progress("columns of no file", {"sales.csv": SALES}, UNITS, "SUM(UNITS)", "13", {}, [4]),
    told_progress(
        "columns that a query of forty names",
        {"sales.csv": FORTY},
        "SELECT SUM(C2), MAX(C40) FROM SALES",
        # (2, 4, 6, 1 and 3; 5, 3, 1, 6 and 4)
        "SUM(C2) | MAX(C40)",
        "16 | 6",
        {"sales.csv": ", ".join(f"c{number}" for number in range(1, 40) if number != 2)},
        [5],
    ),
    told_progress(
        "names that are no line",
        {"sales.csv": '"a\nb",units, x ,' + 61 * "y" + "\n1,2,3,4\n"},
        UNITS,
        "SUM(UNITS)",
        "2",
        {"sales.csv": "column 1,  x , column 4"},
        [1],
        ["--columns", "UNITS"],
    ),
    fault(
        "columns that are not read, and one that is not there",
        {"sales.csv": SALES},
        "olap: sales.csv: columns that are not read: ID, REGION\nsales.csv:1: the header has no column 'X'\n",
        ["--progress", "--columns", "X,UNITS"],
    ),
    fault("a file without a header, with --progress", {"sales.csv": ""}, "sales.csv:1: there is no header\n", ["--progress"]),
    words("progress with a value", "query", ["--progress=1", BY_REGION, "sales.csv"], "'--progress=1' takes no value"),
    words("progress of a schema", "schema", ["--progress", "sales.csv"], "there is no option '--progress'"),
]

CASES = [*FILES, *FORMS, *QUOTES, *FAULTS, *WORDS, *ORDERS, *PROGRESS]

# Where standard output is a terminal, the answer is a table; what is looked at is what the terminal shows.
ON_SCREEN = [
    Case(
        "query: columns that are not read, and a line that is written anew",
        ["query", "--progress", "--format", "csv", "--columns", "id,units", UNITS, "sales.csv"],
        {"sales.csv": SALES},
        output='"SUM(UNITS)"\n13\n',
        errors=Text("\rolap: sales.csv: columns that are not read: REGION\x1b[K\r\n", "line 4 edition 1, rows 4, groups 1"),
    ),
    Case(
        "query: on a terminal",
        ["query", BY_REGION, "sales.csv"],
        {"sales.csv": SALES},
        errors="REGION  COUNT(*)  SUM(UNITS)\r\n------  --------  ----------\r\nNULL           1           5\r\nnorth          2          10\r\nsouth          1          -2\r\n",
    ),
]
