"""`olap query` of CSV files as other programs write them, one question of each. What they hold was counted by hand."""

from cases.questions import fault, query
from cases.table import Case

# A spreadsheet's `CSV UTF-8`: a mark at the front, CRLF, and quotes where a name has a comma.
SPREADSHEET = b'\xef\xbb\xbfInvoice,Client,"Net, EUR",Paid\r\n2024001,"M\xc3\xbcller, Sons",1200,yes\r\n2024002,Berg,300,no\r\n2024003,"M\xc3\xbcller, Sons",-50,yes\r\n'

# The same program where a comma is the sign of decimals: semicolons, and numbers that are no integers.
SEMICOLONS = "Datum;Filiale;Stück;Preis\n01.02.2024;Nord;4;12,50\n02.02.2024;Süd;1;9,99\n02.02.2024;Nord;6;12,50\n"

# Columns of a web server's log, with tabs.
TABS = "time\tstatus\tbytes\tpath\n1\t200\t512\t/\n2\t404\t\t/x,y\n3\t200\t2048\t/a b\n4\t\t7\t/\n"

# A form of a help desk, whose texts have line ends, quotes and delimiters.
TICKETS = 'id,state,text\r\n1,open,"It says:\r\n""no"", twice"\r\n2,closed,"a\nb"\r\n3,open,"It says:\r\n""no"", twice"\r\n'

# Written by hand.
BLANKS = "day, city , units\n1 , Oslo, 3\n2 ,Rome , 4\n3,Oslo,\t5\n4, , 6\n"

# What PostgreSQL's COPY writes with NULL 'NULL'.
DUMP = "id,owner,size\n10,ann,100\n11,NULL,200\n12,NULL,NULL\n13,\"NULL\",400\n14,bob,NULL\n"

# Forty columns of a survey. In the row R the column qC is R * C modulo 5, and no column has a key but the first.
SURVEY = "person," + ",".join(f"q{number}" for number in range(2, 41)) + "\n" + "".join(
    f"{row}," + ",".join(str(row * number % 5) for number in range(2, 41)) + "\n" for row in range(1, 11)
)

# Lines that are not told apart.
METER = "meter,state\nA,on\nA,on\nB,off\nA,on\nB,on\n"

# A join of two tables, both with a column `id`.
TWICE = "order,id,units,id\n1,7,5,70\n2,7,6,71\n3,8,7,72\n"

# Numbers as forms have them: leading zeros and a minus are read, a plus makes a text.
SIGNS = "account,change,shown\n0017,-0005,+5\n18,007,-7\n019,-3,+0\n"

# Empty lines at the end.
ENDS = "city,units\nOslo,3\nRome,4\n\n\r\n\n"

# Numbers at the ends of 64 bits, whose sum has more.
BIG = "id,credit,debit\n1,9223372036854775807,-9223372036854775808\n2,9223372036854775807,-9223372036854775808\n3,1,0\n"

# An instrument's file: single quotes are signs like others, and no line end is after the last record.
APOSTROPHES = "run,who,count\n1,O'Neil,2\n2,'ann',3\n3,O'Neil,4"

CASES = [
    query(
        "a spreadsheet's CSV UTF-8",
        {"invoices.csv": SPREADSHEET},
        "SELECT CLIENT, COUNT(*), SUM(NET__EUR) FROM INVOICES WHERE PAID = 'yes' GROUP BY CLIENT",
        ["CLIENT | COUNT(*) | SUM(NET__EUR)", "'Müller, Sons' | 2 | 1150"],
    ),
    query(
        "semicolons, and a comma for decimals",
        {"umsatz.csv": SEMICOLONS},
        "SELECT FILIALE, SUM(ST__CK), COUNT(DISTINCT PREIS) FROM UMSATZ GROUP BY FILIALE",
        ["FILIALE | SUM(ST__CK) | COUNT(DISTINCT PREIS)", "'Nord' | 10 | 1", "'Süd' | 1 | 1"],
        ["--delimiter", ";"],
    ),
    query(
        "tabs, and fields without a byte",
        {"log.tsv": TABS},
        "SELECT STATUS, COUNT(*), SUM(BYTES) FROM LOG GROUP BY STATUS",
        ["STATUS | COUNT(*) | SUM(BYTES)", "NULL | 1 | 7", "200 | 2 | 2560", "404 | 1 | NULL"],
        ["--delimiter", "tab"],
    ),
    query(
        "quotes round line ends",
        {"tickets.csv": TICKETS},
        "SELECT TEXT_, MAX(ID) FROM TICKETS GROUP BY TEXT_",
        ["TEXT_ | MAX(ID)", "'It says:\r\n\"no\", twice' | 3", "'a\nb' | 2"],
    ),
    query(
        "blanks round the commas",
        {"visits.csv": BLANKS},
        "SELECT CITY, SUM(UNITS) FROM VISITS GROUP BY CITY",
        ["CITY | SUM(UNITS)", "NULL | 6", "'Oslo' | 8", "'Rome' | 4"],
        ["--trim"],
    ),
    query(
        "a database's word for NULL",
        {"files.csv": DUMP},
        "SELECT OWNER, COUNT(*), COUNT(SIZE), SUM(SIZE) FROM FILES GROUP BY OWNER",
        ["OWNER | COUNT(*) | COUNT(SIZE) | SUM(SIZE)", "NULL | 3 | 2 | 600", "'ann' | 1 | 1 | 100", "'bob' | 1 | 0 | NULL"],
        ["--null", "NULL"],
    ),
    query(
        "forty columns",
        {"survey.csv": SURVEY},
        "SELECT Q3, COUNT(*), SUM(Q40), SUM(Q2) FROM SURVEY GROUP BY Q3",
        # (rows 5 and 10 have 0 at q3, 2 and 7 have 1, 4 and 9 have 2, 1 and 6 have 3, 3 and 8 have 4)
        ["Q3 | COUNT(*) | SUM(Q40) | SUM(Q2)", "0 | 2 | 0 | 0", "1 | 2 | 0 | 8", "2 | 2 | 0 | 6", "3 | 2 | 0 | 4", "4 | 2 | 0 | 2"],
    ),
    query(
        "no key",
        {"meter.csv": METER},
        "SELECT METER, STATE, COUNT(*), MIN(N) FROM METER GROUP BY METER, STATE",
        ["METER | STATE | COUNT(*) | MIN(N)", "'A' | 'on' | 3 | 1", "'B' | 'off' | 1 | 3", "'B' | 'on' | 1 | 5"],
    ),
    fault("a header with a name twice", {"orders.csv": TWICE}, "orders.csv:1: two columns make the name ID; --columns chooses columns and names them, as in --columns 'A,B=Other Name'\n", text="SELECT SUM(UNITS) FROM ORDERS"),
    query(
        "a header with a name twice, of which others are chosen",
        {"orders.csv": TWICE},
        "SELECT COUNT(*), SUM(UNITS) FROM ORDERS",
        ["COUNT(*) | SUM(UNITS)", "3 | 18"],
        ["--columns", "order,units"],
    ),
    query(
        "leading zeros and signs",
        {"accounts.csv": SIGNS},
        # (texts, since zeros stand in front)
        "SELECT MIN(ACCOUNT), MAX(ACCOUNT), MIN(CHANGE), COUNT(DISTINCT CHANGE), MAX(SHOWN) FROM ACCOUNTS",
        ["MIN(ACCOUNT) | MAX(ACCOUNT) | MIN(CHANGE) | COUNT(DISTINCT CHANGE) | MAX(SHOWN)", "'0017' | '18' | '-0005' | 3 | '-7'"],
    ),
    query(
        "empty last lines",
        {"ends.csv": ENDS},
        "SELECT COUNT(*), SUM(UNITS) FROM ENDS",
        ["COUNT(*) | SUM(UNITS)", "2 | 7"],
    ),
    query(
        "integers at the ends of 64 bits",
        {"ledger.csv": BIG},
        "SELECT SUM(CREDIT), SUM(DEBIT), MAX(CREDIT), MIN(DEBIT) FROM LEDGER",
        ["SUM(CREDIT) | SUM(DEBIT) | MAX(CREDIT) | MIN(DEBIT)", "18446744073709551615 | -18446744073709551616 | 9223372036854775807 | -9223372036854775808"],
    ),
    query(
        "single quotes, and no last line end",
        {"runs.csv": APOSTROPHES},
        "SELECT WHO, SUM(COUNT_) FROM RUNS GROUP BY WHO",
        ["WHO | SUM(COUNT_)", "'''ann''' | 3", "'O''Neil' | 6"],
    ),
]

FORMS = ("classic", "csv", "json", "table")
MANY = "id,city\n" + "".join(f"{number},city {number}\n" for number in range(1, 20_001))
QUESTION = "SELECT CITY, COUNT(*) FROM MANY GROUP BY CITY"
# The same question of the same file, by a script.
ASKED = f"table MANY (ID INT KEY, CITY TEXT)\nload 1\npublish\nreport {QUESTION}\n"
COMMANDS = {"query": [QUESTION, "many.csv"], "run": ["many.olap", "many.csv"]}
# (of the answer, which is more than a pipe holds, a reader that ends at once takes nothing)
UNTAKEN = {"a full disk": '"$@" > /dev/full 2> errors; echo $? > status', "a closed pipe": '{ sleep 1; "$@" 2> errors; echo $? > status; } | true'}


def unread(command, form, title):
    """An answer that nobody takes: a run tells that it ended, and a query the full disk alone."""
    files = {"many.csv": MANY, "many.olap": ASKED, "errors": ""}
    errors = "" if (command, title) == ("query", "a closed pipe") else "olap: ended 92\n"
    case = Case(f"{command}: {title}, in the form {form}", [command, "--format", form, *COMMANDS[command]], files, errors=errors, status=3)
    return case, UNTAKEN[title]


WRITTEN_TO = [unread(command, form, title) for command in COMMANDS for title in UNTAKEN for form in FORMS]
