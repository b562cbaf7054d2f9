"""The forms of what a run writes: `--format classic`, which is the default, `csv`, `json` and `table`."""

import json

from cases.reasons import told
from cases.table import Case, OneOf, SCRIPT, script

PLAIN = ("--hash", "plain")
PART = "K,S,V\n8,x,8\n9,x,y\n"
LINES = [
    "publish",
    "table T (K INT KEY, S TEXT, V INT)",
    'put 1,"a ""b"", c",5',
    "put 33,,",
    "put x",
    "load 1",
    "publish",
    "report SELECT S, V, COUNT(*) FROM T GROUP BY S, V",
    "report SELECT COUNT(* FROM T",
    "report SELECT S FROM T WHERE K = 33 GROUP BY S",
    "report SELECT V FROM T WHERE K = 9 GROUP BY V",
    "shape",
]

CLASSIC = """line 1 refused 1
line 5 refused 7
line 6 refused 6 part 1 record 2
line 8 edition 1
S | V | COUNT(*)
NULL | NULL | 1
'a "b", c' | 5 | 1
line 9 refused 10
line 10 edition 1
S
NULL
line 11 edition 1
V
line 12 edition 1
- 2
1 2
"""

CSV = """line,1,refused,1,NoTable
line,5,refused,7,BadRecord
line,6,refused,6,BadPart,part,1,record,2
line,8,edition,1
"S","V","COUNT(*)"
,,1
"a ""b"", c",5,1
line,9,refused,10,QuerySyntax
line,10,edition,1
"S"
""
line,11,edition,1
"V"
line,12,edition,1
prefix,keys
-,2
1,2
"""

JSON = """{"line":1,"refused":1,"name":"NoTable"}
{"line":5,"refused":7,"name":"BadRecord"}
{"line":6,"refused":6,"name":"BadPart","part":1,"record":2}
{"line":8,"edition":1,"columns":["S","V","COUNT(*)"],"rows":[[null,null,1],["a \\"b\\", c",5,1]]}
{"line":9,"refused":10,"name":"QuerySyntax"}
{"line":10,"edition":1,"columns":["S"],"rows":[[null]]}
{"line":11,"edition":1,"columns":["V"],"rows":[]}
{"line":12,"edition":1,"shape":[["-",2],["1",2]]}
"""

TABLE = """line 1 refused 1
line 5 refused 7
line 6 refused 6 part 1 record 2
line 8 edition 1
S         V     COUNT(*)
--------  ----  --------
NULL      NULL         1
a "b", c     5         1
line 9 refused 10
line 10 edition 1
S
----
NULL
line 11 edition 1
V
-
line 12 edition 1
- 2
1 2
"""

FORMS = {"classic": CLASSIC, "csv": CSV, "json": JSON, "table": TABLE}


def of_form(form, title, lines, output, parts=(), options=(), **more):
    """A script of these lines in a form."""
    text = "".join(f"{line}\n" for line in lines)
    return script(f"{title}, {form}", text, output, parts, ["--format", form, *options], **more)


# One of each refusal of a line, by its number and its name; the last is of a whole script.
REFUSALS = [
    (["publish"], 1, 1, "NoTable"),
    (["table T (K INT KEY)", "table T (K INT KEY)"], 2, 2, "TableAgain"),
    (["table T (K INT KEY)", "publish now"], 2, 3, "BadCommand"),
    (["table T"], 1, 4, "BadSchema"),
    (["table T (K INT KEY)", "load 1"], 2, 5, "NoPart"),
    (["table T (K INT KEY)", "put x"], 2, 7, "BadRecord"),
    (["table T (K INT KEY)", "delete x"], 2, 8, "BadKey"),
    (["table T (K INT KEY)", "put 1", "put 2"], 3, 9, "TooManyRows"),
    (["table T (K INT KEY)", "report SELECT"], 2, 10, "QuerySyntax"),
    (["table T (K INT KEY)", "report SELECT COUNT(*) FROM S"], 2, 11, "Unknown"),
    (["table T (K INT KEY)", "report SELECT K FROM T"], 2, 12, "NotGrouped"),
    (["table T (K INT KEY)", "report SELECT COUNT(*) FROM T WHERE K = 'a'"], 2, 13, "WrongType"),
    (["table T (A INT KEY, B INT, C INT, D INT, E INT, F INT, G INT, H INT, I INT)", f"report SELECT COUNT(*) FROM T GROUP BY CUBE ({', '.join('ABCDEFGHI')})"], 2, 14, "TooManySets"),
    (["#" * 1048576], 0, 15, "Limit"),
]


def refusals(form, text):
    """Those refusals, each as this text has it."""
    for lines, number, code, name in REFUSALS:
        told = text.replace("NUMBER", str(number)).replace("CODE", str(code)).replace("NAME", name)
        yield of_form(form, f"refusal {code}", lines, told, (), ("--rows", "1"))


# Texts, as they stand in a table and as fields of CSV, where quotes stand if they would not be read back without them.
TEXTS = [
    (" a", " a", '" a"'),
    ("a\t", r"a\t", '"a\t"'),
    ("a\rb", r"a\rb", '"a\rb"'),
    ("a b", "a b", "a b"),
    ("a,b", "a,b", '"a,b"'),
    ("\u0001\u00e9'", "\\u0001\u00e9'", "\u0001\u00e9'"),
    ('say "so", \\twice\n', 'say "so", \\\\twice\\n', '"say ""so"", \\twice\n"'),
    ("a\u007f\u0085\u061c\u200f\u202e1\u2069", "a\\u007f\\u0085\\u061c\\u200f\\u202e1\\u2069", "a\u007f\u0085\u061c\u200f\u202e1\u2069"),
    ("\ufeffa", "\ufeffa", '"\ufeffa"'),
    ("a\ufeff", "a\ufeff", "a\ufeff"),
]


def texts(form, before, row, between="\n", after="\n"):
    """A report on these texts, and what a form makes of it: `row` spells one by its number, its text, as it is shown, and its
    field."""
    part = "K,S\n" + "".join(f"{number},{field}\n" for number, (_, _, field) in enumerate(TEXTS))
    lines = ["table T (K INT KEY, S TEXT)", "load 1", "publish", "report SELECT K, S FROM T GROUP BY K, S"]
    rows = between.join(row(number, *each) for number, each in enumerate(TEXTS))
    return of_form(form, "texts", lines, before + rows + after, [part])


def in_json(*values):
    return json.dumps(values, ensure_ascii=False, separators=(",", ":"))


WIDTH = max(len(shown) for _, shown, _ in TEXTS)
SPELLED = [
    texts("classic", "line 4 edition 1\nK | S\n", lambda number, text, *_: f"{number} | " + "'" + text.replace("'", "''") + "'"),
    texts("csv", 'line,4,edition,1\n"K","S"\n', lambda number, _, __, field: f"{number},{field}"),
    texts("json", '{"line":4,"edition":1,"columns":["K","S"],"rows":[', lambda number, text, *_: in_json(number, text), ",", "]}\n"),
    texts("table", f"line 4 edition 1\nK  S\n-  {'-' * WIDTH}\n", lambda number, _, shown, __: f"{number}  {shown}"),
]

VIEWED = ["table T (K INT KEY)", "put 1", "publish"]
QUERY = "SELECT COUNT(*) FROM T"


def live(form, title, lines, tails, query=QUERY):
    """A script that writes nothing, with one viewer of one report before its last one: one of these tails."""
    text = "".join(f"{line}\n" for line in lines)
    words = ["live", "--format", form, "--query", query, "--viewers", "1", "--shots", "1", SCRIPT]
    return Case(f"{title}, {form}", words, {SCRIPT: text}, output=OneOf(tails))


def views(of_edition):
    """The tails of that viewer, by its report on an edition."""
    return [of_edition(number) + of_edition(1) for number in (0, 1)]


CASES = [
    *SPELLED,
    *[of_form(form, "a script", LINES, output, [PART], PLAIN) for form, output in FORMS.items()],
    script("a script of no form", "".join(f"{line}\n" for line in LINES), CLASSIC, [PART], PLAIN),
    *refusals("csv", "line,NUMBER,refused,CODE,NAME\n"),
    *refusals("json", '{"line":NUMBER,"refused":CODE,"name":"NAME"}\n'),
    *refusals("table", "line NUMBER refused CODE\n"),
    of_form("json", "a strict run stops", LINES, '{"line":1,"refused":1,"name":"NoTable"}\n', [PART], ("--strict",), status=1, errors="olap: stopped after a refused line\n"),
    of_form("csv", "a strict run stops", LINES, "line,1,refused,1,NoTable\n", [PART], ("--strict",), status=1, errors="olap: stopped after a refused line\n"),
    of_form(
        "json",
        "reasons are told as ever",
        ["publish"],
        '{"line":1,"refused":1,"name":"NoTable"}\n',
        options=("--explain",),
        errors=told(1, "publish", 1, None, "no table is declared before this line"),
    ),
    of_form("json", "an empty script", [], ""),
    of_form("csv", "an empty script", [], ""),
    live("csv", "a viewer", VIEWED, views(lambda number: f'viewer,1,edition,{number}\n"COUNT(*)"\n{number}\n')),
    live("json", "a viewer", VIEWED, views(lambda number: f'{{"viewer":1,"edition":{number},"columns":["COUNT(*)"],"rows":[[{number}]]}}\n')),
    live("table", "a viewer", VIEWED, views(lambda number: f"viewer 1 edition {number}\nCOUNT(*)\n--------\n       {number}\n")),
    live("classic", "a viewer", VIEWED, views(lambda number: f"viewer 1 edition {number}\nCOUNT(*)\n{number}\n")),
    live("csv", "viewers of no query", VIEWED, ["viewers,refused,10,QuerySyntax\n"], "Q"),
    live("json", "viewers of no query", VIEWED, ['{"viewers":"refused","refused":10,"name":"QuerySyntax"}\n'], "Q"),
    live("table", "viewers of no query", VIEWED, ["viewers refused 10\n"], "Q"),
    live("csv", "viewers of no table", [], ["viewers,refused,1,NoTable\n"]),
    live("json", "viewers of no table", [], ['{"viewers":"refused","refused":1,"name":"NoTable"}\n']),
    live("json", "viewers of a long script", ["#" * 1048576], ['{"line":0,"refused":15,"name":"Limit"}\n{"viewers":"refused","refused":1,"name":"NoTable"}\n']),
]
