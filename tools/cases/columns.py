"""Reports on editions that have columns: tables of as many rows as want them, reports that are asked again and again on one
edition, so that the first one goes over rows and the later ones over columns, and what the rules give for each, by a plain
filter and fold."""

import itertools
import random

from cases.table import block, lines_by

# more than an edition must have to get columns
ROWS = 6_000
SEEDS = range(6)
QUERIES = 8
TIMES = 3
WAYS = [(), ("--workers", "4", "--depth", "2"), ("--hash", "plain", "--workers", "2")]

COLUMNS = ["K", "A", "B", "C", "D"]
TYPES = {"K": int, "A": str, "B": int, "C": str, "D": int}
# texts whose order is not that in which they come, and numbers of both signs
TEXTS = ["south", "north", "east", "", "a'b", "Zoe", "zoe", "north pole, far away from all"]


def random_row(chance, key):
    """A row: a text of few values, a number of few, a text of many that is often NULL, and a number of any size."""
    few = chance.choice(TEXTS)
    small = chance.choice([None, 0, 1, -1, 7, chance.randrange(-20, 20)])
    many = f"item{chance.randrange(900)}" if chance.random() < 0.7 else None
    large = chance.choice([None, chance.randrange(-(2**63), 2**63), chance.randrange(50)])
    return {"K": key, "A": few or None, "B": small, "C": many, "D": large}


def record(row):
    """The row as a line of CSV."""
    cells = ["" if row[name] is None else str(row[name]) for name in COLUMNS]
    return ",".join(f'"{cell}"' if "," in cell else cell for cell in cells)


def literal(value):
    """A value as a report prints it, and as a query has it."""
    if value is None:
        return "NULL"
    return "'" + value.replace("'", "''") + "'" if isinstance(value, str) else str(value)


def order(value):
    """NULL first, then numbers, then texts by their bytes."""
    if value is None:
        return (0,)
    return (1, value) if isinstance(value, int) else (2, value.encode())


def random_test(chance, name):
    """A test of a column, and its truth for a value: True, False, or None where it is unknown."""
    values = [value for value in TEXTS if value] if TYPES[name] is str else [0, 1, -1, 7, 25]
    one, two = chance.choice(values), chance.choice(values)
    low, high = sorted([one, two], key=order)
    kind = chance.randrange(4)
    if kind == 0:
        return f"{name} IS NULL", lambda it: it is None
    if kind == 1:
        return f"{name} > {literal(one)}", lambda it: None if it is None else order(it) > order(one)
    if kind == 2:
        between = lambda it: None if it is None else order(low) <= order(it) <= order(high)
        return f"{name} BETWEEN {literal(low)} AND {literal(high)}", between
    return f"{name} IN ({literal(one)}, {literal(two)})", lambda it: None if it is None else it in (one, two)


def negated(truth):
    return None if truth is None else not truth


def either(first, second):
    return True if first or second else None if first is None or second is None else False


def random_where(chance):
    """The words of WHERE, or none, and whether a row is kept."""
    kind = chance.randrange(4)
    if kind == 0:
        return "", lambda row: True
    first, second = chance.choice(COLUMNS[1:]), chance.choice(COLUMNS)
    (one, is_one), (two, is_two) = random_test(chance, first), random_test(chance, second)
    if kind == 1:
        return f" WHERE {one}", lambda row: is_one(row[first]) is True
    if kind == 2:
        return f" WHERE NOT ({one})", lambda row: negated(is_one(row[first])) is True
    return f" WHERE {one} OR NOT {two}", lambda row: either(is_one(row[first]), negated(is_two(row[second]))) is True


def random_sets(chance):
    """The words of GROUP BY, or none, and its grouping sets, each in the order of the columns."""
    names = chance.sample(COLUMNS[1:4], chance.randrange(1, 4))
    placed = lambda sets: [sorted(it, key=COLUMNS.index) for it in sets]
    kind = chance.randrange(5)
    if kind == 0:
        return "", [[]]
    if kind == 1:
        return f" GROUP BY {', '.join(names)}", placed([names])
    if kind == 2:
        return f" GROUP BY ROLLUP({', '.join(names)})", placed(names[:count] for count in range(len(names), -1, -1))
    if kind == 3:
        kept = itertools.product([True, False], repeat=len(names))
        sets = [[name for name, there in zip(names, marks) if there] for marks in kept]
        return f" GROUP BY CUBE({', '.join(names)})", placed(sets)
    sets = [names[:1], [], names[-1:]]
    return f" GROUP BY GROUPING SETS ({', '.join(f'({there[0]})' if there else '()' for there in sets)})", placed(sets)


def values(rows, name):
    return [row[name] for row in rows if row[name] is not None]


def random_aggregate(chance):
    """An aggregate, and its value over rows."""
    name = chance.choice(COLUMNS)
    number = chance.choice(["B", "D"])
    return chance.choice(
        [
            ("COUNT(*)", len),
            (f"COUNT({name})", lambda rows: len(values(rows, name))),
            (f"COUNT(DISTINCT {name})", lambda rows: len(set(values(rows, name)))),
            (f"SUM({number})", lambda rows: sum(values(rows, number)) if values(rows, number) else None),
            (f"MIN({name})", lambda rows: min(values(rows, name), key=order, default=None)),
            (f"MAX({name})", lambda rows: max(values(rows, name), key=order, default=None)),
        ]
    )


class Query:
    """A random query, and the lines of its report over rows."""

    def __init__(self, chance):
        where, self.keeps = random_where(chance)
        group, self.sets = random_sets(chance)
        self.names = sorted({name for names in self.sets for name in names}, key=COLUMNS.index)
        self.aggregates = [random_aggregate(chance) for _ in range(chance.randrange(1, 4))]
        self.least = chance.choice([None, None, 1, 40])
        self.items = [*self.names, *(text for text, _ in self.aggregates)]
        having = "" if self.least is None else f" HAVING COUNT(*) > {self.least}"
        self.text = f"SELECT {', '.join(self.items)} FROM T{where}{group}{having}"

    def rows_of(self, names, rows):
        """The report's rows of a grouping set."""
        groups = {} if names else {(): []}
        for row in rows:
            groups.setdefault(tuple(row[name] for name in names), []).append(row)
        for cells in sorted(groups, key=lambda it: [order(cell) for cell in it]):
            members = groups[cells]
            if self.least is None or len(members) > self.least:
                there = dict(zip(names, cells))
                yield [there.get(name) for name in self.names] + [fold(members) for _, fold in self.aggregates]

    def report(self, rows):
        kept = [row for row in rows if self.keeps(row)]
        found = [row for names in self.sets for row in self.rows_of(names, kept)]
        return [" | ".join(self.items), *(" | ".join(map(literal, row)) for row in found)]


def asked(queries, edition, table):
    """Each query, asked several times on the edition."""
    for query in queries:
        report = block(edition, *query.report(list(table.values())))
        yield from [(f"report {query.text}", report)] * TIMES


def asked_again(chance, parts):
    """A table that is loaded and changed, with reports on each edition of it."""
    table = {key: random_row(chance, key) for key in chance.sample(range(-(10**6), 10**6), ROWS)}
    rows = list(table.values())
    for number in range(3):
        parts.append("\n".join([",".join(COLUMNS), *map(record, rows[number::3])]))
    queries = [Query(chance) for _ in range(QUERIES)]
    yield "table T (K INT KEY, A TEXT, B INT, C TEXT, D INT)", None
    yield "load 1 2 3", None
    yield "publish", None
    yield from asked(queries, 1, table)
    for key in chance.sample(list(table), 5):
        table[key] = random_row(chance, key)
        yield f"put {record(table[key])}", None
    gone = chance.choice(list(table))
    yield f"delete {gone}", None
    del table[gone]
    yield from asked(queries[:1], 1, {row["K"]: row for row in rows})
    yield "publish", None
    yield from asked(queries, 2, table)


def all_asked(seed):
    """The cases of one table, a case for each way to run them."""
    parts = []
    rows = list(asked_again(random.Random(seed), parts))
    return lines_by(f"reports asked again, seed {seed}", rows, parts, WAYS)


CASES = [case for seed in SEEDS for case in all_asked(seed)]
