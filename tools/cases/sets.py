"""256 grouping sets, those of a CUBE of eight columns: over a few rows, and over an edition that has columns, asked again, so
that the first report goes over rows and the later ones over columns. What they give is told by a plain filter and fold."""

import itertools

from cases.table import block, lines_by

WAYS = [(), ("--workers", "4", "--depth", "2"), ("--workers", "64", "--depth", "13", "--hash", "plain")]

LETTERS = "ABCDEFGH"
TABLE = "table W (A INT, B INT, C INT, D INT, E INT, F INT, G INT, H INT, K INT KEY)"
QUERY = f"SELECT {', '.join(LETTERS)}, GROUPING({', '.join(LETTERS)}), COUNT(*), SUM(K) FROM W GROUP BY CUBE({', '.join(LETTERS)})"
HEADER = f"{' | '.join(LETTERS)} | GROUPING({', '.join(LETTERS)}) | COUNT(*) | SUM(K)"

# The cells of eight columns, of which each row has one line.
CELLS = [
    (1, 0, None, -1, 7, 7, 0, None),
    (1, None, None, -1, 7, 0, 0, None),
    (0, 0, 0, 0, 0, 0, 0, 0),
    (None, None, None, None, None, None, None, None),
    (-1, 1, -1, 1, -1, 1, -1, 1),
    (1, 0, None, -1, 7, 7, 0, 9),
]


def cell(value):
    return "NULL" if value is None else str(value)


def order(cells):
    """NULL first, then by value."""
    return [(value is not None, value or 0) for value in cells]


def rows_of(marks, keys):
    """The rows of the set that has the columns whose mark is 0, over the keys of each line of cells."""
    groups = {}
    for cells, some in zip(CELLS, keys):
        if some:
            there = tuple(None if mark else value for value, mark in zip(cells, marks))
            count, total = groups.get(there, (0, 0))
            groups[there] = count + len(some), total + sum(some)
    number = int("".join(map(str, marks)), 2)
    for there in sorted(groups, key=order):
        yield " | ".join(map(cell, [*there, number, *groups[there]]))


def report(keys):
    """The sets count down in binary, the first column as the highest digit, 1 where the column is in the set."""
    sets = itertools.product([0, 1], repeat=len(LETTERS))
    return block(1, HEADER, *(row for marks in sets for row in rows_of(marks, keys)))


def rows(keys):
    for cells, some in zip(CELLS, keys):
        for key in some:
            yield f"{','.join('' if value is None else str(value) for value in cells)},{key}"


def asked(title, keys, times):
    part = "\n".join([",".join([*LETTERS, "K"]), *rows(keys)])
    return lines_by(title, [TABLE, "load 1", "publish", *[(f"report {QUERY}", report(keys))] * times], [part], WAYS)


FEW = [[1], [2, 3], [], [4], [-5, 6], [7]]
MANY = [list(range(first, 5_000, len(CELLS))) for first in range(len(CELLS))]

CASES = asked("256 sets of eight columns", FEW, 1) + asked("256 sets of eight columns, asked again", MANY, 3)
