"""Viewers of editions that have columns: tables of 5,000 rows and more, which several viewers are asked about often while the
script loads and corrects them, and what the rules give for each edition, by a plain filter and fold."""

import random

from cases.columns import COLUMNS, literal, order, random_row, record
from cases.table import SCRIPT, Case, Viewed, block, of_lines

ROWS = 5_000
MORE = 400
SEEDS = range(2)
TABLE = "table T (K INT KEY, A TEXT, B INT, C TEXT, D INT)"
ITEMS = ["A", "COUNT(*)", "COUNT(DISTINCT C)", "SUM(B)", "MAX(D)"]
QUERY = f"SELECT {', '.join(ITEMS)} FROM T WHERE NOT B = 7 GROUP BY ROLLUP(A)"

COMING = "--as-they-come"

# Viewers, the shots of each, and the options of the run.
WAYS = [
    (2, 1, ()),
    (2, 300, ()),
    (2, 300, ("--workers", "4", "--depth", "2")),
    (16, 40, ("--workers", "2")),
    (16, 40, ("--hash", "plain", "--depth", "13")),
    (2, 1, (COMING,)),
    (2, 300, (COMING, "--workers", "4")),
    (16, 40, (COMING, "--workers", "2")),
]


def fold(region, rows):
    """The row of the report over these rows."""
    cells, numbers, greatest = ([row[name] for row in rows if row[name] is not None] for name in "CBD")
    return [region, len(rows), len(set(cells)), sum(numbers) if numbers else None, max(greatest, default=None)]


def report(table):
    """The lines of the report: each region, and all regions together."""
    kept = [row for row in table.values() if row["B"] is not None and row["B"] != 7]
    regions = sorted({row["A"] for row in kept}, key=order)
    rows = [fold(region, [row for row in kept if row["A"] == region]) for region in regions] + [fold(None, kept)]
    return [" | ".join(ITEMS), *(" | ".join(map(literal, row)) for row in rows)]


def part(rows):
    return "\n".join([",".join(COLUMNS), *map(record, rows)])


class Sample:
    """A script that loads a table, corrects it and loads more, with its parts and the reports on its editions."""

    def __init__(self, seed):
        self.chance = random.Random(seed)
        keys = self.chance.sample(range(-(10**6), 10**6), ROWS + MORE)
        rows = [random_row(self.chance, key) for key in keys]
        self.table, self.editions = {}, {0: report({})}
        self.parts = [part(rows[:ROWS:2]), part(rows[1:ROWS:2]), part(rows[ROWS:])]
        self.lines = [TABLE, "load 1 2"]
        self.put(rows[:ROWS])
        self.publish()
        for _ in range(3):
            self.correct()
        self.lines.append("load 3")
        self.put(rows[ROWS:])
        self.publish()
        # The script's own report is on the same edition.
        self.lines += [("put x,,,,", 7), (f"report {QUERY}", block(5, *self.editions[5]))]

    def put(self, rows):
        self.table.update({row["K"]: row for row in rows})

    def correct(self):
        """An edition with another row, and without one."""
        changed, gone = self.chance.sample(list(self.table), 2)
        row = random_row(self.chance, changed)
        self.put([row])
        del self.table[gone]
        self.lines += [f"put {record(row)}", f"delete {gone}"]
        self.publish()

    def publish(self):
        self.lines.append("publish")
        self.editions[len(self.editions)] = report(self.table)

    def case(self, title, viewers, shots, options):
        text, output = of_lines(self.lines)
        names = [f"part{number}.csv" for number in range(1, len(self.parts) + 1)]
        words = ["live", "--query", QUERY, "--viewers", str(viewers), "--shots", str(shots), *options, SCRIPT, *names]
        files = {SCRIPT: text, **dict(zip(names, self.parts))}
        return Case(title, words, files, output=Viewed(output=output, viewers=viewers, shots=shots, editions=self.editions, as_they_come=COMING in options))


def cases():
    for seed in SEEDS:
        sample = Sample(seed)
        for viewers, shots, options in WAYS:
            title = " ".join([f"{viewers} viewers of a large table, {shots} shots, seed {seed}", *options])
            yield sample.case(title, viewers, shots, options)


CASES = list(cases())
