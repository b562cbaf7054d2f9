"""The scripts of the folder `examples`, each with its parts, under both hashes and by several workers."""

import pathlib

from cases.table import scripts

EXAMPLES = pathlib.Path(__file__).resolve().parent.parent.parent / "examples"

OPTIONS = [
    ("--workers", workers, "--depth", "13", "--rows", "100", "--hash", hash)
    for workers in ("1", "2", "7", "64")
    for hash in ("fnv", "plain")
]

CASES = [
    case
    for path in sorted(EXAMPLES.glob("*.olap"))
    for case in scripts(
        path.stem,
        path.read_bytes(),
        path.with_suffix(".expected").read_bytes(),
        [part.read_bytes() for part in sorted(EXAMPLES.glob(f"{path.stem}.*.csv"))],
        OPTIONS,
    )
]
