"""The crates of this tree, and how many checks of them run side by side."""

import importlib
import os
import pathlib
import re
import shutil
import sys

TOP = pathlib.Path(__file__).resolve().parent.parent
PROGRAM = "olap"
# Where the build of a crate keeps what the checker said, in the crate's folder `out`.
LOG = "build.log"
# What a check of one crate is likely to take at most, in bytes.
MEMORY = 3_500_000_000


def kit():
    """The kit's own module, which `rt` is made of."""
    sys.path.insert(0, os.path.dirname(os.path.realpath(shutil.which("rt"))))
    return importlib.import_module("rtlib")


def lines():
    """The lines of crates.txt by the names of their crates."""
    kept = [it for it in (TOP / "crates.txt").read_text().splitlines() if re.match(r"\w+[^#]*:", it)]
    return {it.split(":")[0].split()[0]: it for it in kept}


def crates():
    """Each crate with the repository's own that it stands on, at whatever depth; lowest first."""
    listed, below = lines(), {}

    def put(name):
        if name not in below:
            direct = [it for it in listed[name].partition("#")[0].partition(":")[2].split() if it in listed]
            for it in direct:
                put(it)
            below[name] = list(dict.fromkeys(lower for it in direct for lower in [*below[it], it]))

    for name in listed:
        put(name)
    return below


def of_program():
    """The crates that the program stands on, lowest first, and the program."""
    below = crates()
    return [it for it in below if it == PROGRAM or it in below[PROGRAM]]


def is_program(name):
    return (TOP / "crates" / name / "src/main.rt").is_file()


def size(name):
    """How many bytes of sources, definitions and proofs a crate has."""
    folders = (TOP / "crates" / name / it for it in ("src", "specs", "proofs"))
    return sum(it.stat().st_size for folder in folders for it in folder.rglob("*") if it.is_file())


def free():
    """How many bytes of memory are free."""
    return int(re.search(r"MemAvailable:\s+(\d+)", pathlib.Path("/proc/meminfo").read_text())[1]) * 1024


def lanes():
    """How many checks run side by side: one a processor, as many as memory holds."""
    return max(1, min(len(os.sched_getaffinity(0)), free() // MEMORY))
