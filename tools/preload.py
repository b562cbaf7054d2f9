"""The library `tools/preload.c`, and what it tells of a run."""

import pathlib
import subprocess
from dataclasses import dataclass

SOURCE = pathlib.Path(__file__).resolve().with_suffix(".c")


@dataclass(frozen=True)
class Costs:
    """The calls of a kind, the most bytes that were held at once, and the blocks that were held at the end."""

    calls: int
    bytes: int
    blocks: int


def library(room):
    """Builds the library in this folder."""
    built = pathlib.Path(room, "preload.so")
    subprocess.run(["gcc", "-shared", "-fPIC", "-O1", "-o", built, SOURCE, "-ldl"], check=True)
    return built


def environment(library, kind, tell, in_turn=False):
    """What a program is started with whose calls of the kind, `allocation` or `thread`, are counted in the file `tell`, and
    whose threads begin when they are joined, if they are to run in turn."""
    return {"LD_PRELOAD": str(library), "REFUSE": kind, "TELL": str(tell), **({"IN_TURN": "1"} if in_turn else {})}


def told(tell):
    """What a run told at its end."""
    return Costs(*map(int, tell.read_text().split()))
