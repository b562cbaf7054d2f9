#!/usr/bin/python3
"""Tells of N shards of a script's table as tasks of Dask, joins what they tell in a tree of tasks, and writes to standard output
what one run writes.

    examples/dask/shards.py [--scheduler ADDRESS] [--workers W] [--olap PROGRAM] [--format FORM] N SCRIPT [PART]...

Without a scheduler a cluster of W processes is started here, on the loopback device alone. With one, PROGRAM and all files have to
be on each of its machines, by the same names. The status is 0, or that of the program, or 1 where Dask gave up.
"""

import argparse
import pathlib
import subprocess
import sys
import tempfile

from distributed import Client, LocalCluster, as_completed

OLAP = pathlib.Path(__file__).resolve().parents[2] / "olap"
# So many times a task is started again that failed, or that was lost with its machine.
RETRIES = 3


def partial_answer(words, room):
    """The partial answer that the program writes. Where it refuses to, as a script with a shape, the text of why: to start it
    again would change nothing. All else, as want of memory, is for the engine."""
    answer = pathlib.Path(room, "answer")
    ran = subprocess.run([*words[:2], "--partials", str(answer), *words[2:]], stdin=subprocess.DEVNULL, capture_output=True, text=True)
    if ran.returncode == 2:
        return ran.stderr
    if ran.returncode:
        raise RuntimeError(ran.stderr or f"the program ended with {ran.returncode}")
    return answer.read_bytes()


def tell(olap, number, count, names):
    """What one shard tells."""
    with tempfile.TemporaryDirectory() as room:
        return partial_answer([olap, "run", "--shard", f"{number}/{count}", "--", *names], room)


def lay(room, answers):
    """Files with these partial answers."""
    names = [str(pathlib.Path(room, f"{at}.partials")) for at in range(len(answers))]
    for name, answer in zip(names, answers):
        pathlib.Path(name).write_bytes(answer)
    return names


def join(olap, *answers):
    """What several tell together, or why one of them tells nothing."""
    for answer in answers:
        if isinstance(answer, str):
            return answer
    with tempfile.TemporaryDirectory() as room:
        return partial_answer([olap, "join", *lay(room, answers)], room)


def tree_of(client, olap, told):
    """The task of the last join. Tasks hand partial answers to one another as bytes, so no folder has to be shared."""
    level = told
    while len(level) > 1:
        pairs = [level[at : at + 2] for at in range(0, len(level), 2)]
        level = [client.submit(join, olap, *pair, pure=False, retries=RETRIES) for pair in pairs]
    return level[0]


def show(told):
    """How far the shards are, as standard error has it."""
    for done, _ in enumerate(as_completed(told), 1):
        print(f"shards: {done} of {len(told)}", file=sys.stderr)


def main():
    words = argparse.ArgumentParser(description=__doc__, formatter_class=argparse.RawDescriptionHelpFormatter)
    words.add_argument("--scheduler")
    words.add_argument("--workers", type=int)
    words.add_argument("--olap", default=str(OLAP))
    words.add_argument("--format", default="classic")
    words.add_argument("count", type=int, metavar="N")
    words.add_argument("names", nargs="+", metavar="FILE")
    given = words.parse_args()
    names = given.names if given.scheduler else [str(pathlib.Path(name).resolve()) for name in given.names]
    # (a worker of a thread is a process of its own, and starts one shard at a time)
    cluster = given.scheduler or LocalCluster(n_workers=given.workers, threads_per_worker=1, host="127.0.0.1", dashboard_address="127.0.0.1:0")
    with Client(cluster) as client, tempfile.TemporaryDirectory() as room:
        board = client.dashboard_link
        print(f"shards: the board of Dask is {board}, its tables {board.removesuffix('status')}info/main/workers.html", file=sys.stderr)
        numbers = range(1, given.count + 1)
        told = [client.submit(tell, given.olap, number, given.count, names, pure=False, retries=RETRIES) for number in numbers]
        last = tree_of(client, given.olap, told)
        show(told)
        answer = last.result()
        if isinstance(answer, str):
            sys.exit(print(answer, end="", file=sys.stderr) or 2)
        return subprocess.run([given.olap, "join", "--format", given.format, *lay(room, [answer])], stdin=subprocess.DEVNULL).returncode


if __name__ == "__main__":
    sys.exit(main())
