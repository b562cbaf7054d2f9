"""Proves a crate of which nothing was built before, and builds the library or the program that it is.

    python3 tools/first.py NAME JOBS

in the folder of the crate. It is what `rt ci` does with a crate: nothing of the work is kept, and of a library its statements alone are
written for those above. A check that keeps its work, as that of `rt lib`, takes half as many processor seconds more, and longer by the
clock. What is built has the stamp by which `rt` knows later that it is up to date.
"""

import os
import pathlib
import sys
import tempfile

import tree


def build_library(rt, crate, jobs):
    """Proves a library and writes it; the status."""
    stamp = crate.stamp()
    os.makedirs("out/rlib", exist_ok=True)
    status = crate.call(rt.RATTLE, "build", *crate.words(["--jobs", jobs], keeps=False), "--statements", "-o", crate.rlib)
    if not status and stamp == crate.stamp():
        pathlib.Path("out/rlib/stamp").write_text(stamp)
    return status


def without(words, flag):
    """The words without a flag and what follows it."""
    at = words.index(flag)
    return words[:at] + words[at + 2 :]


def build_program(rt, crate, jobs):
    """Proves a program, and then compiles what was proved and links it; the status."""
    stamp, program, compiler = crate.stamp(), f"out/{crate.name}", ["--toolchain", f"{rt.KIT}/toolchain"]
    words = crate.words(["--jobs", jobs], keeps=False)
    compiled = without(without(words, "--logic-built"), "--jobs")
    with tempfile.TemporaryDirectory() as room:
        if status := crate.call(rt.RATTLE, "check", *words, "-o", f"{room}/checked"):
            return status
        os.makedirs("out", exist_ok=True)
        made = [*compiled, "--crate-checked", f"{room}/checked", *compiler, "--backend", "llvm", "-o", f"{program}.o"]
        if status := crate.call(rt.RATTLE, "build", *made):
            return status
    libraries = [f"{rt.KIT}/c/libos_c.a", f"{rt.KIT}/c/liblibc_c.a"]
    made = ["--target", "x86_64-unknown-linux-gnu", *compiler, "-o", program, f"{program}.o", *libraries]
    if status := crate.call(f"{rt.KIT}/bin/rattle-link", *made):
        return status
    if stamp == crate.stamp():
        pathlib.Path(f"{program}.stamp").write_text(stamp + rt.sum_of(program))
    return 0


def main(name, jobs):
    rt, top = tree.kit(), pathlib.Path.cwd().parents[1]
    crate = next(it for it in rt.crates_below(str(top)) if it.name == name)
    return (build_program if crate.is_program else build_library)(rt, crate, jobs)


if __name__ == "__main__":
    sys.exit(main(*sys.argv[1:]))
