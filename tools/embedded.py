"""The library of the crate `olap_core`, and the programs of examples/embed over it: these are built, run over the scripts of
`examples`, and compared with what should be written. What needs a compiler that is not here is left out."""

import gzip
import os
import pathlib
import shutil
import subprocess
import tempfile

import runs
import tree

CRATE = "crates/olap_core"
LIBRARY = "out/libolap_core.a"
EXAMPLES = runs.TOP / "examples"
SOURCES = EXAMPLES / "embed"
RELEASED = runs.TOP / "release/libolap_core.a.gz"

C = ["cc", "-O2", "-Wall", "-Wextra", "-Werror", f"-I{SOURCES}", f"{SOURCES}/script.c", "libolap_core.a"]
RUST = ["rustc", "-O", "-D", "warnings", f"{SOURCES}/script.rs", "-L", ".", "-l", "static=olap_core"]
SHARED = ["cc", "-shared", "-o", "libolap_core.so", "-Wl,--whole-archive", "libolap_core.a", "-Wl,--no-whole-archive"]

# Each language: what is needed, how a program is built in a folder with the library, and how it is run there.
LANGUAGES = {
    "C": ("cc", [*C, "-o", "script"], ["./script"]),
    "Rust": ("rustc", [*RUST, "-o", "script"], ["./script"]),
    "Python": ("cc", SHARED, ["python3", f"{SOURCES}/script.py"]),
}

# What a call is given beside the script `x`: the number of a form, the most rows, parts with their lengths, and room; and what it
# leaves of its status, the length and the first bytes of the room. Before it the length is 7 and each byte `?`.
CALLS = [
    ((0, 1, b"", [], 17), (0, 17, b"line 1 refused 3\n???")),
    ((0, 2**32, b"abc", [1, 0, 2], 20), (0, 17, b"line 1 refused 3\n???")),
    ((0, 1, b"", [], 16), (1, 17, b"?" * 20)),
    ((4, 1, b"", [], 20), (2, 7, b"?" * 20)),
    ((0, 0, b"", [], 20), (3, 7, b"?" * 20)),
    ((0, 2**32 + 1, b"", [], 20), (3, 7, b"?" * 20)),
    ((0, 1, b"abc", [], 20), (4, 7, b"?" * 20)),
    ((0, 1, b"abc", [1, 1], 20), (4, 7, b"?" * 20)),
    ((0, 1, b"abc", [1, 3], 20), (4, 7, b"?" * 20)),
]
PROBE = """
import ctypes, sys
sys.path.insert(0, sys.argv[1])
import script
for form, rows, parts, lengths, size in eval(sys.argv[2]):
    room, length = ctypes.create_string_buffer(b"?" * 20, 20), ctypes.c_size_t(7)
    counts = (ctypes.c_size_t * max(len(lengths), 1))(*lengths)
    status = script.core.olap_output(form, rows, b"x", 1, parts, len(parts), counts, len(lengths), room, size, ctypes.byref(length))
    print((status, length.value, room.raw))
"""


def kit():
    """The folder of the toolchain's kit."""
    said = subprocess.run(["rt", "doc"], capture_output=True, text=True, check=True).stdout
    return pathlib.Path(said.strip().splitlines()[-1]).parent


def build(top=runs.TOP):
    """Proves and builds the library where that is not done, and keeps what the checker said; what was said where it failed, or None."""
    crate = top / CRATE
    ran = subprocess.run(["rt", "lib"], cwd=crate, stdin=subprocess.DEVNULL, capture_output=True, text=True)
    if ran.returncode == 0 and (crate / LIBRARY).is_file():
        log = crate / "out" / tree.LOG
        log.unlink(missing_ok=True)
        log.write_text(ran.stdout)
        return None
    return f"rt lib: status {ran.returncode}\n{ran.stdout[-2000:]}{ran.stderr[-2000:]}"


def whole(top=runs.TOP):
    """The library that was built, as one archive with the kit's calls of malloc, so that it needs nothing but the C library."""
    with tempfile.TemporaryDirectory() as room:
        for archive in (top / CRATE / LIBRARY, kit() / "c/liblibc_c.a"):
            subprocess.run(["ar", "x", archive], cwd=room, check=True)
        members = sorted(it for it in os.listdir(room) if it.endswith(".o"))
        subprocess.run(["ar", "rcsD", "libolap_core.a", *members], cwd=room, check=True)
        return pathlib.Path(room, "libolap_core.a").read_bytes()


def scripts():
    """Each example: its name, script, parts, and what is to be written."""
    for path in sorted(EXAMPLES.glob("*.olap")):
        yield path.stem, path, sorted(EXAMPLES.glob(f"{path.stem}.*.csv")), path.with_suffix(".expected").read_bytes()


def wrong_in(room, words):
    """What differs where a program runs over all examples."""
    for name, script, parts, wanted in scripts():
        ran = subprocess.run([*words, script, *parts], cwd=room, capture_output=True, timeout=runs.SECONDS)
        if ran.returncode or ran.stdout != wanted:
            yield f"{name}: status {ran.returncode}, wanted\n{runs.shown(wanted)}\nand got\n{runs.shown(ran.stdout)}{runs.shown(ran.stderr)}"


def wrong_calls(room):
    """What differs in the calls of Python, one by one."""
    words = ["python3", "-c", PROBE, SOURCES, repr([given for given, _ in CALLS])]
    ran = subprocess.run(words, cwd=room, capture_output=True, text=True, timeout=runs.SECONDS)
    wanted = "".join(f"{told}\n" for _, told in CALLS)
    if ran.stdout != wanted:
        yield f"calls: wanted\n{wanted}and got\n{ran.stdout}{ran.stderr}"


def tried(library, language, build, words):
    """What differs where a program is built over the bytes of a library, and run over all examples."""
    with tempfile.TemporaryDirectory() as room:
        pathlib.Path(room, "libolap_core.a").write_bytes(library)
        ran = subprocess.run(build, cwd=room, capture_output=True, text=True)
        if ran.returncode:
            return [f"{' '.join(build)}: {ran.stderr}"]
        return [*wrong_in(room, words), *(wrong_calls(room) if language == "Python" else [])]


def is_there(compiler):
    return shutil.which(compiler) and subprocess.run([compiler, "--version"], capture_output=True).returncode == 0


def over(library, of):
    """The cases of each language that can be tried here, over the bytes of a library."""
    for language, (needed, build, words) in LANGUAGES.items():
        if is_there(needed):
            yield f"embed: {language}, {of}", lambda it=language, by=build, run=words: tried(library, it, by, run)


def cases(is_current, is_asked):
    """Each language over the library of the release, where that is of these sources. Who asks for these cases has the library built,
    too, and compared with that of the release, or tried in its place. Nobody else does: that proves all crates below it once more, for
    what `rt ci` leaves of them is not what `rt lib` begins with, and the gate would take twice its time."""
    released = gzip.decompress(RELEASED.read_bytes()) if is_current else None
    if released:
        yield from over(released, "by the release")
    if not shutil.which("rt") or not is_asked:
        return
    if fault := build():
        yield "embed: the library", lambda: [fault]
    elif released:
        same = whole() == released
        yield "embed: the library", lambda: [] if same else ["that of the release is another one than is built here"]
    else:
        yield from over(whole(), "as it is built")
