"""The cases of `tools/cases`, and how the built program is run on one of them."""

import importlib
import os
import pathlib
import pty
import select
import subprocess
import tempfile
import termios

from cases.table import as_bytes

TOP = pathlib.Path(__file__).resolve().parent.parent
PROGRAM = TOP / "crates/olap/out/olap"
SECONDS = 120
LATE = f"it did not end in {SECONDS} seconds"
SHOWN = 2000


def is_met(wanted, got):
    return got == as_bytes(wanted) if isinstance(wanted, (str, bytes)) else wanted.is_met_by(got)


def shown(text):
    text = text.decode(errors="backslashreplace") if isinstance(text, bytes) else str(text)
    return text if len(text) <= SHOWN else f"{text[:SHOWN]}.. ({len(text)} characters)"


def differences(case, status, output, errors):
    """What differs from the case, in the words that are printed."""
    compared = [("standard output", case.output, output), ("standard error", case.errors, errors)]
    found = [] if status == case.status else [f"the status {status}, and not {case.status}"]
    return found + [
        f"{name}: wanted\n{shown(wanted)}\nand got\n{shown(got)}"
        for name, wanted, got in compared
        if not is_met(wanted, got)
    ]


def lay_out(room, files):
    """Puts the case's files where the program is to run."""
    for name, text in files.items():
        path = os.path.join(os.fsencode(room), os.fsencode(name))
        if text is None:
            os.mkdir(path)
            continue
        with open(path, "wb") as file:
            file.write(as_bytes(text))


def run(program, case, **environment):
    """Runs the program on a case in a folder of its own; its status, standard output and standard error."""
    with tempfile.TemporaryDirectory() as room:
        lay_out(room, case.files)
        how = {"cwd": room, "capture_output": True, "timeout": SECONDS, "env": {**os.environ, **environment}}
        # (a number, since it may be a folder)
        given = os.open(os.path.join(room, case.given) if case.given else os.devnull, os.O_RDONLY)
        try:
            ran = subprocess.run([program, *case.words], stdin=given, **how)
        finally:
            os.close(given)
    return ran.returncode, ran.stdout, ran.stderr


def tried(program, case):
    """What differs where the program is run on a case."""
    try:
        return differences(case, *run(program, case))
    except subprocess.TimeoutExpired:
        return [LATE]


def written_to(program, case, command):
    """The same where a shell takes what the program writes: `command` says how, with the program's call as "$@", and
    leaves the program's status in the file `status` and its standard error in the file `errors`."""
    with tempfile.TemporaryDirectory() as room:
        lay_out(room, case.files)
        words = ["bash", "-c", command, "bash", program, *case.words]
        try:
            ran = subprocess.run(words, cwd=room, stdin=subprocess.DEVNULL, capture_output=True, timeout=SECONDS)
        except subprocess.TimeoutExpired:
            return [LATE]
        status, errors = (pathlib.Path(room, name).read_bytes() for name in ("status", "errors"))
    return differences(case, int(status), ran.stdout, errors)


def held(program, case, first):
    """The same, and whether the output begins to be seen with `first` while the run goes on: as long as it was not seen,
    little is read of what goes to standard error, so that the run is held, which has to tell more of its refusals there than
    a pipe holds."""
    with tempfile.TemporaryDirectory() as room:
        lay_out(room, case.files)
        streams = {"stdin": subprocess.DEVNULL, "stdout": subprocess.PIPE, "stderr": subprocess.PIPE}
        ran = subprocess.Popen([program, *case.words], cwd=room, **streams)
        output, errors, wanted = b"", b"", as_bytes(first)
        while len(output) < len(wanted) and ran.poll() is None:
            if select.select([ran.stdout], [], [], 0.05)[0]:
                output += os.read(ran.stdout.fileno(), 65536)
            else:
                errors += os.read(ran.stderr.fileno(), 4096)
        is_seen = output.startswith(wanted) and ran.poll() is None
        last = ran.communicate(timeout=SECONDS)
    found = differences(case, ran.returncode, output + last[0], errors + last[1])
    return found if is_seen else [*found, f"{first!r} was not seen while the run went on"]


def on_screen(program, case):
    """The same where standard error is a screen; where the case says nothing of the output, standard output is the same
    one, and where it has an input, that is typed there."""
    with tempfile.TemporaryDirectory() as room:
        lay_out(room, case.files)
        screen, terminal = pty.openpty()
        output = subprocess.PIPE if case.output else terminal
        streams = {"stdin": terminal if case.given else subprocess.DEVNULL, "stdout": output, "stderr": terminal}
        if case.given:
            type_in(screen, terminal, as_bytes(case.files[case.given]))
        ran = subprocess.Popen([program, *case.words], cwd=room, **streams)
        os.close(terminal)
        errors = b""
        try:
            while piece := os.read(screen, 65536):
                errors += piece
        except OSError:
            # (nobody has the terminal any more)
            pass
        os.close(screen)
        output = ran.communicate(timeout=SECONDS)[0] or b""
    return differences(case, ran.returncode, output, errors)


def type_in(screen, terminal, text):
    """Types a text of whole lines and its end at a terminal, which shows nothing of it."""
    state = termios.tcgetattr(terminal)
    state[3] &= ~termios.ECHO
    termios.tcsetattr(terminal, termios.TCSANOW, state)
    os.write(screen, text + b"\x04")


def tables():
    """Each table's name, with its module."""
    for path in sorted((TOP / "tools/cases").glob("*.py")):
        yield path.stem, importlib.import_module(f"cases.{path.stem}")


def cases():
    """The cases of all tables, under the names of their tables."""
    for name, module in tables():
        for case in getattr(module, "CASES", []):
            yield f"{name}: {case.title}", case


def cases_written_to():
    """Those whose output a shell takes, each with the shell's command."""
    for name, module in tables():
        for case, command in getattr(module, "WRITTEN_TO", []):
            yield f"{name}: {case.title}", case, command


def cases_held():
    """Those whose run is held, each with what is to be seen of its output until then."""
    for name, module in tables():
        for case, first in getattr(module, "HELD", []):
            yield f"{name}: {case.title}", case, first


def cases_on_screen():
    """Those with a screen."""
    for name, module in tables():
        for case in getattr(module, "ON_SCREEN", []):
            yield f"{name}: {case.title}", case
