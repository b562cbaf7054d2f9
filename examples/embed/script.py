"""Runs a script over parts, as `olap run SCRIPT [PART]...` does, within Python:

    cc -shared -o libolap_core.so -Wl,--whole-archive libolap_core.a -Wl,--no-whole-archive
    OLAP_CORE=./libolap_core.so python3 script.py ../loads.olap ../loads.1.csv ../loads.2.csv
"""

import ctypes
import os
import pathlib
import sys

FORMS = {"classic": 0, "csv": 1, "json": 2, "table": 3}
NO_ROOM = 1
MOST_ROWS = 1 << 32

core = ctypes.CDLL(os.environ.get("OLAP_CORE", "./libolap_core.so"))
core.olap_output.restype = ctypes.c_uint32
core.olap_output.argtypes = [
    ctypes.c_uint32,
    ctypes.c_uint64,
    *[ctypes.c_char_p, ctypes.c_size_t] * 2,
    *[ctypes.POINTER(ctypes.c_size_t), ctypes.c_size_t],
    *[ctypes.c_char_p, ctypes.c_size_t],
    ctypes.POINTER(ctypes.c_size_t),
]


def output(script, parts=(), form="classic", rows=MOST_ROWS):
    """The output of a script, bytes in and bytes out."""
    lengths = (ctypes.c_size_t * max(len(parts), 1))(*map(len, parts))
    whole, length, status = b"".join(parts), ctypes.c_size_t(1 << 16), NO_ROOM
    while status == NO_ROOM:
        out = ctypes.create_string_buffer(length.value)
        status = core.olap_output(
            FORMS[form], rows, script, len(script), whole, len(whole), lengths, len(parts), out, len(out), ctypes.byref(length)
        )
    if status:
        raise ValueError(f"olap_output: status {status}")
    return out.raw[: length.value]


def main():
    script, *parts = (pathlib.Path(it).read_bytes() for it in sys.argv[1:])
    sys.stdout.buffer.write(output(script, parts))


if __name__ == "__main__":
    main()
