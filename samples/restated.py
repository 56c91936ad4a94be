"""A legacy record in the current layout (document 02, 2.7), in plain Python.

usage: python3 restated.py IN OUT     writes the record IN restated to OUT

Only for records that pass the checks of `restate`: none of them is made here.
"""

import struct
import sys
from pathlib import Path

sys.dont_write_bytecode = True  # no __pycache__ beside the sources

from fields import LEGACY, offsets


def turned(code, n, turn):
    """A code of n x n bits, rotated by 90 degrees x turn."""
    out = 0
    for y in range(n):
        for x in range(n):
            sx, sy = [(x, y), (y, n - 1 - x), (n - 1 - x, n - 1 - y), (n - 1 - y, x)][turn]
            out |= (code >> (sy * n + sx) & 1) << (y * n + x)
    return out


def restated(data):
    """The codes used by markers in reverse, each turned twice; the legacy flag cleared; all else as it was."""
    given = data[0]
    *_, board = offsets(given)
    rows, cols, bits = data[board:board + 3]
    codes = board + 4 + 8 + 2
    used = 0
    if given & LEGACY and rows % 2 == 0:
        assert cols % 2 == 1, "restate refuses the record: 25"
        used = sum((i + j) % 2 == 0 for j in range(rows) for i in range(cols))
    old = struct.unpack_from(f"<{used}Q", data, codes)
    new = struct.pack(f"<{used}Q", *(turned(code, bits, 2) for code in reversed(old)))
    return bytes([given & ~LEGACY]) + data[1:codes] + new + data[codes + len(new):]


if __name__ == "__main__":
    source, out = map(Path, sys.argv[1:])
    out.write_bytes(restated(source.read_bytes()))
