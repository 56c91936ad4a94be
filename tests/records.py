"""Writes the shot records of tests/programs, from documents 01 and 02 alone: python3 tests/records.py DIRECTORY

full.shot     256 cells, each with a marker that is read, on a board of 32 x 32 squares
whole.shot    65,535 bytes, the longest record that passes check 21
longer.shot   one byte more: check 21 fails
longest.shot  two bytes more
seven.shot    samples/lane4.shot with a board of 32 x 32 squares, for which its dictionary is too small
neighbours.shot   samples/lane4.shot with a minimum margin that is the next float above its margin
high.shot     samples/glare.shot with a minimum margin of 100
unsampled.shot    samples/lane4.shot with one more cell, unsampled, at the position of its last cell
uncut.shot    samples/far-wall.shot without its least weight
above.shot    samples/far-wall.shot with a least weight that is the next float above 1
short.shot    samples/far-wall.shot, which ends within its least weight
spare6.shot, spare7.shot    samples/lane4.shot with a spare bit of the map byte set
none.shot     a board of 2 x 3 squares that fits in two turns only; in one of them no cell contributes

For `restate`:

small.shot    a legacy board of 2 x 3 squares with two more codes; settings, table and cells are such that a match refuses it
least.shot    the same with a least weight
large.shot    whole.shot with a legacy board of 32 x 31 squares, 104 more codes, and a minimum margin that is not a number
odd.shot      samples/lane4.shot, of 7 rows, with the legacy flag
even.shot     a legacy board of 2 x 4 squares without cells
alike.shot    the same with two codes that are equal up to rotation

NAME.restated is what `restate` prints for NAME.shot on standard output, NAME.refused on standard error. The former is in samples/, written out here, or
made by samples/restated.py; it is NAME.shot itself if that has no legacy flag.
"""

import struct
import sys
from pathlib import Path

SAMPLES = Path(__file__).resolve().parent.parent / "samples"
sys.dont_write_bytecode = True
sys.path.insert(0, str(SAMPLES))

from fields import LEAST_WEIGHT, LEGACY, offsets, without
from restated import restated, turned


class Numbers:
    """Pseudorandom integers, the same in each run."""

    def __init__(self, seed):
        self.state = seed

    def below(self, limit):
        self.state = (self.state * 6364136223846793005 + 1442695040888963407) % 2**64
        return (self.state >> 33) % limit


def grid(code, bits, border, numbers):
    """The greys of a marker: black is near 30, white near 220."""
    side = bits + 2 * border
    greys = bytearray()
    for row in range(side):
        for column in range(side):
            x, y = column - border, row - border
            black = not (0 <= x < bits and 0 <= y < bits) or code >> (y * bits + x) & 1
            greys.append((30 if black else 220) + numbers.below(31) - 15)
    return bytes(greys)


def record(settings, bits, border, codes, cells):
    """`settings` are minimum margin, border threshold and px_per_square; a cell is u, v, fraction, threshold, grid."""
    given = sum(1 << k for k, value in enumerate(settings) if value is not None)
    out = struct.pack("<B", given)
    out += b"".join(struct.pack("<f", value) for value in settings if value is not None)
    out += struct.pack("<4B2f", 32, 32, bits, border, 0.04, 0.75)
    out += struct.pack(f"<H{len(codes)}Q", len(codes), *codes)
    out += struct.pack("<H", len(cells)) + ((1 << len(cells)) - 1).to_bytes((len(cells) + 7) // 8, "little")
    for u, v, fraction, threshold, greys in cells:
        out += struct.pack("<2hfB", u, v, fraction, threshold) + greys
    return out


def sheet(settings, bits, border, code_count, squares, turn, tx, ty, numbers):
    """A board of 32 x 32 squares of which `squares` are seen; `turn`, tx, ty map the cells to them."""
    codes = []
    while len(codes) < code_count:
        code = numbers.below(2**31) << 33 ^ numbers.below(2**31) << 11 ^ numbers.below(2**31)
        code %= 1 << bits * bits
        if code not in codes:
            codes.append(code)
    ids = {}
    for j in range(32):
        for i in range(32):
            if (i + j) % 2 == 1:
                ids[i, j] = len(ids)
    cells = []
    for i, j in squares:
        x, y = i - tx, j - ty
        u, v = [(x, y), (-y, x), (-x, -y), (y, -x)][turn]
        seen = turned(codes[ids[i, j]], bits, turn)
        cells.append((u, v, 0.5 + numbers.below(128) / 256, 120 + numbers.below(16), grid(seen, bits, border, numbers)))
    return record(settings, bits, border, codes, cells)


def half_turn():
    """2 rows, 3 columns. Markers are on (1, 0), (0, 1), (2, 1): cell (1, 0) is on one in turn 0, and on none in turn 2. The others are unsampled."""
    out = struct.pack("<5B2f", 0, 2, 3, 2, 1, 1.0, 0.5) + struct.pack("<H3Q", 3, 1, 15, 7) + struct.pack("<HB", 3, 0b010)
    out += struct.pack("<2h", 0, 0) + struct.pack("<2hfB", 1, 0, 1.0, 128) + grid(1, 2, 1, Numbers(3))
    return out + struct.pack("<2h", 2, 1)


# By `restate`; it refuses no other record here.
REFUSED = {"longer": 21, "longest": 21, "short": 21, "spare6": 21, "spare7": 21, "seven": 7, "even": 25, "alike": 22}


def small(flag, least_weight, codes):
    """Only the flag and the first three codes, those of markers, differ between the record and the record restated."""
    not_a_number, infinite = bytes.fromhex("010080FF"), bytes.fromhex("000080FF")
    out = bytes([15 + flag + (LEAST_WEIGHT if least_weight else 0)]) + not_a_number + infinite + not_a_number + 511 * not_a_number
    out += least_weight + bytes([2, 3, 2, 1]) + struct.pack("<2f", 1.0, 0.5) + struct.pack("<H5Q", 5, *codes)
    cell = struct.pack("<2h", -32768, 32767)
    return out + struct.pack("<HH", 9, 0b000000010) + cell + cell + not_a_number + bytes(range(17)) + 7 * cell


def even(codes):
    return struct.pack("<5B2f", LEGACY, 2, 4, 2, 1, 1.0, 0.5) + struct.pack("<H4QH", 4, *codes, 0)


def for_restate(out, whole, lane4):
    # bit k of a code of 2 x 2 bits is bit 3 - k of the code turned twice
    for name, least_weight in ("small", b""), ("least", bytes.fromhex("030281FF")):
        (out / f"{name}.shot").write_bytes(small(LEGACY, least_weight, [0b0001, 0b0011, 0b0111, 0b1000, 0b0001]))
        (out / f"{name}.restated").write_bytes(small(0, least_weight, [0b1110, 0b1100, 0b1000, 0b1000, 0b0001]))
    assert whole[0] == 1 and whole[5:7] == bytes([32, 32])
    large = bytes([1 + LEGACY]) + bytes.fromhex("0100A07F") + bytes([32, 31]) + whole[7:]
    (out / "large.shot").write_bytes(large)
    (out / "large.restated").write_bytes(restated(large))
    (out / "odd.shot").write_bytes(bytes([LEGACY]) + lane4[1:])
    (out / "odd.restated").write_bytes(lane4)
    (out / "even.shot").write_bytes(even([1, 3, 7, 15]))
    (out / "alike.shot").write_bytes(even([1, 3, 7, 8]))
    (out / "legacy.restated").write_bytes((SAMPLES / "legacy-restated.shot").read_bytes())
    for sheet in [*SAMPLES.glob("*.shot"), *out.glob("*.shot")]:
        data, number = sheet.read_bytes(), REFUSED.get(sheet.stem)
        (out / f"{sheet.stem}.refused").write_text(f"refused {number}\n" if number else "")
        if number or not data[0] & LEGACY:
            (out / f"{sheet.stem}.restated").write_bytes(b"" if number else data)


def main(out):
    markers = [(i, j) for j in range(32) for i in range(32) if (i + j) % 2 == 1]
    full = sheet((None, None, None), 8, 1, 512, markers[128:384], 2, -3900, -3890, Numbers(1))
    # 1 + 4 + 12 + 2 + 600 x 8 + 2 + 29 + 229 x (9 + 16 x 16) bytes
    whole = sheet((0.25, None, None), 8, 4, 600, markers[100:329], 1, 4000, -3900, Numbers(2))
    assert len(whole) == 65535
    (out / "full.shot").write_bytes(full)
    (out / "whole.shot").write_bytes(whole)
    (out / "longer.shot").write_bytes(whole + b"\0")
    (out / "longest.shot").write_bytes(whole + b"\0\0")

    (out / "none.shot").write_bytes(half_turn())

    lane4 = (SAMPLES / "lane4.shot").read_bytes()
    glare = (SAMPLES / "glare.shot").read_bytes()
    assert lane4[0] == 0 and glare[0] == 3
    (out / "seven.shot").write_bytes(lane4[:1] + b"\x20\x20" + lane4[3:])
    (out / "neighbours.shot").write_bytes(b"\x01" + struct.pack("<I", 0x3F7E9301) + lane4[1:])
    (out / "high.shot").write_bytes(glare[:1] + struct.pack("<f", 100) + glare[5:])
    # 15 cells become 16; each has 4 + 5 + 6 x 6 bytes, and the bit of the new one is clear
    count = 15 + 8 * lane4[13]
    assert lane4[count:count + 4] == b"\x0F\0\xFF\x7F" and len(lane4) == count + 4 + 15 * 45
    (out / "unsampled.shot").write_bytes(lane4[:count] + b"\x10" + lane4[count + 1:] + lane4[-45:-41])
    far_wall = (SAMPLES / "far-wall.shot").read_bytes()
    _, at, rows = offsets(far_wall[0])
    assert far_wall[0] & LEAST_WEIGHT and rows == at + 4
    (out / "uncut.shot").write_bytes(without(far_wall, LEAST_WEIGHT))
    (out / "above.shot").write_bytes(far_wall[:at] + struct.pack("<I", 0x3F800001) + far_wall[rows:])
    (out / "short.shot").write_bytes(far_wall[:rows - 1])
    for bit in 6, 7:
        (out / f"spare{bit}.shot").write_bytes(bytes([lane4[0] | 1 << bit]) + lane4[1:])
    for_restate(out, whole, lane4)


if __name__ == "__main__":
    main(Path(sys.argv[1]))
