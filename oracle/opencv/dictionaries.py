"""Give the program place boards with OpenCV's dictionaries: no two of their codes are equal up to rotation.

usage: python3 dictionaries.py

Document 02, 2.2: a board is refused by 22 if two of its markers are equal after some
number of rotations by 90°. For each predefined dictionary of 4 x 4 to 7 x 7 bits the board
with the most markers up to 32 x 32 squares is written into a record whose one cell
shows the last marker, and place must find that marker. Then a code is replaced by another
one, rotated: among the codes of markers place must refuse the board by 22, past the
last marker it must find the marker as before.

The program is the one that PLACE_BIN names, else ../../target/bin/place, seen from this
file. Exit status 0: all is so. 1: something is not.
"""

import os
import struct
import subprocess
import sys
from pathlib import Path

sys.dont_write_bytecode = True  # no __pycache__ beside the sources

HERE = Path(__file__).resolve().parent
sys.path.insert(0, str(HERE / "../../samples"))

from boards import BORDER, Board, cv2, np

PLACE = os.environ.get("PLACE_BIN", HERE / "../../target/bin/place")

SIDES = range(4, 8)
MOST_SQUARES = 32
MOST_CODES = 1024
MOST_SHOWN = 5


def dictionaries():
    """Name and OpenCV's number of each. Some have two names."""
    by_number = {}
    for name in sorted(name for name in dir(cv2.aruco) if name.startswith("DICT_")):
        by_number.setdefault(getattr(cv2.aruco, name), name)
    return [(name, number) for number, name in sorted(by_number.items())
            if cv2.aruco.Dictionary_get(number).markerSize in SIDES]


def largest_board(codes):
    """Rows and columns with as many markers as there are codes for; of several the one nearest to a square."""
    sides = range(2, MOST_SQUARES + 1)
    sizes = [(rows, cols) for rows in sides for cols in sides if rows * cols // 2 <= codes]
    return max(sizes, key=lambda size: (size[0] * size[1] // 2, min(size), size))


def code_of(drawing):
    """Bit k is set where module k within the border, row by row, is black."""
    inner = drawing[BORDER:-BORDER, BORDER:-BORDER]
    return sum(1 << k for k, grey in enumerate(inner.flatten()) if grey == 0)


class Sheet:
    """A board, and its record with one cell."""

    def __init__(self, number):
        count = len(cv2.aruco.Dictionary_get(number).bytesList)
        rows, cols = largest_board(count)
        self.board = Board(cols, rows, number, min(count, MOST_CODES))
        self.count = count
        self.codes = self.board.codes
        self.markers = rows * cols // 2

    def turned(self, id, turn):
        """The code of a marker after rotations by 90°."""
        return code_of(np.rot90(self.board.marker(id), turn))

    def record(self, codes):
        """By document 01: bit 0 of the map byte gives the minimum margin, which is 0. The cell shows the last marker."""
        board = self.board
        grid = board.marker(self.markers - 1)
        return b"".join([
            struct.pack("<Bf", 1, 0.0),
            struct.pack("<4B2f", board.rows, board.cols, board.bits, BORDER, 1.0, 0.75),
            struct.pack(f"<H{len(codes)}Q", len(codes), *codes),
            struct.pack("<HB2hfB", 1, 1, 0, 0, 1.0, 128),
            grid.tobytes(),
        ])

    def printed(self, codes):
        ran = subprocess.run([PLACE], input=self.record(codes), stdout=subprocess.PIPE, check=True)
        return ran.stdout.decode().splitlines()

    def is_found(self, codes):
        """Is the board placed by its last marker, upright?"""
        lines = self.printed(codes)
        marker = f"marker 0 {self.markers - 1} 0 0 0 0 {codes[self.markers - 1]:016X} "
        return lines[0] == "placed" and lines[-1].startswith(marker)

    def is_refused(self, codes):
        return self.printed(codes) == ["refused 22"]

    def with_turned(self, of, place, turn):
        codes = list(self.codes)
        codes[place] = self.turned(of, turn)
        return codes

    def pairs(self):
        """Of markers: the first and the last, the first two, two in the middle, the last two."""
        last = self.markers - 1
        return [(0, last), (last, 0), (0, 1), (last // 2, last // 2 + 1), (last - 1, last)]


def check(name, number):
    """What is wrong with the boards of a dictionary."""
    sheet = Sheet(number)
    rows, cols = sheet.board.rows, sheet.board.cols
    wrong = []
    if not sheet.is_found(sheet.codes):
        wrong.append(f"{name}: {sheet.printed(sheet.codes)}")
    refused = beside = 0
    for turn in range(4):
        for of, place in sheet.pairs():
            refused += 1
            codes = sheet.with_turned(of, place, turn)
            if not sheet.is_refused(codes):
                wrong.append(f"{name}, {place} is {of} turned {turn} times: {sheet.printed(codes)}")
        if sheet.markers < len(sheet.codes):
            beside += 1
            codes = sheet.with_turned(0, sheet.markers, turn)
            if not sheet.is_found(codes):
                wrong.append(f"{name}, past the last marker is 0 turned {turn} times: {sheet.printed(codes)}")
    print(f"{name}: {sheet.count} codes, {rows} x {cols} squares with {sheet.markers} markers; "
          f"{refused} with two equal codes, {beside} with one past the last, {len(wrong)} wrong")
    return wrong


def main():
    if len(sys.argv) > 1:
        sys.exit(__doc__)
    print(f"OpenCV {cv2.__version__}")
    wrong = []
    names = dictionaries()
    for name, number in names:
        wrong += check(name, number)
    for line in wrong[:MOST_SHOWN]:
        print(f"    {line}")
    print(f"{len(names)} dictionaries, {len(wrong)} wrong")
    sys.exit(1 if wrong or not names else 0)


if __name__ == "__main__":
    main()
