"""Compare the stored board layouts with OpenCV's ChArUco board.

usage: python3 compare_layout.py [stored answers]

The stored answers (default: ../../crates/replay/stdin, seen from this file)
have, in the lines of kind 11 and for legacy boards of kind 111, the number of
markers of a board and two digests of its whole layout; the comment at the top of
that file defines them. This script computes the same digests from OpenCV's data
of the board, and a second time from the picture that OpenCV draws of it. Every
marker square, corner id and object point comes from OpenCV; the one layout rule
that is written down here is which boards begin with a white square
(`Line.begins_white`).

Exit status 0: every size from 2 x 2 to 32 x 32 was compared in both kinds, and
all agrees. 1: something differs, or a size was not compared.
"""

import functools
import sys
from pathlib import Path

sys.dont_write_bytecode = True  # no __pycache__ beside the sources

from opencv_layout import Data, cut_board, cv2, make_board, np
from opencv_picture import Picture

DEFAULT_PATH = Path(__file__).resolve().parent / "../../crates/replay/stdin"

SIZES = {(rows, cols) for rows in range(2, 33) for cols in range(2, 33)}

KINDS = {"11": "boards without the legacy flag", "111": "legacy boards"}
LEGACY = "111"

ANSWERS = ("marker count", "D1", "D2")
SUBJECTS = {
    "marker count": "marker count",
    "D1": "D1 marker and corner at each place",
    "D2": "D2 places, points, four corners by id",
    "D2 multiplied": "D2 with points multiplied here",
}


# ---------------------------------------------------------------- stored lines

class Line:
    """A line of kind 11 or 111: a board size, a cell size, and the stored answers."""

    def __init__(self, number, words):
        self.number, self.kind = number, words[0]
        if len(words) != 9:
            raise ValueError(f"line {number}: kind {self.kind} has 9 words, not {len(words)}")
        values = [int(word, 16) for word in words]
        if values[4] or values[8]:
            raise ValueError(f"line {number}: kind {self.kind} has 0 before the answers and behind them")
        self.rows, self.cols, cell_bits = values[1:4]
        if cell_bits >> 32:
            raise ValueError(f"line {number}: the cell size has more than 32 bits")
        self.cell_size = np.array([cell_bits], np.uint32).view(np.float32)[0]
        self.stored = dict(zip(ANSWERS, values[5:8]))

    @property
    def size(self):
        return self.rows, self.cols

    @property
    def begins_white(self):
        """OpenCV's documentation of setLegacyPattern: "Legacy setting creates chessboard
        patterns starting with a white box in the upper left corner if there is an
        even row count of chessboard boxes, otherwise it starts with a black box." """
        return self.kind == LEGACY and self.rows % 2 == 0

    @property
    def cut(self):
        """How many rows of OpenCV's board are cut off to have the line's board.

        OpenCV 4.6.0 begins every board with a black square, so the row below begins
        with a white one: from there on the board of one row more is the legacy board.
        """
        return 1 if self.begins_white else 0

    def __str__(self):
        return (f"line {self.number} ({self.rows} rows x {self.cols} columns, "
                f"cell size {self.cell_size!s})")


def read_lines(path):
    with open(path, encoding="ascii") as stored:
        rows = [(number, text.split()) for number, text in enumerate(stored, 1)]
    return [Line(number, words) for number, words in rows if words and words[0] in KINDS]


# ------------------------------------------------------------------ the comparison

@functools.cache
def look_at(size, cut):
    """OpenCV's data and picture of a board, or None where OpenCV does not take it."""
    if cut_board(size, cut, 1.0, 0.5) is None:
        return None
    return Data(size, cut), Picture(size, cut)


def object_points(line, data):
    """The object points for the line's cell size, and the board they come from.

    That board has the line's own rows also where a row is cut off: corner ids and
    points do not depend on the markers, and points of one row more, moved up by a
    square, would be rounded otherwise.

    OpenCV wants a marker that is smaller than the square but not 0, which the
    least f32 above 0 does not leave room for. There the whole-number points are
    multiplied here, in f32, and there is no board to return.
    """
    cell = line.cell_size
    board = make_board(line.size, float(cell), float(np.float32(cell * np.float32(0.5))))
    if board is not None:
        return board.chessboardCorners, board
    with np.errstate(over="ignore"):
        return data.same_size.chessboardCorners * cell, None


def same_nearest(board, other):
    """Whether two boards list the same nearest markers for each inner corner."""
    return all(a.tolist() == b.tolist()
               for name in ("nearestMarkerIdx", "nearestMarkerCorners")
               for a, b in zip(getattr(board, name), getattr(other, name)))


class Tally:
    """What was compared on one subject, and what differed."""

    SHOWN = 3

    def __init__(self, subject):
        self.subject = subject
        self.compared = 0
        self.differences = []

    def compare(self, where, stored, found):
        self.compared += 1
        if stored != found:
            self.differences.append(f"{where}: stored {stored:X}, OpenCV {found:X}")

    def inspect(self, where, faults):
        self.compared += 1
        if faults:
            self.differences.append(f"{where}: {faults[0]} ({len(faults)} such)")

    def print(self):
        print(f"{self.subject:48} {self.compared:6} compared {len(self.differences):6} different")
        for text in self.differences[:self.SHOWN]:
            print(f"    {text}")
        if len(self.differences) > self.SHOWN:
            print(f"    ... and {len(self.differences) - self.SHOWN} more")


class Comparison:
    """The lines of one kind."""

    def __init__(self, kind):
        self.kind = kind
        self.data = {name: Tally("data: " + text) for name, text in SUBJECTS.items()}
        self.picture = {name: Tally("picture: " + text) for name, text in SUBJECTS.items()}
        self.data_shape = Tally("data: sizes of the expected shape")
        self.picture_shape = Tally("picture: sizes of the expected shape")
        self.both = Tally("picture: sizes that show the data's layout")
        self.white = Tally("picture: top left white where documented")
        self.compared = {}       # the lines, by size
        self.refused = []        # lines whose size OpenCV does not take
        self.own_nearest = []    # cell sizes with the nearest markers of square length 1
        self.other_nearest = []  # cell sizes with others

    def add(self, line):
        known = look_at(line.size, line.cut)
        if known is None:
            self.refused.append(line)
            return
        data, picture = known
        if line.size not in self.compared:
            self.inspect(line, data, picture)
        self.compared[line.size] = line
        points, board = object_points(line, data)
        for tallies, source in ((self.data, data), (self.picture, picture)):
            tallies["marker count"].compare(line, line.stored["marker count"], source.marker_count)
            tallies["D1"].compare(line, line.stored["D1"], source.d1)
            tally = tallies["D2" if board is not None else "D2 multiplied"]
            tally.compare(line, line.stored["D2"], source.d2(points))
        if board is not None:
            same = same_nearest(board, data.same_size)
            (self.own_nearest if same else self.other_nearest).append(line.cell_size)

    def inspect(self, line, data, picture):
        """What does not depend on the stored answers, once for each size."""
        self.data_shape.inspect(line, data.faults)
        self.picture_shape.inspect(line, picture.faults)
        self.both.inspect(line, [] if picture.same_as(data) else ["another layout"])
        as_documented = picture.top_left_light == line.begins_white
        self.white.inspect(line, [] if as_documented else ["another top left square"])

    def missing(self):
        """The sizes from 2 x 2 to 32 x 32 that were not compared."""
        return SIZES - set(self.compared)

    def tallies(self):
        return [self.data_shape, *self.data.values(),
                self.picture_shape, self.both, self.white, *self.picture.values()]

    def print(self):
        print(f"{KINDS[self.kind]} (kind {self.kind})")
        for tally in self.tallies():
            tally.print()
        self.print_cuts()
        self.print_nearest()
        self.print_coverage()

    def print_cuts(self):
        """How the sizes were compared, and which top left square was seen."""
        for parity, name in enumerate(("even", "odd")):
            lines = [line for line in self.compared.values() if line.rows % 2 == parity]
            white = sum(look_at(line.size, line.cut)[1].top_left_light for line in lines)
            cut = sum(line.cut for line in lines)
            print(f"note: {name} number of rows: {len(lines) - cut} sizes compared with OpenCV's board "
                  f"of that size, {cut} with its board of one row more, the top row cut off; "
                  f"the top left square is white in {white}")

    def print_nearest(self):
        """The four corners are read at square length 1; print where that choice matters.

        For very small squares OpenCV lists every marker as nearest, for very
        large ones a single marker: as if squared distances in f32 had come out
        as 0 and as infinity.
        """
        small = [cell for cell in self.other_nearest if cell < 1]
        large = [cell for cell in self.other_nearest if cell >= 1]
        print(f"note: nearest markers at the line's own cell size: as at 1.0 in "
              f"{len(self.own_nearest)} lines{span(self.own_nearest)}, not so in "
              f"{len(small)} lines with small squares{span(small)} "
              f"and {len(large)} with large{span(large)}")

    def print_coverage(self):
        print(f"note: {len(SIZES - self.missing())} of the {len(SIZES)} sizes from 2 x 2 to 32 x 32 "
              f"compared, and {len(set(self.compared) - SIZES)} others; "
              f"{len(self.refused)} lines not compared, their size is not taken")
        for line in self.refused[:Tally.SHOWN]:
            print(f"    {line}")


def span(cell_sizes):
    return f" ({min(cell_sizes):.3g} to {max(cell_sizes):.3g})" if cell_sizes else ""


def main():
    if len(sys.argv) > 2:
        sys.exit(__doc__)
    path = sys.argv[1] if len(sys.argv) == 2 else DEFAULT_PATH
    try:
        lines = read_lines(path)
    except (OSError, ValueError) as error:
        sys.exit(str(error))
    comparisons = {kind: Comparison(kind) for kind in KINDS}
    for line in lines:
        comparisons[line.kind].add(line)
    print(f"OpenCV {cv2.__version__}; {len(lines)} stored layouts")
    for comparison in comparisons.values():
        comparison.print()
    if any(tally.differences for comparison in comparisons.values() for tally in comparison.tallies()):
        sys.exit("OpenCV and the stored answers differ")
    missing = {kind: len(comparison.missing()) for kind, comparison in comparisons.items()}
    if any(missing.values()):
        sys.exit("sizes from 2 x 2 to 32 x 32 that were not compared: "
                 + ", ".join(f"{count} of kind {kind}" for kind, count in missing.items()))


if __name__ == "__main__":
    main()
