"""The layout of a ChArUco board as OpenCV's data have it, and its digests.

None of the layout rules are written down here, only what is digested: the
comment at the top of crates/replay/stdin has that.

A board can also be what is left of an OpenCV board when its top row is cut off.
`size` is that of the board in question, `cut` the number of rows cut off, 0 or 1:
OpenCV's board has that many rows more.
"""

import sys

try:
    import cv2
    import numpy as np
except ImportError as error:
    sys.exit(f"{error}: this needs Debian's python3 with python3-opencv")

if not hasattr(getattr(cv2, "aruco", None), "CharucoBoard_create"):
    sys.exit(f"OpenCV {cv2.__version__} has no aruco.CharucoBoard_create (Debian's 4.6.0 has)")

# A 32 x 32 board holds 512 markers; this dictionary has enough of them.
DICTIONARY = cv2.aruco.Dictionary_get(cv2.aruco.DICT_4X4_1000)


# --------------------------------------------------------------------- digests

# No board has as many markers or corners, so unknown ids are covered too.
IDS = range(1025)
NO_ID = (0xFFFFFFFF, 0xFFFFFFFF)
NO_POINT = (0x7FC00000, 0x7FC00000)


def digest(numbers):
    h = 0
    for x in numbers:
        h = (h * 65599 + x) % 4294967291
    return h


def halves(number):
    """A number of 64 bits as its low and its high 32, all ones if there is none."""
    return NO_ID if number is None else (number & 0xFFFFFFFF, number >> 32)


def frame(size):
    """The places that are digested: those of the board, and beside it."""
    rows, cols = size
    return [(i, j) for j in range(-1, rows + 2) for i in range(-1, cols + 2)]


def bits_of_points(points):
    """The bits of x and y of each point."""
    return np.ascontiguousarray(points[:, :2], np.float32).view(np.uint32).tolist()


class Layout:
    """Where the markers and the corners of a board are, by one of two sources.

    What does not have the expected shape at all is noted in `faults`.
    """

    def __init__(self, size, cut):
        self.size = size
        self.cut = cut
        self.faults = []

    def count_anew(self, name, pairs, gone):
        """(id, anything) with ids from 0 again, where `gone` ids went with the top row.

        OpenCV numbers markers and corners row by row from the top: the ids that
        went are the lowest, and taking their number off the others leaves those
        in OpenCV's own order, without a gap. That the lowest went is inspected.
        """
        if min((number for number, _ in pairs), default=gone) != gone:
            self.faults.append(f"the {name} ids that were cut off are not the {gone} lowest")
        return [(number - gone, rest) for number, rest in pairs]

    def take(self, markers, corners, around):
        """Markers with their squares and corners with their places, each as a list
        of (id, (i, j)), and the four corner ids around each marker off the rim."""
        self.marker_count = len(markers)
        self.square_of, marker_at = self.both_ways("marker", markers)
        self.place_of, corner_at = self.both_ways("corner", corners)
        self.around = around
        self.d1 = digest(x for place in frame(self.size) for ids in (marker_at, corner_at)
                         for x in halves(ids.get(place)))

    def both_ways(self, name, pairs):
        """Place by id and id by place; each must be there once, and be digested."""
        place_of, at = dict(pairs), {place: number for number, place in pairs}
        if len(place_of) != len(pairs) or len(at) != len(pairs):
            self.faults.append(f"a {name}'s id or place is there twice")
        if not set(place_of) <= set(IDS) or not set(at) <= set(frame(self.size)):
            self.faults.append(f"a {name}'s id or place is beyond what is digested")
        return place_of, at

    def d2(self, points):
        """`points` are OpenCV's for the corners 0, 1, ...; only a corner that this
        source has too has a point."""
        bits = dict(enumerate(bits_of_points(points)))

        def numbers():
            for number in IDS:
                for places in (self.square_of, self.place_of):
                    i, j = places.get(number, (None, None))
                    yield from halves(None if i is None else j * 65536 + i)
                yield from bits.get(number, NO_POINT) if number in self.place_of else NO_POINT
                for corner in self.around.get(number, (None,) * 4):
                    yield from halves(corner)

        return digest(numbers())

    def same_as(self, other):
        return all(getattr(self, name) == getattr(other, name)
                   for name in ("marker_count", "square_of", "place_of", "around"))


# ------------------------------------------------------- what OpenCV's data say

def make_board(size, square, marker):
    """OpenCV's board, or None where OpenCV does not take the numbers.

    OpenCV would take a board with more markers than the dictionary has, but it
    could not draw it.
    """
    rows, cols = size
    if (rows * cols + 1) // 2 > len(DICTIONARY.bytesList):
        return None
    try:
        return cv2.aruco.CharucoBoard_create(cols, rows, square, marker, DICTIONARY)
    except cv2.error:
        return None


def cut_board(size, cut, square, marker):
    """OpenCV's board whose `cut` top rows are to be cut off, or None."""
    rows, cols = size
    return make_board((rows + cut, cols), square, marker)


class Data(Layout):
    """The layout in OpenCV's data, for squares of length 1 and markers of 1/2.

    With these lengths every coordinate is a multiple of 1/4, hence exact in f32,
    also when it is counted from the cut.
    """

    def __init__(self, size, cut):
        super().__init__(size, cut)
        board = cut_board(size, cut, 1.0, 0.5)
        self.same_size = make_board(size, 1.0, 0.5)
        # A corner on the line of the cut is on the rim, no inner corner any more.
        squares, markers_gone = self.below("marker", self.find_squares(board), cut)
        corners, corners_gone = self.below("corner", self.find_corners(board), cut + 1)
        # Object points are taken from OpenCV's board of the same size.
        if corners != self.find_corners(self.same_size):
            self.faults.append("the corners are not those of OpenCV's board of the same size")
        self.take(squares, corners, self.find_around(board, markers_gone, corners_gone))

    def below(self, name, pairs, top):
        """What is in row `top` and below, with ids and rows counted from the cut,
        and how many ids are above."""
        left = [(number, (i, j - self.cut)) for number, (i, j) in pairs if j >= top]
        gone = len(pairs) - len(left)
        return self.count_anew(name, left, gone), gone

    def find_squares(self, board):
        """The square of each marker: the one in whose middle its four points lie.

        The points must run clockwise from the top left with y downward; if y
        were upward here, this would fail.
        """
        squares = []
        for marker, points in zip(board.ids.ravel().tolist(), board.objPoints):
            i, j = (int(x) for x in np.floor(points[0, :2]))
            square = [(i + x, j + y, 0.0) for x, y in
                      ((0.25, 0.25), (0.75, 0.25), (0.75, 0.75), (0.25, 0.75))]
            if points.tolist() != [list(point) for point in square]:
                self.faults.append(f"marker {marker} lies at {points.tolist()}")
            squares.append((marker, (i, j)))
        return squares

    def find_corners(self, board):
        """The board corner of each id: a corner's id is its place in OpenCV's list."""
        corners = []
        for corner, (x, y, z) in enumerate(board.chessboardCorners.tolist()):
            if (x, y, z) != (int(x), int(y), 0.0):
                self.faults.append(f"corner {corner} lies at {(x, y, z)}")
            corners.append((corner, (int(x), int(y))))
        return corners

    def find_around(self, board, markers_gone, corners_gone):
        """The inner corners around each marker, by OpenCV's nearest markers.

        For each inner corner OpenCV lists the markers nearest to it, and which
        of the marker's corners (0 top left, then clockwise) looks at it. Turned
        round, this gives each marker's inner corners; off the rim it has four.
        Ids are counted from the cut: the markers and corners above it have those
        below 0. Such a corner is skipped, and no other corner may be nearest
        to such a marker.
        """
        ids = (board.ids.ravel() - markers_gone).tolist()
        found = {}
        for corner, (markers, looking) in enumerate(
                zip(board.nearestMarkerIdx, board.nearestMarkerCorners), -corners_gone):
            if len(markers) != 2 or len(looking) != 2:
                self.faults.append(f"corner {corner} has nearest markers {markers.tolist()}")
            if corner < 0:
                continue
            for index, k in zip(markers.tolist(), looking.tolist()):
                marker = ids[index]
                if marker < 0:
                    self.faults.append(f"corner {corner} is nearest to a marker that was cut off")
                if (marker, k) in found:
                    self.faults.append(f"corner {k} of marker {marker} is nearest twice")
                found[marker, k] = corner
        around = {}
        for marker in ids:
            corners = [found.get((marker, k)) for k in range(4)]
            if None not in corners:
                around[marker] = corners
        return around
