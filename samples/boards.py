"""The boards of the sample sheets as OpenCV draws them, and their surroundings in an image.

Boards, markers and codes are OpenCV's. The script stops if a drawing differs from the layout of documents 01 and 02.
"""

import copy
import sys

try:
    import cv2
    import numpy as np
except ImportError as error:
    sys.exit(f"{error}: this needs Debian's python3 with python3-opencv")

if not hasattr(getattr(cv2, "aruco", None), "CharucoBoard_create"):
    sys.exit(f"OpenCV {cv2.__version__} has no aruco.CharucoBoard_create (Debian's 4.6.0 has)")

SQUARE_PX = 96      # width of a square in the drawing: 12 pixels per module of a 4 x 4 marker, 9 of a 6 x 6 one
MARKER_REL = 0.75
BORDER = 1
INK, PAPER, ROOM = 28.0, 205.0, 110.0


class Board:
    def __init__(self, cols, rows, dictionary, codes, legacy=False):
        self.cols, self.rows, self.legacy = cols, rows, legacy
        # markers are on the squares with i + j odd; document 02: even on a legacy board with an even row count
        self.parity = 0 if legacy and rows % 2 == 0 else 1
        self.dictionary = cv2.aruco.Dictionary_get(dictionary)
        self.bits = self.dictionary.markerSize
        self.side = self.bits + 2 * BORDER
        self.codes = [self.code(id) for id in range(codes)]

    def marker(self, id):
        """The marker as OpenCV draws it, one pixel per module; 0 is black."""
        return cv2.aruco.drawMarker(self.dictionary, id, self.side, borderBits=BORDER)

    def code(self, id):
        return read(self.marker(id))

    def drawn(self):
        """OpenCV's image of the board.

        OpenCV 4.6.0 begins every board with a black square. A board that begins with a white one is drawn with one row more,
        and the top row is cut off; the markers in it get the last ids, so that the others count from 0.
        """
        cut = 1 - self.parity
        board = cv2.aruco.CharucoBoard_create(self.cols, self.rows + cut, 1.0, MARKER_REL, self.dictionary)
        in_cut = sum(points[:, 1].max() < cut for points in board.objPoints)
        board.setIds(np.roll(board.ids, in_cut))
        picture = board.draw((self.cols * SQUARE_PX, (self.rows + cut) * SQUARE_PX), marginSize=0, borderBits=BORDER)
        return picture[cut * SQUARE_PX:]

    def squares(self, picture):
        """The squares with a marker in an image of the board, in row-major order, and the modules seen there; the others must be plain."""
        rim = round(SQUARE_PX * (1 - MARKER_REL) / 2)
        module = (SQUARE_PX - 2 * rim) // self.side
        for j in range(self.rows):
            for i in range(self.cols):
                square = picture[j * SQUARE_PX:(j + 1) * SQUARE_PX, i * SQUARE_PX:(i + 1) * SQUARE_PX]
                if (i + j) % 2 != self.parity:
                    assert (square == 0).all(), f"square ({i}, {j}) should be plain"
                    continue
                assert (square[0] == 255).all(), f"square ({i}, {j}) should have a white rim"
                yield (i, j), square[rim:-rim, rim:-rim][module // 2::module, module // 2::module]

    def drawing(self):
        """The image, compared module by module with the layout of documents 01 and 02."""
        picture = self.drawn()
        for id, (square, seen) in enumerate(self.squares(picture)):
            assert (seen == self.marker(id)).all(), f"square {square} should hold marker {id}"
        return picture

    def restated(self):
        """This legacy board as a current one: rotated by 180 degrees, with the codes read off its image. Codes without a marker stay."""
        board = copy.copy(self)
        board.legacy, board.parity = False, 1
        codes = [read(seen) for _, seen in board.squares(np.rot90(self.drawing(), 2))]
        board.codes = codes + self.codes[len(codes):]
        return board


def read(modules):
    """The code of a marker, of which each module is one pixel."""
    inner = modules[BORDER:-BORDER, BORDER:-BORDER]
    return sum(1 << k for k, grey in enumerate(inner.flatten()) if grey == 0)


LANE = Board(5, 7, cv2.aruco.DICT_4X4_50, 50)
OTHER = Board(5, 7, cv2.aruco.DICT_5X5_50, 50)
WALL = Board(12, 9, cv2.aruco.DICT_6X6_100, 100)
FAR_WALL = Board(12, 9, cv2.aruco.DICT_4X4_100, 100)
OLD = Board(7, 6, cv2.aruco.DICT_4X4_50, 50, legacy=True)


def printed(board):
    """The board on its paper, surrounded by half a square of paper and half a square of room."""
    greys = np.where(board.drawing() == 0, INK, PAPER)
    sheet = cv2.copyMakeBorder(greys, *[SQUARE_PX // 2] * 4, cv2.BORDER_CONSTANT, value=PAPER)
    return cv2.copyMakeBorder(sheet, *[SQUARE_PX // 2] * 4, cv2.BORDER_CONSTANT, value=ROOM)


def tiles(board):
    """A wall of white tiles in place of the board."""
    wall = np.full(((board.rows + 2) * SQUARE_PX, (board.cols + 2) * SQUARE_PX), PAPER)
    for k in range(0, max(wall.shape), SQUARE_PX):
        wall[max(k - 2, 0):k + 2, :] = 150.0
        wall[:, max(k - 2, 0):k + 2] = 150.0
    return wall
