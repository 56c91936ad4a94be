"""Draw ChArUco boards with OpenCV, render images of them as a camera would take them, sample these and write shot records.

usage: python3 make_samples.py [--full] [directory]

Writes the sheets to the given directory, or to that of this file, each with a small image, and `truth.tsv`: the true
placement of each sheet. Two sheets are others with a cell recorded twice or with the board restated, without an image of
their own. With --full it also writes the images that were sampled, as NAME-full.png. All noise comes from fixed seeds, so
a second run writes the same bytes. Nothing here comes from the library: boards, markers and codes are OpenCV's, the record
is written from documents 01 and 02.
"""

import copy
import math
import struct
import sys
from fractions import Fraction
from pathlib import Path
from typing import NamedTuple

sys.dont_write_bytecode = True  # no __pycache__ beside the sources

from boards import (BORDER, FAR_WALL, LANE, MARKER_REL, OLD, OTHER, ROOM, SQUARE_PX, WALL,
                    Board, cv2, np, printed, tiles)

WIDTH, HEIGHT = 640, 480        # of the image
RIM_PX = 10                     # a cell with a corner nearer to the image's edge is not sampled

# Rotations by 90 degrees x turn, as in document 01: matrices that are applied to (u, v)
TURNS = [((1, 0), (0, 1)), ((0, 1), (-1, 0)), ((-1, 0), (0, -1)), ((0, -1), (1, 0))]


# ---------------------------------------------------------------- an image

class View(NamedTuple):
    """Position of the board in the image."""
    turn: int       # rotation from the image's grid to the board's, 0 to 3
    quad: list      # the grid's corners top left, top right, bottom right, bottom left in the image, in pixels
    origin: tuple   # the corner finder's coordinates of the grid's top left corner


class Light(NamedTuple):
    """Image quality."""
    glare: tuple = None     # position and radius of a bright spot, in pixels
    haze: float = None      # contrast left by haze
    blur: float = 1.1       # standard deviation in pixels


class Asked(NamedTuple):
    """Board and settings of the record; None is left out of it."""
    board: Board
    minimum: float = None
    border_threshold: float = None
    px_per_square: float = None
    table: list = None
    least_weight: float = None


class Shot:
    """A rendered image of a board."""

    def __init__(self, name, seed, board, view, light=Light(), asked=None, drawn=printed):
        self.name, self.board, self.turn, self.origin = name, board, view.turn, view.origin
        self.asked = asked or Asked(board)
        self.noise = np.random.RandomState(seed)
        self.is_board = drawn is printed and self.asked.board is board
        size = (board.cols, board.rows) if self.turn % 2 == 0 else (board.rows, board.cols)
        self.width, self.height = size
        # grid corner of the image -> board corner: rotated, then moved so that all corners are on the board
        matrix = np.array(TURNS[self.turn])
        rectangle = np.array([(0, 0), (self.width, 0), (self.width, self.height), (0, self.height)])
        self.to_board = lambda point: matrix @ np.array(point) - (rectangle @ matrix.T).min(axis=0)
        self.view = cv2.getPerspectiveTransform(rectangle.astype(np.float32), np.array(view.quad, np.float32))
        self.picture = self.taken(drawn(board), rectangle, view.quad, light)

    def taken(self, scene, rectangle, quad, light):
        on_scene = [(self.to_board(corner) + 1) * SQUARE_PX for corner in rectangle]
        lens = cv2.getPerspectiveTransform(np.array(on_scene, np.float32), np.array(quad, np.float32))
        # rendered four times as large and averaged, so that edges are antialiased
        fine = np.diag([4.0, 4.0, 1.0]) @ lens
        large = cv2.warpPerspective(scene, fine, (4 * WIDTH, 4 * HEIGHT), flags=cv2.INTER_LINEAR, borderValue=ROOM)
        picture = large.reshape(HEIGHT, 4, WIDTH, 4).mean(axis=(1, 3))
        y, x = np.mgrid[0:HEIGHT, 0:WIDTH]
        picture = picture * (1.05 - 0.35 * x / WIDTH - 0.15 * y / HEIGHT)
        if light.glare:
            gx, gy, radius = light.glare
            picture = picture + 420.0 * np.exp(-((x - gx) ** 2 + (y - gy) ** 2) / (2.0 * radius ** 2))
        if light.haze:
            picture = ROOM + light.haze * (picture - ROOM)
        picture = cv2.GaussianBlur(picture, (0, 0), light.blur)
        picture = picture + self.noise.normal(0.0, 4.0, picture.shape)
        return np.clip(np.rint(picture), 0, 255).astype(np.uint8)

    def corners(self):
        """Grid corner -> its position in the image as a corner finder returns it: inner corners in view, with a small error."""
        found = {}
        for b in range(self.height + 1):
            for a in range(self.width + 1):
                i, j = self.to_board((a, b))
                x, y, w = self.view @ (a, b, 1.0)
                place = np.array([x, y]) / w + self.noise.normal(0.0, 0.3, 2)
                inner = 1 <= i < self.board.cols and 1 <= j < self.board.rows
                if inner and 0 <= place[0] < WIDTH and 0 <= place[1] < HEIGHT:
                    found[a, b] = place
        return found

    def cells(self):
        """The complete cells in row-major order: grid point, board square, samples or None."""
        found = self.corners()
        cells = []
        for b in range(self.height):
            for a in range(self.width):
                four = [found.get(corner) for corner in ((a, b), (a + 1, b), (a + 1, b + 1), (a, b + 1))]
                if any(corner is None for corner in four):
                    continue
                square = np.minimum(self.to_board((a, b)), self.to_board((a + 1, b + 1)))
                cells.append(((a + self.origin[0], b + self.origin[1]), tuple(square), self.sample(np.array(four))))
        return cells

    def sample(self, four):
        """Fraction, threshold and grid of the marker in the middle of a cell; None if it cannot be sampled."""
        near = np.concatenate([four.min(axis=0), (WIDTH - 1, HEIGHT - 1) - four.max(axis=0)])
        if near.min() < RIM_PX:
            return None
        side = self.asked.board.side
        unit = np.array([(0, 0), (1, 0), (1, 1), (0, 1)], np.float32)
        view = cv2.getPerspectiveTransform(unit, four.astype(np.float32))
        # 5 x 5 points in the middle of each module
        steps = (np.arange(side)[:, None] + np.linspace(0.25, 0.75, 5)[None, :]).flatten() / side
        line = (1 - MARKER_REL) / 2 + MARKER_REL * steps
        x, y = np.meshgrid(line, line)
        at = view @ np.stack([x.flatten(), y.flatten(), np.ones(x.size)])
        greys = self.bilinear(at[0] / at[2], at[1] / at[2]).reshape(side, 5, side, 5).mean(axis=(1, 3))
        grid = np.rint(greys).astype(int)
        if (grid == 255).sum() * 2 > grid.size:
            return None
        threshold = otsu(grid.flatten())
        border = np.ones((side, side), bool)
        border[BORDER:-BORDER, BORDER:-BORDER] = False
        fraction = (grid[border] < threshold).sum() / border.sum()
        return fraction, threshold, bytes(int(grey) for grey in grid.flatten())

    def bilinear(self, x, y):
        left, top = np.floor(x).astype(int), np.floor(y).astype(int)
        right, down = x - left, y - top
        p = self.picture.astype(float)
        return ((p[top, left] * (1 - right) + p[top, left + 1] * right) * (1 - down)
                + (p[top + 1, left] * (1 - right) + p[top + 1, left + 1] * right) * down)


def otsu(greys):
    """Otsu's threshold t: the greatest variance between greys below t and the others; of several the middle one."""
    greys = [int(grey) for grey in greys]
    best, chosen = 0, [min(greys)]
    for t in range(min(greys) + 1, max(greys) + 1):
        dark = [grey for grey in greys if grey < t]
        n0, n1 = len(dark), len(greys) - len(dark)
        # exact between-class variance, times the square of the number of greys
        variance = Fraction((sum(dark) * len(greys) - sum(greys) * n0) ** 2, n0 * n1)
        if variance > best:
            best, chosen = variance, [t]
        elif variance == best:
            chosen.append(t)
    return chosen[len(chosen) // 2]


# ---------------------------------------------------------------- records

def likelihood_table(slope, floor):
    """Document 01's formula, rounded to f32 after each operation; exp and ln are rounded from doubles."""
    f32 = np.float32
    entries = []
    for d in range(-255, 256):
        x = f32(slope) / f32(255) * f32(d)
        ln = f32(math.log(f32(1) + f32(math.exp(-abs(x)))))
        entries.append(max(-ln if x >= 0 else x - ln, f32(floor)))
    return entries


def record(asked, cells):
    """The shot record of document 01, with the legacy flag and the least weight of document 02."""
    board, *settings, table, least_weight = asked
    given = [*(value is not None for value in (*settings, table)), board.legacy, least_weight is not None]
    out = bytes([sum(1 << k for k in range(6) if given[k])])
    out += b"".join(struct.pack("<f", value) for value in settings if value is not None)
    out += struct.pack("<511f", *table) if table else b""
    out += struct.pack("<f", least_weight) if least_weight is not None else b""
    out += bytes([board.rows, board.cols, board.bits, BORDER])
    out += struct.pack("<ff", 0.04, MARKER_REL)
    out += struct.pack("<H", len(board.codes)) + b"".join(struct.pack("<Q", code) for code in board.codes)
    out += struct.pack("<H", len(cells))
    cell_map = sum(1 << k for k, (_, _, samples) in enumerate(cells) if samples is not None)
    out += cell_map.to_bytes((len(cells) + 7) // 8, "little")
    for (u, v), _, samples in cells:
        out += struct.pack("<hh", u, v)
        if samples is not None:
            fraction, threshold, grid = samples
            out += struct.pack("<fB", fraction, threshold) + grid
    return out


def truth(shot, cells):
    """Turn and translation that map every cell to the square on which it was drawn."""
    shifts = set()
    for point, square, _ in cells:
        u, v = np.array(TURNS[shot.turn]) @ point
        shifts.add((square[0] - u, square[1] - v))
    assert len(shifts) == 1, f"{shot.name}: {shifts}"
    return shot.turn, *shifts.pop()


def restated(shot, cells):
    """The same image and cells, recorded with the legacy board rotated by 180 degrees, which is a current board (document 02, 2.7)."""
    board = shot.board.restated()
    other = copy.copy(shot)
    other.board, other.asked, other.turn = board, shot.asked._replace(board=board), (shot.turn + 2) % 4
    return other, [(point, (board.cols - 1 - i, board.rows - 1 - j), samples) for point, (i, j), samples in cells]


# A sheet that repeats a cell of another one as its last cell: its name, the other sheet, and the index of the cell.
REPEATED, SOURCE, CELL = "repeated", "narrow", 7

# A sheet that is another one restated: its name and the other sheet.
RESTATED, LEGACY_SHEET = "legacy-restated", "legacy"

# The study's sheets are not made here. Their truth was found from the study's images (README.md).
STUDY = ["glare-two-squares\t0\t-33\t21\twrong\n",
         "splash-one-cell\t2\t-12\t44\twrong\n"]

UPRIGHT = View(0, [(196, 34), (459, 52), (478, 440), (169, 425)], (-1, -1))

SHOTS = [
    lambda: Shot("lane4", 4, LANE, UPRIGHT),
    lambda: Shot("turned", 5, LANE, View(1, [(92, 118), (549, 61), (571, 418), (104, 371)], (-3, 2))),
    lambda: Shot("glare", 6, LANE, View(2, [(188, 51), (452, 28), (491, 436), (172, 447)], (7, -12)),
                 Light(glare=(255, 190, 62)), Asked(LANE, minimum=0.1, border_threshold=0.6)),
    lambda: Shot("part", 7, WALL, View(3, [(-133, -61), (548, -158), (630, 742), (-64, 701)], (-6, 40)),
                 asked=Asked(WALL, px_per_square=48.0)),
    lambda: Shot("blank", 8, LANE, UPRIGHT, drawn=tiles),
    lambda: Shot("other", 9, OTHER, View(0, [(181, 40), (448, 31), (470, 447), (160, 436)], (2, 5)), asked=Asked(LANE)),
    lambda: Shot("narrow", 12, LANE, View(3, [(88, 92), (561, 71), (549, 401), (79, 419)], (14, -9)),
                 Light(haze=0.1, blur=7.5)),
    lambda: Shot("table", 11, LANE, View(2, [(201, 66), (441, 43), (462, 421), (187, 434)], (-8, 3)),
                 Light(blur=4.5), Asked(LANE, table=likelihood_table(12.0, -2.0))),
    lambda: Shot("legacy", 13, OLD, View(3, [(158, 41), (473, 33), (498, 447), (136, 429)], (5, -7))),
    lambda: Shot("far-wall", 17, FAR_WALL, View(0, [(379, 264), (924, 265), (907, 682), (357, 686)], (-1, -9)),
                 Light(glare=(602, 382, 35), blur=3.6), Asked(FAR_WALL, border_threshold=1.0, least_weight=0.95)),
]


def small(picture):
    """Half as wide and high, in steps of 8 grey levels, to keep the file small."""
    mean = picture.reshape(HEIGHT // 2, 2, WIDTH // 2, 2).mean(axis=(1, 3))
    return np.clip(np.rint(mean / 8) * 8, 0, 255).astype(np.uint8)


def write_sheet(directory, name, shot, cells, word=""):
    """Writes the record and returns its row of truth.tsv."""
    data = record(shot.asked, cells)
    assert len(data) <= 65535
    (directory / f"{name}.shot").write_bytes(data)
    unsampled = sum(samples is None for _, _, samples in cells)
    print(f"{name}: {len(data)} bytes, {len(cells)} cells, {unsampled} of them not sampled")
    placed = "\t".join(str(number) for number in truth(shot, cells)) if shot.is_board else "none"
    return f"{name}\t{placed}{word}\n"


def main():
    words = sys.argv[1:]
    full = words[:1] == ["--full"]
    words = words[full:]
    directory = Path(words[0]) if words else Path(__file__).resolve().parent
    rows = []
    for make in SHOTS:
        shot = make()
        cells = shot.cells()
        rows.append(write_sheet(directory, shot.name, shot, cells))
        if shot.name == SOURCE:
            rows.append(write_sheet(directory, REPEATED, shot, [*cells, cells[CELL]], "\trepeats"))
        if shot.name == LEGACY_SHEET:
            rows.append(write_sheet(directory, RESTATED, *restated(shot, cells), "\trestated"))
        cv2.imwrite(str(directory / f"{shot.name}.png"), small(shot.picture), [cv2.IMWRITE_PNG_COMPRESSION, 9])
        if full:
            cv2.imwrite(str(directory / f"{shot.name}-full.png"), shot.picture)
    rows += STUDY
    (directory / "truth.tsv").write_text("".join(rows))


if __name__ == "__main__":
    main()
