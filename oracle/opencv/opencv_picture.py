"""The layout of a ChArUco board as it can be seen in OpenCV's picture of it.

`size` and `cut` are as in opencv_layout.py.
"""

from opencv_layout import DICTIONARY, Layout, cut_board, cv2, np

# 24 pixels a square, so that a marker of 3/4 of the square is 18 pixels, 3 for
# each of its 6 modules, and nothing has to be rounded.
SQUARE_PX = 24
RIM_PX = 3
MARKER_REL = 0.75


class Picture(Layout):
    """The layout as it can be seen in the picture that OpenCV draws, less the rows cut off.

    The markers are found by OpenCV's detector and the inner corners by its
    ChArUco corner finder; their places are read off in pixels from the top left.
    """

    def __init__(self, size, cut):
        super().__init__(size, cut)
        rows, cols = size
        board = cut_board(size, cut, 1.0, MARKER_REL)
        width, height = ((n + 2) * SQUARE_PX for n in (cols, rows + cut))
        # One square of margin: the detector drops markers at the picture's edge.
        whole = board.draw((width, height), marginSize=SQUARE_PX, borderBits=1)
        image = self.cut_rows(whole)
        markers, corners = self.detect(image, board)
        # Ids that went: the markers on the light squares of the rows cut off, and
        # the inner corners on the line of the cut, one between each two squares.
        markers = self.count_anew("marker", markers, len(self.light_squares(whole, cut)))
        corners = self.count_anew("corner", corners, cut * (cols - 1))
        squares = self.marker_squares(markers)
        self.take(squares, self.corner_places(corners), self.find_around(markers, corners))
        light = self.light_squares(image, rows)
        if light != {square for _, square in squares}:
            self.faults.append("the light squares are not the squares with markers")
        self.top_left_light = (0, 0) in light

    def cut_rows(self, whole):
        """The picture without the top rows of squares; the margin above them stays."""
        return np.vstack([whole[:SQUARE_PX], whole[(1 + self.cut) * SQUARE_PX:]])

    def detect(self, image, board):
        """Each marker with its four points, and each corner with its point.

        The corner finder gives a corner only where both markers nearest to it are
        seen, so it gives none on the line of the cut.
        """
        settings = cv2.aruco.DetectorParameters_create()
        # The picture is perfect: no wrong bit is to be forgiven, and one
        # threshold is enough.
        settings.errorCorrectionRate = 0.0
        settings.adaptiveThreshWinSizeMin = settings.adaptiveThreshWinSizeMax = 13
        points, ids, _ = cv2.aruco.detectMarkers(image, DICTIONARY, parameters=settings)
        if ids is None:
            return [], []
        markers = [(marker, quad.reshape(4, 2)) for marker, quad in zip(ids.ravel().tolist(), points)]
        count, seen, corners = cv2.aruco.interpolateCornersCharuco(points, ids, image, board)
        if not count:
            return markers, []
        return markers, list(zip(corners.ravel().tolist(), seen.reshape(-1, 2)))

    def marker_squares(self, markers):
        """The square of each marker. Markers must be upright: their first point,
        by their own bits, is the top left one in the picture, and so on."""
        squares = []
        for marker, quad in markers:
            i, j = (int(x) for x in np.floor(quad.mean(axis=0) / SQUARE_PX) - 1)
            near, far = RIM_PX, SQUARE_PX - RIM_PX
            upright = np.array([(near, near), (far, near), (far, far), (near, far)])
            offset = quad - (np.array([i, j]) + 1) * SQUARE_PX - upright
            if abs(offset).max() > 1:
                self.faults.append(f"marker {marker} is seen at {quad.tolist()}")
            squares.append((marker, (i, j)))
        return squares

    def corner_places(self, corners):
        """The board corner of each ChArUco corner."""
        places = []
        for corner, point in corners:
            grid = point / SQUARE_PX - 1
            i, j = (int(x) for x in np.rint(grid))
            if abs(grid - (i, j)).max() * SQUARE_PX > 1:
                self.faults.append(f"corner {corner} is seen at {point.tolist()}")
            places.append((corner, (i, j)))
        return places

    def find_around(self, markers, corners):
        """The inner corners around each marker: those that are seen within half a
        square of its points. Off the rim there is one for each of the four."""
        ids = [corner for corner, _ in corners]
        seen = np.array([point for _, point in corners]).reshape(-1, 2)
        around = {}
        for marker, quad in markers:
            close = [np.flatnonzero(np.hypot(*(seen - point).T) < SQUARE_PX / 2) for point in quad]
            if any(len(found) > 1 for found in close):
                self.faults.append(f"a point of marker {marker} is close to several corners")
            if all(len(found) for found in close):
                around[marker] = [ids[found[0]] for found in close]
        return around

    def light_squares(self, image, rows):
        """Of the top rows the squares with a white rim; every other square must be
        black all over."""
        light = set()
        for j in range(rows):
            for i in range(self.size[1]):
                y, x = (j + 1) * SQUARE_PX, (i + 1) * SQUARE_PX
                square = image[y:y + SQUARE_PX, x:x + SQUARE_PX].copy()
                if square.max() == 0:
                    continue
                square[RIM_PX:-RIM_PX, RIM_PX:-RIM_PX] = 255
                if square.min() < 255:
                    self.faults.append(f"square {(i, j)} is neither black nor white-rimmed")
                light.add((i, j))
        return light
