//! The layout of a board, from `board.rs`. Upstream has no legacy boards. One with an even row count is upstream's board of
//! a row more without its top row: below it every square has the other parity.

use calib_targets_aruco::Dictionary;
use calib_targets_charuco::{CharucoBoard, CharucoBoardSpec};
use calib_targets_core::Coord;
use cases::corner_lists::rectangle;

/// As many codes as the largest board has markers. The layout depends only on their number.
static CODES: [u64; 528] = [0; 528];

/// What a row that is cut off takes with it; all 0 if none is.
#[derive(Clone, Copy, Debug, Default)]
struct Cut {
    rows: i32,
    markers: u32,
    corners: u32,
}

pub struct Board {
    /// With the row that is cut off.
    board: CharucoBoard,
    cut: Cut,
    /// The board corner of each corner id of `board`.
    corners: Vec<[u64; 2]>,
    /// As many rows as the board has. An object point is a product in f32, so it cannot be had from a corner a row lower.
    points: CharucoBoard,
}

impl Board {
    /// A board of 2 to 32 rows and columns.
    pub fn new(rows: u8, cols: u8, legacy: bool, cell_size: f32) -> Self {
        let points = board_of([rows, cols], cell_size);
        if legacy && rows % 2 == 0 {
            let board = board_of([rows + 1, cols], cell_size);
            let cut = Cut::top_row(&board);
            return Self::of_parts(board, cut, points);
        }
        Self::of_parts(points.clone(), Cut::default(), points)
    }

    fn of_parts(board: CharucoBoard, cut: Cut, points: CharucoBoard) -> Self {
        Self {
            corners: corners_by_id(&board),
            board,
            cut,
            points,
        }
    }

    pub fn marker_count(&self) -> u64 {
        self.board.marker_count() as u64 - u64::from(self.cut.markers)
    }

    /// The inner corners of the board.
    pub fn corner_count(&self) -> u64 {
        u64::from(self.points.expected_inner_rows()) * u64::from(self.points.expected_inner_cols())
    }

    pub fn marker_id_at(&self, i: i32, j: i32) -> Option<u64> {
        let square = Coord::new(i, j.checked_add(self.cut.rows)?);
        let id = self.board.marker_id_at(square)?;
        id.checked_sub(self.cut.markers).map(u64::from)
    }

    /// Column and row of the marker's square.
    pub fn marker_position(&self, id: u32) -> Option<[u64; 2]> {
        let id = id.checked_add(self.cut.markers)?;
        let square = self.board.marker_position(id)?;
        Some([square.u, square.v - self.cut.rows].map(|n| n as u64))
    }

    pub fn corner_id(&self, i: i32, j: i32) -> Option<u64> {
        let j = j.checked_add(self.cut.rows)?;
        let id = self.board.charuco_corner_id_from_board_corner(i, j)?;
        id.checked_sub(self.cut.corners).map(u64::from)
    }

    /// Column and row of the board corner that has this id.
    pub fn corner_position(&self, id: u32) -> Option<[u64; 2]> {
        let place = id as usize + self.cut.corners as usize;
        let &[i, j] = self.corners.get(place)?;
        Some([i, j - self.cut.rows as u64])
    }

    pub fn object_xy(&self, id: u32) -> Option<[f32; 2]> {
        let point = self.points.charuco_object_xy(id)?;
        Some([point.x, point.y])
    }

    /// Top left, top right, bottom right, bottom left; none where one of them is on the lower rim of the row that is cut
    /// off. Upstream takes the id as a signed number.
    pub fn surrounding_corners(&self, marker: u32) -> Option<[u64; 4]> {
        let marker = marker.checked_add(self.cut.markers)?;
        let ids = self
            .board
            .marker_surrounding_charuco_corners(marker as i32)?;
        let cut = self.cut.corners as usize;
        ids.iter()
            .all(|&id| id >= cut)
            .then(|| ids.map(|id| (id - cut) as u64))
    }
}

fn board_of([rows, cols]: [u8; 2], cell_size: f32) -> CharucoBoard {
    let dictionary = Dictionary::new(4, &CODES);
    let spec = CharucoBoardSpec::new(u32::from(rows), u32::from(cols), cell_size, 0.5, dictionary);
    CharucoBoard::new(spec).expect("a board that upstream accepts")
}

impl Cut {
    /// The markers in the top row and the corners below it, as upstream has them.
    fn top_row(board: &CharucoBoard) -> Self {
        let columns = 0..=board.spec().cols as i32;
        let markers = columns
            .clone()
            .filter_map(|i| board.marker_id_at(Coord::new(i, 0)));
        let corners = columns.filter_map(|i| board.charuco_corner_id_from_board_corner(i, 1));
        Self {
            rows: 1,
            markers: markers.count() as u32,
            corners: corners.count() as u32,
        }
    }
}

/// Undoes the numbering of the corners by the id of every board corner.
fn corners_by_id(board: &CharucoBoard) -> Vec<[u64; 2]> {
    let [rows, cols] = [board.spec().rows, board.spec().cols].map(|n| n as i32);
    let mut corners = Vec::new();
    for [i, j] in rectangle([0, 0], [cols + 1, rows + 1]) {
        if let Some(id) = board.charuco_corner_id_from_board_corner(i, j) {
            assert_eq!(id as usize, corners.len(), "ids rise row by row");
            corners.push([i as u64, j as u64]);
        }
    }
    corners
}
