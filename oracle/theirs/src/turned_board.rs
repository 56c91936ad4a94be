//! A legacy board with an even row count, rotated by 90°: a board without the legacy flag with rows and columns exchanged,
//! which upstream knows. Ids are carried over by the squares and board corners that they name on both boards.

use crate::board::Board;

/// Square (i, j) becomes (rows - 1 - j, i), whose sum has the other parity, since the row count is even.
pub struct TurnedBoard {
    markers: Ids,
    corners: Ids,
}

impl TurnedBoard {
    pub fn new(rows: u8, cols: u8) -> Self {
        assert!(rows % 2 == 0, "a row count that is odd keeps the parity");
        let marked = Board::new(rows, cols, true, 1.0);
        let turned = Board::new(cols, rows, false, 1.0);
        let rows = i32::from(rows);
        // A board corner is the end of as many squares as it is the start of, so it is counted from the far rim itself.
        let marker_on = |[i, j]: [u64; 2]| turned.marker_id_at(rows - 1 - j as i32, i as i32);
        let corner_at = |[i, j]: [u64; 2]| turned.corner_id(rows - j as i32, i as i32);
        Self {
            markers: Ids::new(
                turned.marker_count(),
                (0..).map_while(|id| Some(marker_on(marked.marker_position(id)?))),
            ),
            corners: Ids::new(
                turned.corner_count(),
                (0..).map_while(|id| Some(corner_at(marked.corner_position(id)?))),
            ),
        }
    }

    pub fn marker(&self, id: u32) -> u32 {
        self.markers.carried(id)
    }

    pub fn marker_back(&self, id: u32) -> u32 {
        self.markers.back(id)
    }

    pub fn corner(&self, id: u32) -> u32 {
        self.corners.carried(id)
    }

    pub fn corner_back(&self, id: u32) -> u32 {
        self.corners.back(id)
    }
}

/// Ids of the legacy board and of the rotated one, one to one. An id that is unknown on one is the same unknown id on the
/// other.
struct Ids {
    carried: Vec<u32>,
    back: Vec<u32>,
}

impl Ids {
    fn new(count: u64, ids: impl Iterator<Item = Option<u64>>) -> Self {
        let carried: Vec<u32> = ids
            .map(|id| id.expect("the rotated board has one there") as u32)
            .collect();
        assert_eq!(carried.len() as u64, count, "both boards have as many");
        let mut back = vec![u32::MAX; carried.len()];
        for (id, &turned) in (0..).zip(&carried) {
            let before = std::mem::replace(&mut back[turned as usize], id);
            assert_eq!(before, u32::MAX, "no two are carried to one");
        }
        Self { carried, back }
    }

    fn carried(&self, id: u32) -> u32 {
        self.carried.get(id as usize).copied().unwrap_or(id)
    }

    fn back(&self, id: u32) -> u32 {
        self.back.get(id as usize).copied().unwrap_or(id)
    }
}
