//! What a record holds. Floats are kept as bit patterns, so that no NaN loses its pattern.

use cases::cells::Cell as Grid;
use std::sync::LazyLock;
pub use theirs::TABLE_LENGTH;

/// The bits of the map byte.
pub mod settings {
    pub const MINIMUM_MARGIN: u8 = 1;
    pub const BORDER_THRESHOLD: u8 = 2;
    pub const PX_PER_SQUARE: u8 = 4;
    pub const TABLE: u8 = 8;
    /// Marks a legacy board (document 02, 2.1); it brings no field.
    pub const LEGACY: u8 = 16;
    /// Brings the least weight, after the table (document 02, 2.8).
    pub const LEAST_WEIGHT: u8 = 32;
    pub const SPARE: [u8; 2] = [64, 128];
    /// Every map byte without the legacy flag and spare bits.
    pub fn presence_flags() -> impl Iterator<Item = u8> {
        let of_document_01 = 0..LEGACY;
        of_document_01.flat_map(|map| [map, map | LEAST_WEIGHT])
    }

    /// The bits that document 01 leaves spare: the two of document 02, and those that still are.
    pub const UPPER: [u8; 4] = [LEGACY, LEAST_WEIGHT, 64, 128];
}

/// Computed once: a reader wants it for most records.
pub fn built_in_table() -> [u32; TABLE_LENGTH] {
    static TABLE: LazyLock<[u32; TABLE_LENGTH]> =
        LazyLock::new(|| theirs::likelihood_table(theirs::BUILT_IN).map(f32::to_bits));
    *TABLE
}

/// All that a reader knows of a record. The writer leaves out what the map byte marks as absent.
#[derive(Clone, Debug, PartialEq, Eq)]
pub struct Shot {
    pub map: u8,
    pub minimum_margin: u32,
    pub border_threshold: u32,
    pub px_per_square: u32,
    pub table: [u32; TABLE_LENGTH],
    pub least_weight: u32,
    pub rows: u8,
    pub cols: u8,
    pub bits: u8,
    pub border: u8,
    pub cell_size: u32,
    pub marker_size_rel: u32,
    pub codes: Vec<u64>,
    pub cells: Vec<Cell>,
}

#[derive(Clone, Debug, PartialEq, Eq)]
pub struct Cell {
    pub u: i16,
    pub v: i16,
    pub sample: Option<Sample>,
}

/// A cell at the origin that is not sampled.
pub const UNSAMPLED: Cell = Cell {
    u: 0,
    v: 0,
    sample: None,
};

#[derive(Clone, Debug, PartialEq, Eq)]
pub struct Sample {
    pub fraction: u32,
    pub threshold: u8,
    /// The grey levels row by row, side × side of them.
    pub grid: Vec<u8>,
}

impl Sample {
    pub const fn new(fraction: f32, threshold: u8, grid: Vec<u8>) -> Self {
        Self {
            fraction: fraction.to_bits(),
            threshold,
            grid,
        }
    }
}

impl Default for Shot {
    /// Nothing given, by which the settings are those of document 01 and the least weight is 0; no code, no cell.
    fn default() -> Self {
        Self {
            map: 0,
            minimum_margin: 0.05f32.to_bits(),
            border_threshold: 0.5f32.to_bits(),
            px_per_square: 60.0f32.to_bits(),
            table: built_in_table(),
            least_weight: 0,
            rows: 2,
            cols: 2,
            bits: 2,
            border: 1,
            cell_size: 1.0f32.to_bits(),
            marker_size_rel: 0.5f32.to_bits(),
            codes: Vec::new(),
            cells: Vec::new(),
        }
    }
}

impl Shot {
    /// The shot of document 01's example, which the program `place` reads.
    pub fn of_document_01() -> Self {
        let mut table = [0; TABLE_LENGTH];
        table[..256].fill((-1.0f32).to_bits());
        let grid = [[0, 0, 0, 0], [0, 0, 255, 0], [0, 255, 255, 0], [0, 0, 0, 0]].concat();
        let sample = Some(Sample::new(1.0, 128, grid));
        Self {
            map: settings::TABLE,
            table,
            codes: vec![1, 15],
            cells: vec![Cell { u: 0, v: 0, sample }],
            ..Self::default()
        }
    }

    /// The floats that a record may give, with their bits in the map byte, in the order of a record.
    pub fn given_mut(&mut self) -> [(u8, &mut [u32]); 5] {
        let one = std::slice::from_mut;
        [
            (settings::MINIMUM_MARGIN, one(&mut self.minimum_margin)),
            (settings::BORDER_THRESHOLD, one(&mut self.border_threshold)),
            (settings::PX_PER_SQUARE, one(&mut self.px_per_square)),
            (settings::TABLE, &mut self.table),
            (settings::LEAST_WEIGHT, one(&mut self.least_weight)),
        ]
    }

    /// Is the board one from before OpenCV 4.6?
    pub const fn is_legacy(&self) -> bool {
        self.map & settings::LEGACY != 0
    }

    /// The shot with the legacy flag.
    pub const fn marked(mut self) -> Self {
        self.map |= settings::LEGACY;
        self
    }

    /// Gives a minimum margin.
    pub fn set_minimum_margin(&mut self, margin: f32) {
        self.map |= settings::MINIMUM_MARGIN;
        self.minimum_margin = margin.to_bits();
    }

    /// Sets the least weight and its presence flag.
    pub const fn set_least_weight(&mut self, bits: u32) {
        self.map |= settings::LEAST_WEIGHT;
        self.least_weight = bits;
    }

    /// The grey levels of a sample with the shot's bits and border.
    pub fn grid(&self, sample: &Sample) -> Grid {
        let size = [self.bits, self.border];
        Grid::new(size, sample.threshold, sample.grid.clone())
    }

    pub fn samples(&self) -> impl Iterator<Item = &Sample> {
        self.cells.iter().filter_map(|cell| cell.sample.as_ref())
    }

    pub fn samples_mut(&mut self) -> impl Iterator<Item = &mut Sample> {
        self.cells
            .iter_mut()
            .filter_map(|cell| cell.sample.as_mut())
    }

    /// How many grey levels a sampled cell has.
    pub fn greys(&self) -> usize {
        Grid::side([self.bits, self.border]).pow(2)
    }
}
