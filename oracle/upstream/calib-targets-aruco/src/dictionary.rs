//! Stand-in for upstream's dictionary: any codes, of any side, instead of the built-in ones.

#[derive(Clone, Copy, Debug)]
pub struct Dictionary {
    marker_size: usize,
    codes: &'static [u64],
}

impl Dictionary {
    pub const fn new(marker_size: usize, codes: &'static [u64]) -> Self {
        Self { marker_size, codes }
    }

    /// Bits along one side of a marker.
    pub const fn marker_size(&self) -> usize {
        self.marker_size
    }

    pub const fn bit_count(&self) -> usize {
        self.marker_size * self.marker_size
    }

    pub const fn codes(&self) -> &'static [u64] {
        self.codes
    }
}

/// There is no dictionary by name here.
pub fn resolve_dictionary(_name: &str) -> Option<Dictionary> {
    None
}
