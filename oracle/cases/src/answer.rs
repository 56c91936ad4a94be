//! The shape in which both sides answer, as the C functions do: a number, words, and an output array.

/// Written words are at the start of each array; the places past them keep their values.
#[derive(Clone, Debug, Default, PartialEq, Eq)]
pub struct Answer {
    /// 0, or the number of the check that fails.
    pub number: u32,
    /// Written to `values`.
    pub words: Vec<u32>,
    /// Written to the output array.
    pub list: Vec<u32>,
}

impl Answer {
    /// A refusal that is its number alone.
    pub const fn refused(number: u32) -> Self {
        Self {
            number,
            words: Vec::new(),
            list: Vec::new(),
        }
    }

    pub fn of_words(words: impl Into<Vec<u32>>) -> Self {
        Self {
            words: words.into(),
            ..Self::default()
        }
    }

    /// The count of results, and their words.
    pub fn of_results<const N: usize>(results: &[[u32; N]]) -> Self {
        Self {
            list: results.as_flattened().to_vec(),
            ..Self::of_words([results.len() as u32])
        }
    }
}

/// A list before a call: values that few answers have, all different.
pub fn before(places: usize) -> Vec<u32> {
    (0..places as u32).map(|i| 0xFFC0_0000 + i).collect()
}

/// A list after a call that wrote so many words to its start, as far as there is room.
pub fn after(mut list: Vec<u32>, written: &[u32]) -> Vec<u32> {
    let count = written.len().min(list.len());
    list[..count].copy_from_slice(&written[..count]);
    list
}
