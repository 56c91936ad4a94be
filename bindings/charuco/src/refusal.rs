//! The checks of documents 01 and 02 that can fail.

use std::error::Error;
use std::fmt::{self, Display, Formatter};

/// Why the library returned no result: the check that failed. It is printed as its number and a message.
#[derive(Clone, Copy, Debug, PartialEq)]
#[non_exhaustive]
pub enum Refusal {
    // BEGIN generated variants
    InvalidSize,
    InvalidCellSize,
    InvalidMarkerSizeRel,
    InvalidBorderBits,
    EmptyDictionary,
    BoardOutOfRange,
    NotEnoughDictionaryCodes {
        needed: u32,
        available: u32,
    },
    CodeOutOfRange,
    InvalidSettings,
    InvalidTable,
    NoCells,
    CellsOutOfRange,
    InvalidSample,
    ListTooShort,
    TranslationWindow,
    Margin {
        margin: f32,
        minimum: f32,
    },
    NoMarkers,
    CornersOutOfRange,
    TooManyLinks,
    TooManyCells,
    InvalidRecord,
    CodesAlike,
    RepeatedPoint,
    ScoreListTooShort,
    EvenLegacyBoard,
    EntryCutOff {
        bytes: u32,
    },
    // END generated variants
    /// A number that this crate does not know, from a later library.
    Unknown(u32),
}

impl Refusal {
    /// From the number of a refusal and the values of its message.
    pub(crate) fn new(number: u32, values: [u32; 2]) -> Self {
        match number {
            // BEGIN generated from-number
            1 => Self::InvalidSize,
            2 => Self::InvalidCellSize,
            3 => Self::InvalidMarkerSizeRel,
            4 => Self::InvalidBorderBits,
            5 => Self::EmptyDictionary,
            6 => Self::BoardOutOfRange,
            7 => Self::NotEnoughDictionaryCodes {
                needed: values[0],
                available: values[1],
            },
            8 => Self::CodeOutOfRange,
            9 => Self::InvalidSettings,
            10 => Self::InvalidTable,
            11 => Self::NoCells,
            12 => Self::CellsOutOfRange,
            13 => Self::InvalidSample,
            14 => Self::ListTooShort,
            15 => Self::TranslationWindow,
            16 => Self::Margin {
                margin: f32::from_bits(values[0]),
                minimum: f32::from_bits(values[1]),
            },
            17 => Self::NoMarkers,
            18 => Self::CornersOutOfRange,
            19 => Self::TooManyLinks,
            20 => Self::TooManyCells,
            21 => Self::InvalidRecord,
            22 => Self::CodesAlike,
            23 => Self::RepeatedPoint,
            24 => Self::ScoreListTooShort,
            25 => Self::EvenLegacyBoard,
            26 => Self::EntryCutOff {
                bytes: values[0],
            },
            // END generated from-number
            _ => Self::Unknown(number),
        }
    }

    pub const fn number(&self) -> u32 {
        match self {
            // BEGIN generated number
            Self::InvalidSize => 1,
            Self::InvalidCellSize => 2,
            Self::InvalidMarkerSizeRel => 3,
            Self::InvalidBorderBits => 4,
            Self::EmptyDictionary => 5,
            Self::BoardOutOfRange => 6,
            Self::NotEnoughDictionaryCodes { .. } => 7,
            Self::CodeOutOfRange => 8,
            Self::InvalidSettings => 9,
            Self::InvalidTable => 10,
            Self::NoCells => 11,
            Self::CellsOutOfRange => 12,
            Self::InvalidSample => 13,
            Self::ListTooShort => 14,
            Self::TranslationWindow => 15,
            Self::Margin { .. } => 16,
            Self::NoMarkers => 17,
            Self::CornersOutOfRange => 18,
            Self::TooManyLinks => 19,
            Self::TooManyCells => 20,
            Self::InvalidRecord => 21,
            Self::CodesAlike => 22,
            Self::RepeatedPoint => 23,
            Self::ScoreListTooShort => 24,
            Self::EvenLegacyBoard => 25,
            Self::EntryCutOff { .. } => 26,
            // END generated number
            Self::Unknown(number) => *number,
        }
    }
}

// BEGIN generated messages
#[rustfmt::skip]
const MESSAGES: [(u32, &str); 26] = [
    (1, "the board has fewer than 2 rows or fewer than 2 columns"),
    (2, "cell_size is not finite or is not above 0"),
    (3, "marker_size_rel is not finite, is not above 0, or is above 1"),
    (4, "the border is below 1"),
    (5, "the dictionary has no code"),
    (6, "the board has more than 32 rows or columns, a border above 4, bits that are not 1 to 8, or more than 1,024 codes"),
    (7, "the board has {needed} markers and the dictionary has only {available} codes"),
    (8, "a code is not below 2^(bits*bits)"),
    (9, "the minimum margin, the border threshold or px_per_square is not finite, or the least weight is not from 0 to 1"),
    (10, "the likelihood table does not have 511 entries, or an entry is not from -8 to 0"),
    (11, "there is no cell"),
    (12, "there are more than 256 cells, or a cell's u or v is not from -4,096 to 4,096"),
    (13, "a sampled cell has no whole grid, or its fraction is not from 0 to 1"),
    (14, "the output array is too short"),
    (15, "no turn and translation puts every cell on the board"),
    (16, "the margin {margin} is below the minimum {minimum}"),
    (17, "no cell of the best placement has evidence above 0"),
    (18, "there are more than 1,024 corners or inliers, or a grid point, a score, the turn or the corner translation is out of range"),
    (19, "there are more than 4,096 links"),
    (20, "there are more than 256 whole cells"),
    (21, "the record is above 65,535 bytes, a field is cut short, a spare bit is set, or bytes follow the last field"),
    (22, "the codes of two markers are equal up to rotation"),
    (23, "two cells, sampled or not, have the same position (u, v)"),
    (24, "the score array has fewer than cells * markers * 4 elements"),
    (25, "a legacy board with even rows and even columns cannot be restated"),
    (26, "the last entry of the log is cut off after {bytes} bytes"),
];
// END generated messages

impl Display for Refusal {
    fn fmt(&self, f: &mut Formatter) -> fmt::Result {
        let number = self.number();
        let known = MESSAGES.iter().find(|(of, _)| *of == number);
        let message = known.map_or("a check that this version has no name for", |pair| pair.1);
        let text = match self {
            // BEGIN generated filled
            Self::NotEnoughDictionaryCodes { needed, available } => message
                .replace("{needed}", &needed.to_string())
                .replace("{available}", &available.to_string()),
            Self::Margin { margin, minimum } => message
                .replace("{margin}", &margin.to_string())
                .replace("{minimum}", &minimum.to_string()),
            Self::EntryCutOff { bytes } => message.replace("{bytes}", &bytes.to_string()),
            // END generated filled
            _ => message.to_string(),
        };
        write!(f, "refused {number}: {text}")
    }
}

impl Error for Refusal {}

#[cfg(test)]
mod tests {
    use super::{MESSAGES, Refusal};

    #[test]
    fn numbers_are_those_of_the_names() {
        for (number, _) in MESSAGES {
            let refusal = Refusal::new(number, [5, 3]);
            assert_eq!(refusal.number(), number);
            assert!(!matches!(refusal, Refusal::Unknown(_)));
        }
    }

    #[test]
    fn other_numbers_are_unknown() {
        let next = 1 + MESSAGES
            .map(|(number, _)| number)
            .into_iter()
            .max()
            .unwrap();
        for number in [0, next, u32::MAX] {
            assert_eq!(Refusal::new(number, [0; 2]), Refusal::Unknown(number));
            assert!(
                Refusal::Unknown(number)
                    .to_string()
                    .starts_with(&format!("refused {number}: "))
            );
        }
    }

    /// A message with values has one for each of its placeholders.
    #[test]
    fn values_are_in_their_messages() {
        let pairs = [
            (
                Refusal::new(7, [10, 3]),
                "refused 7: the board has 10 markers and the dictionary has only 3 codes",
            ),
            (
                Refusal::new(16, [0.25_f32, 0.5].map(f32::to_bits)),
                "refused 16: the margin 0.25 is below the minimum 0.5",
            ),
        ];
        for (refusal, text) in pairs {
            assert_eq!(refusal.to_string(), text);
        }
        for (number, _) in MESSAGES {
            assert!(!Refusal::new(number, [1; 2]).to_string().contains('{'));
        }
    }
}
