//! The kinds of rows that have an answer.

/// What a row of a kind has.
#[derive(Clone, Copy, Debug, PartialEq, Eq, PartialOrd, Ord)]
pub struct Kind {
    pub number: u64,
    pub name: &'static str,
    pub arguments: usize,
    /// The length of `values`.
    pub words: usize,
    /// Words of one result in the output array, if there is one.
    pub of_result: usize,
    /// What is answered: 0, and the numbers of the checks.
    pub numbers: &'static [u32],
}

const fn part(number: u64, name: &'static str, arguments: usize, words: usize) -> Kind {
    Kind {
        number,
        name,
        arguments,
        words,
        of_result: 0,
        numbers: &[0],
    }
}

/// A reader of a record.
const fn reader(number: u64, name: &'static str, arguments: usize, words: usize) -> Kind {
    Kind {
        numbers: &[0, 21],
        ..part(number, name, arguments, words)
    }
}

/// The same of a legacy board.
const fn of_legacy(kind: Kind, name: &'static str) -> Kind {
    Kind {
        number: kind.number + 0x100,
        name,
        ..kind
    }
}

macro_rules! kinds {
    ($($name:ident = $kind:expr;)*) => {
        $(pub const $name: Kind = $kind;)*
        pub const ALL: &[Kind] = &[$($name),*];
    };
}

kinds! {
    HEADER = reader(0x5, "charuco_read_header", 0, 14);
    TABLE_ENTRY = reader(0x6, "charuco_table_entry", 1, 2);
    CODE = reader(0x7, "charuco_code", 1, 3);
    CELL = reader(0x8, "charuco_cell", 1, 5);
    GRID = reader(0x9, "charuco_grid", 1, 2);
    MATCH = Kind {
        of_result: 18,
        numbers: &[
            0, 1, 2, 3, 4, 5, 6, 7, 8, 9, 10, 11, 12, 13, 14, 15, 16, 17, 21, 22, 23,
        ],
        ..part(0xA, "charuco_match_board", 1, 19)
    };
    TEXT = part(0xB, "text of place", 0, 1);
    CELLS = Kind {
        of_result: 6,
        numbers: &[0, 14, 18, 20],
        ..part(0xC, "charuco_build_marker_cells", 3, 1)
    };
    CORNERS = Kind {
        of_result: 6,
        numbers: &[0, 1, 2, 3, 4, 5, 6, 7, 8, 14, 18, 22],
        ..part(0xD, "charuco_map_charuco_corners", 14, 2)
    };
    LINKS = Kind {
        of_result: 12,
        numbers: &[0, 1, 2, 3, 4, 5, 6, 7, 8, 14, 19, 22],
        ..part(0xE, "charuco_validate_marker_corner_links", 11, 2)
    };
    ANSWER_TEXT = part(0xF, "text of an answer", 0, 1);
    ROTATE_CODE = part(0x10, "rotate_code_u64", 3, 2);
    LAYOUT = part(0x11, "layout", 3, 3);
    CORNER_ALIGNMENT = part(0x12, "cell_to_corner_alignment", 3, 2);
    TURNED = part(0x13, "rotated point", 3, 2);
    RECT_CORNERS = part(0x14, "cell_rect_corners_at", 3, 8);
    BUILT_IN_TABLE = part(0x15, "built-in table", 1, 16);
    NULL_SCORE = part(0x16, "null score", 1, 1);
    CELL_WEIGHT = part(0x17, "cell_weight", 4, 1);
    SCORE = part(0x18, "score", 4, 4);
    MATCH_WITH_SCORES = Kind {
        of_result: MATCH.of_result,
        numbers: &[
            0, 1, 2, 3, 4, 5, 6, 7, 8, 9, 10, 11, 12, 13, 14, 15, 16, 17, 21, 22, 23, 24,
        ],
        ..part(0x19, "charuco_match_board_with_scores", 2, MATCH.words)
    };
    RESTATED = Kind {
        numbers: &[0, 1, 2, 3, 4, 5, 6, 7, 8, 14, 21, 22, 25],
        ..part(0x1A, "charuco_restate", 1, 2)
    };
    LEGACY_CORNERS = of_legacy(CORNERS, "charuco_map_charuco_corners, legacy board");
    LEGACY_LINKS = of_legacy(LINKS, "charuco_validate_marker_corner_links, legacy board");
    LEGACY_LAYOUT = of_legacy(LAYOUT, "layout, legacy board");
}
