/*
 * Noctuleiron: finds how a ChArUco board lies in an image. The C functions of libcharuco.a.
 *
 * Compiled for x86-64 Linux, with no instruction beyond SSE2. The library needs memcpy and memset and nothing else:
 * gcc -std=c99 program.c libcharuco.a, the library after the program. examples/minimal.c is a whole program.
 *
 * Requirements on the caller
 *   An array is a pointer and a length in items of the pointer's type, not in the cells or corners that several items make up. A pointer is valid
 *   and aligned for its length; it is never null, not even for length 0.
 *   Input arrays (const) must not change during the call. Output arrays must not overlap another argument or be accessed by others during the call.
 *   The thread has the floating-point settings that a program starts with, and room on its stack (both below).
 *   There is no other requirement: every number, array and record is accepted. No function keeps a pointer, allocates or has state, so threads may
 *   call at the same time.
 *
 * Results
 *   Each function makes its checks in the order listed below and returns the number of the first that fails, or CHARUCO_OK.
 *   The result is written to values[0], values[1], ..., truncated to the array's length; later elements are unchanged. On an error it is the
 *   values of the error, which only 7 and 16 have: supply at least CHARUCO_REFUSAL_WORDS words, also where the result is one word.
 *   Every other output array is unchanged on an error, except the scores of charuco_match_board_with_scores on the errors 15, 16 and 17; on success
 *   its elements after the results are unchanged.
 *   Signed words are in two's complement, floats are bit patterns, every NaN is 7FC00000: copy a word by memcpy into an int32_t or a float.
 *   Checks of each function, in order:
 * BEGIN generated checks
 *     21                                                 charuco_read_header, charuco_table_entry, charuco_code, charuco_cell, charuco_grid
 *     18, 14, 20                                         charuco_build_marker_cells
 *     21, 1 to 8, 22, 9 to 12, 23, 13 to 17              charuco_match_board
 *     21, 1 to 8, 22, 9 to 12, 23, 13, 14, 24, 15 to 17  charuco_match_board_with_scores
 *     1 to 8, 22, 18, 14                                 charuco_map_charuco_corners
 *     1 to 8, 22, 19, 14                                 charuco_validate_marker_corner_links
 *     21, 1 to 8, 22, 25, 14                             charuco_restate
 * END generated checks
 *
 * The board
 *   Square (i, j) is in column i, counted rightward, and row j, counted downward, both from 0. Markers are on the squares with i + j odd, or on a
 *   legacy board with an even row count on those with i + j even. Their ids count from 0 in row-major order, and marker k shows code k.
 *   A legacy board is one from before OpenCV 4.6 (OpenCV's setLegacyPattern). With an even row count it begins with a white square at the top left;
 *   with an odd one it is like any other. Bit 4 of a record's map byte is the legacy flag, and so is a legacy_pattern that is not 0.
 *   Board corner (i, j) is the top left corner of square (i, j). It is an inner corner if 1 <= i < cols and 1 <= j < rows; then its id is
 *   (j - 1) * (cols - 1) + i - 1, on every board, and its target, the point on the printed board, is (i * cell_size, j * cell_size).
 *   Bit y * bits + x of a code is in column x and row y; 1 is black. The codes of a board's markers are pairwise different up to rotation (22);
 *   further codes are not compared, and a code may be symmetric.
 *
 * Grid points and cells
 *   Detected corners are labelled with integer grid points (u, v), u rightward and v downward, counted from any corner. The board may lie under
 *   them in any of four rotations; mirror images are not searched.
 *   Cell (u, v) has the corners (u, v) top left, (u + 1, v) top right, (u + 1, v + 1) bottom right, (u, v + 1) bottom left.
 *
 * Rotation and translation
 *   Turn r, 0 to 3, sends (u, v) to   0: (u, v)   1: (v, -u)   2: (-u, -v)   3: (-v, u).   Then (tx, ty) is added.
 *   Seen in the image, the board is rotated clockwise by r * 90 degrees.
 *   The best placement (words 0 to 2 of a match) is the alignment of cells: cell (u, v) lies on square turn(u, v) + (tx, ty).
 *   The alignment of corners (words 13 to 15) is that of grid points: grid point (u, v) is board corner turn(u, v) + (tx, ty). It has the same turn
 *   and, unless that is 0, another translation, since rotation makes another corner of a cell its top left one.
 *   Bit (x, y) of a code rotated by turns 0 to 3 is bit (x, y), (y, m - x), (m - x, m - y), (m - y, x) of the code, with m = bits - 1. A code
 *   read from a cell is as it lies in the grid, and is compared with the marker's rotated code.
 *
 * The shot record
 *   At most CHARUCO_MAX_RECORD_BYTES bytes; read one byte more of a file, so that a longer one is refused 21 and not truncated. Numbers are
 *   little-endian. The fields follow each other without gaps, and the last one ends the record. Bytes, and what they are:
 * BEGIN generated record
 *     1                  map byte: presence flags of the next five fields in bits 0 to 3 and 5; bit 4, the legacy flag, adds no field; bits 6 and 7
 *                        are 0
 *     4, if bit 0        minimum margin: a match with a smaller margin is refused 16; default 0.05 (3D4CCCCD)
 *     4, if bit 1        border threshold: a sampled cell has the weight fraction / border threshold, at most 1, and weight 1 if the border threshold
 *                        is not above 0; default 0.5 (3F000000)
 *     4, if bit 2        px_per_square: side of a cell in the rectified image, for words 10 to 17 of a marker; default 60 (42700000)
 *     2,044, if bit 3    likelihood table: 511 f32 from -8 to 0, natural logarithms: with d = the cell's threshold - grey, a bit adds entry 255 + d
 *                        to the cell's score if it is black on the marker, entry 255 - d if it is white; default the built-in table
 *     4, if bit 5        least weight: a number from 0 to 1; a cell with a smaller weight has weight 0; default 0 (00000000)
 *     1                  rows
 *     1                  cols
 *     1                  bits: side of the codes
 *     1                  border: width of a marker's border in bits
 *     4                  cell_size: side of a square in any unit, an f32
 *     4                  marker_size_rel: side of a marker / cell_size, an f32
 *     2                  code count
 *     8 each             codes: by marker id; bit y * bits + x is in column x and row y; 1 is black
 *     2                  cell count n
 *     n / 8, rounded up  cell map: bit k mod 8 of byte k / 8 (rounded down) is 1 if cell k is sampled; bits from n on are 0
 *   then for each cell
 *     2                  u: signed
 *     2                  v: signed
 *     4, if sampled      fraction: the part of the marker's border that is black, an f32 from 0 to 1
 *     1, if sampled      threshold: a grey below it is black
 *     side^2, if sampled grid: grey bytes in row-major order, 0 black; side = bits + 2 * border; bit (x, y) of the code is in column border + x and
 *                        row border + y
 * END generated record
 *
 * From a record to numbered corners
 *   1. charuco_match_board finds the placement. After CHARUCO_OK the record has at most CHARUCO_MAX_CODES codes and CHARUCO_MAX_CELLS cells.
 *   2. charuco_read_header returns the board, charuco_code its codes one by one, charuco_cell the cells.
 *   3. charuco_map_charuco_corners takes the board, the codes, the detected corners with their grid points, and words 13 to 15 of the match. It
 *      finds for each inner corner of the board which detected corner it is. A grid point may occur more than once. (A cell with u or v 4,096 has
 *      corners at 4,097, and one such corner fails check 18 for the whole array.)
 *
 * What a match does not say
 *   CHARUCO_OK means that one placement scores best, not that it scores well: glare or water on a few cells can give a wrong placement with a wide
 *   margin. Accept a match if its evidence is at least ln(100 * placements) and exceeds the runner-up's, if that is a number, by at least ln 100.
 *   A wrong legacy flag can pass this rule. docs/SHEETS.md has the study behind it and what else it does not cover.
 */
#ifndef CHARUCO_H
#define CHARUCO_H

#if !defined(__x86_64__) || defined(__ILP32__) || !defined(__linux__)
#error "libcharuco.a is compiled for x86-64 Linux with pointers of 64 bits"
#endif

#include <stddef.h>
#include <stdint.h>

#ifdef __cplusplus
extern "C" {
#endif

/*
 * Floating-point settings
 *   Results hold for rounding to nearest, with subnormal numbers and all exceptions masked: MXCSR has 0 in its bits for rounding, flush-to-zero and
 *   denormals-are-zero, and 1 in its six masks. A program starts so. One that was linked with -ffast-math does not, nor does a thread that has
 *   called fesetround, feenableexcept or _mm_setcsr: it gets other results, or a signal. Such a caller wraps its calls of every function of this
 *   header:
 *
 *       uint32_t saved = charuco_floats_enter();
 *       number = charuco_match_board(..);
 *       charuco_floats_leave(saved);
 *
 *   Enter sets MXCSR to 1F80, its value at program start, and returns what it was; leave restores that, exception flags included. Several calls may
 *   be between them. The compiler may move the caller's own float arithmetic across them, so keep it outside, also out of the arguments of a call.
 */
static inline uint32_t charuco_floats_enter(void)
{
    uint32_t saved, set = 0x1F80;
    __asm__ __volatile__("stmxcsr %0" : "=m"(saved) : : "memory");
    __asm__ __volatile__("ldmxcsr %0" : : "m"(set) : "memory");
    return saved;
}

static inline void charuco_floats_leave(uint32_t saved)
{
    __asm__ __volatile__("ldmxcsr %0" : : "m"(saved) : "memory");
}

/* What each function returns: the number of the first check that fails. */
/* BEGIN generated refusals */
enum {
    CHARUCO_OK = 0,                          /* every check passes */
    CHARUCO_INVALID_SIZE = 1,                /* Are rows and cols at least 2? */
    CHARUCO_INVALID_CELL_SIZE = 2,           /* Is cell_size finite and above 0? */
    CHARUCO_INVALID_MARKER_SIZE_REL = 3,     /* Is marker_size_rel finite, above 0, at most 1? */
    CHARUCO_INVALID_BORDER_BITS = 4,         /* Is the border at least 1? */
    CHARUCO_EMPTY_DICTIONARY = 5,            /* Is there a code? */
    CHARUCO_BOARD_OUT_OF_RANGE = 6,          /* Are rows and cols at most 32, border at most 4, bits 1 to 8, codes at most 1,024? */
    CHARUCO_NOT_ENOUGH_DICTIONARY_CODES = 7, /* Are there at least as many codes as markers? values: needed, available */
    CHARUCO_CODE_OUT_OF_RANGE = 8,           /* Is every code below 2^(bits^2)? */
    CHARUCO_INVALID_SETTINGS = 9,            /* Are minimum margin, border threshold and px_per_square finite, and is the least weight from 0 to 1? */
    CHARUCO_INVALID_TABLE = 10,              /* Has the likelihood table 511 entries, each from -8 to 0? */
    CHARUCO_NO_CELLS = 11,                   /* Is there a cell? */
    CHARUCO_CELLS_OUT_OF_RANGE = 12,         /* Are there at most 256 cells, with u and v from -4,096 to 4,096? */
    CHARUCO_INVALID_SAMPLE = 13,             /* Has every sampled cell a whole grid and a fraction from 0 to 1? */
    CHARUCO_LIST_TOO_SHORT = 14,             /* Has the output array as many elements as the function requires? */
    CHARUCO_TRANSLATION_WINDOW = 15,         /* Does some turn and translation put every cell on the board? */
    CHARUCO_MARGIN = 16,                     /* Is the margin not below the minimum? values: margin as its bit pattern */
    CHARUCO_NO_MARKERS = 17,                 /* Was a marker emitted? */
    CHARUCO_CORNERS_OUT_OF_RANGE = 18,       /* Are there at most 1,024 corners and 1,024 inliers, u and v of grid points from -4,096 to 4,096,
                                                scores finite, turn 0 to 3, tx and ty from -8,192 to 8,192? */
    CHARUCO_TOO_MANY_LINKS = 19,             /* Are there at most 4,096 links? */
    CHARUCO_TOO_MANY_CELLS = 20,             /* Are there at most 256 whole cells? */
    CHARUCO_INVALID_RECORD = 21,             /* Has the record at most 65,535 bytes, no field cut short, no spare bit set, and nothing after its
                                                last field? */
    CHARUCO_CODES_ALIKE = 22,                /* Are no two codes of markers equal up to rotation? */
    CHARUCO_REPEATED_POINT = 23,             /* Have no two cells, sampled or not, the same (u, v)? */
    CHARUCO_SCORE_LIST_TOO_SHORT = 24,       /* Has the score array cells * markers * 4 elements? */
    CHARUCO_EVEN_LEGACY_BOARD = 25,          /* Is it no legacy board with rows and cols both even? */
    CHARUCO_ENTRY_CUT_OFF = 26               /* Is the last entry of the log whole? values: bytes */
};
/* END generated refusals */

/* BEGIN generated constants */
/* Words in `values`. */
#define CHARUCO_HEADER_WORDS 14
#define CHARUCO_TABLE_ENTRY_WORDS 2
#define CHARUCO_CODE_WORDS 3
#define CHARUCO_CELL_WORDS 5
#define CHARUCO_GRID_WORDS 2
#define CHARUCO_MATCH_WORDS 19
#define CHARUCO_COUNT_WORDS 1
#define CHARUCO_REFUSAL_WORDS 2     /* at most */

/* Words of an item of an array. */
#define CHARUCO_GRID_POINT_WORDS 3
#define CHARUCO_MARKER_CELL_WORDS 6
#define CHARUCO_MARKER_WORDS 18
#define CHARUCO_CORNER_WORDS 6
#define CHARUCO_LINK_WORDS 2
#define CHARUCO_VIOLATION_WORDS 12

/* Limits and their checks. */
#define CHARUCO_MAX_RECORD_BYTES 65535 /* 21 */
#define CHARUCO_MAX_CELLS 256          /* 12, 20 */
#define CHARUCO_MAX_SCORES 524288      /* follows from 6, 12 */
#define CHARUCO_MAX_CORNERS 1024       /* 18 */
#define CHARUCO_MAX_CODES 1024         /* 6 */
#define CHARUCO_MAX_LINKS 4096         /* 19 */
#define CHARUCO_MAX_BOARD_CORNERS 961  /* follows from 6 */
#define CHARUCO_VIOLATIONS_PER_LINK 3  /* 14 */
#define CHARUCO_MAX_RECORD_CODES 8189  /* follows from 21 */
#define CHARUCO_MAX_RECORD_CELLS 15883 /* follows from 21 */
/* END generated constants */

/*
 * Stack: the most bytes that each function takes, whatever its arguments, with its return address and without the arguments on the stack. They are
 * the frames of the compiled functions; examples/small_stack.c measures them. What memcpy and memset take beyond a return address is not included,
 * nor is a dynamic linker that resolves these at their first call.
 */
#define CHARUCO_STACK_READ_HEADER 408
#define CHARUCO_STACK_TABLE_ENTRY 2344
#define CHARUCO_STACK_CODE 280
#define CHARUCO_STACK_CELL 280
#define CHARUCO_STACK_GRID 424
#define CHARUCO_STACK_BUILD_MARKER_CELLS 14440
#define CHARUCO_STACK_MATCH_BOARD 23192
#define CHARUCO_STACK_MATCH_BOARD_WITH_SCORES 23288
#define CHARUCO_STACK_MAP_CHARUCO_CORNERS 6696
#define CHARUCO_STACK_VALIDATE_MARKER_CORNER_LINKS 37400
#define CHARUCO_STACK_RESTATE 8968

/*
 * Reading a shot record. Check 21 alone: no field is validated, and a record with 0 rows or two cells at one position is read like any other. An
 * entry, code or cell k after the last one is absent, which is no error.
 */

/* values: enum charuco_header_word. */
uint32_t charuco_read_header(const uint8_t *bytes, size_t bytes_len,
                             uint32_t *values, size_t values_len);

/* BEGIN generated words-header */
enum charuco_header_word {
    CHARUCO_HEADER_MAP = 0,              /* map byte */
    CHARUCO_HEADER_MINIMUM_MARGIN = 1,   /* f32 bit pattern, like the next two; the default where the record leaves the field out */
    CHARUCO_HEADER_BORDER_THRESHOLD = 2,
    CHARUCO_HEADER_PX_PER_SQUARE = 3,
    CHARUCO_HEADER_ROWS = 4,
    CHARUCO_HEADER_COLS = 5,
    CHARUCO_HEADER_BITS = 6,
    CHARUCO_HEADER_BORDER = 7,
    CHARUCO_HEADER_CELL_SIZE = 8,        /* f32 bit pattern */
    CHARUCO_HEADER_MARKER_SIZE_REL = 9,  /* f32 bit pattern */
    CHARUCO_HEADER_CODES = 10,           /* number of codes */
    CHARUCO_HEADER_CELLS = 11,           /* number of cells */
    CHARUCO_HEADER_LEGACY_PATTERN = 12,  /* 1 for a legacy board, else 0: bit 4 of the map byte */
    CHARUCO_HEADER_LEAST_WEIGHT = 13     /* f32 bit pattern; 0 where the record leaves the field out */
};
/* END generated words-header */

/*
 * Entry k, 0 to 510, of the record's likelihood table or of the built-in one. values:
 * BEGIN generated words-table_entry
 *   [0] 1 if there is an entry k, else 0; [1] its f32 bit pattern, or 0.
 * END generated words-table_entry
 */
uint32_t charuco_table_entry(const uint8_t *bytes, size_t bytes_len, size_t k,
                             uint32_t *values, size_t values_len);

/*
 * values:
 * BEGIN generated words-code
 *   [0] 1 if there is a code k, else 0; [1] its low 32 bits, or 0; [2] its high 32 bits, or 0.
 * END generated words-code
 */
uint32_t charuco_code(const uint8_t *bytes, size_t bytes_len, size_t k,
                      uint32_t *values, size_t values_len);

/* values: enum charuco_cell_word. */
uint32_t charuco_cell(const uint8_t *bytes, size_t bytes_len, size_t k,
                      uint32_t *values, size_t values_len);

/* BEGIN generated words-cell */
enum charuco_cell_word {
    CHARUCO_CELL_STATE = 0,    /* 0 absent, 1 unsampled, 2 sampled */
    CHARUCO_CELL_U = 1,        /* signed, like v; 0 if absent */
    CHARUCO_CELL_V = 2,
    CHARUCO_CELL_FRACTION = 3, /* f32 bit pattern; 0 if unsampled or absent */
    CHARUCO_CELL_THRESHOLD = 4 /* 0 if unsampled or absent */
};
/* END generated words-cell */

enum charuco_cell_state {
    CHARUCO_CELL_ABSENT = 0,
    CHARUCO_CELL_UNSAMPLED = 1,
    CHARUCO_CELL_SAMPLED = 2
};

/*
 * values:
 * BEGIN generated words-grid
 *   [0] byte offset of the grid of cell k in the record; [1] its length in bytes; both are 0 for an unsampled or absent cell.
 * END generated words-grid
 */
uint32_t charuco_grid(const uint8_t *bytes, size_t bytes_len, size_t k,
                      uint32_t *values, size_t values_len);

/*
 * The whole cells between labelled corners, in row-major order.
 * scores: a detection score for each corner, greater is better; without scores pass equal finite ones, such as 0. scores_len is the number of
 * corners. This function only checks that they are finite; charuco_map_charuco_corners compares them.
 * grid, for each corner:
 * BEGIN generated words-grid_point
 *   [0] not 0 if the corner has a grid point; [1] u; [2] v.
 * END generated words-grid_point
 *   Missing words count as 0, so their corners have no grid point; words after the last corner are not read. Check 18 covers u and v only where
 *   there is a grid point; one corner out of range fails it for the whole array.
 * inliers: indices of corners, in the order in which they were accepted. Those without a corner or a grid point are skipped; of two at one grid
 * point the later one counts.
 * cells, output, CHARUCO_MAX_CELLS * CHARUCO_MARKER_CELL_WORDS words (check 14); for each cell:
 * BEGIN generated words-marker_cell
 *   [0] u; [1] v; [2 to 5] indices of its corners: top left, top right, bottom right, bottom left.
 * END generated words-marker_cell
 * values: the number of cells.
 */
uint32_t charuco_build_marker_cells(const float *scores, size_t scores_len,
                                    const int32_t *grid, size_t grid_len,
                                    const size_t *inliers, size_t inliers_len,
                                    int32_t *cells, size_t cells_len,
                                    uint32_t *values, size_t values_len);

/*
 * Where the board lies under the cells of a shot record.
 * A placement is a turn and a translation that put all cells on the board; placements are ordered by turn, then tx, then ty.
 * The score of a cell for a marker is the log-likelihood of its samples given the marker's rotated code: the sum over the bits of the likelihood
 * table's entries, in natural logarithms. Its evidence is the log-likelihood ratio against random bits, score + bits^2 * ln 2: 0 for a guess, at
 * most bits^2 * ln 2 (11.09 for 4 by 4 bits).
 * A cell contributes to a placement if it then lies on a square with a marker and its weight is above 0; an unsampled cell has weight 0 (weights:
 * see "border threshold" above). The evidence of a placement is the sum of weight * evidence over its contributing cells, its capacity the sum of
 * weight * bits^2 * ln 2. Without contributing cells the evidence is no number, and is less than every number.
 * The best placement is the first with the greatest evidence, the runner-up the first greatest of the rest. The margin is the normalised gap
 * between them, (best - runner-up) / max(capacity of best, 2^-23). It is 0 if the best's evidence is not above 0, else 1 if the runner-up's is no
 * number; it is above 1 where the runner-up's is far enough below 0.
 * A marker is emitted for each contributing cell of the best placement whose evidence is above 0.
 * markers, output: enum charuco_marker_word for each marker, in the order of the cells; no id occurs twice. Check 14 requires CHARUCO_MARKER_WORDS
 * words for each cell of the record, emitted or not; CHARUCO_MAX_CELLS * CHARUCO_MARKER_WORDS suffice for every record.
 * values: enum charuco_match_word.
 */
uint32_t charuco_match_board(const uint8_t *bytes, size_t bytes_len,
                             uint32_t *markers, size_t markers_len,
                             uint32_t *values, size_t values_len);

/*
 * The same match by another search, faster where little of the board is seen and memory allows (README.md states when): it computes every score first
 * and then looks them up.
 * scores, output: the score of cell k for marker m after turn r is scores[(k * M + m) * 4 + r], with M markers on the board; +0 for an unsampled
 * cell. Check 24, after 14, requires number of cells * M * 4 elements, where M is rows * cols / 2, rounded down; CHARUCO_MAX_SCORES suffice for every
 * record. The elements are filled on success and on the errors 15, 16 and 17; on every other error none changes. Later elements never change.
 * markers, values: as for charuco_match_board, and equal to those of that function, unless check 24 fails.
 */
uint32_t charuco_match_board_with_scores(const uint8_t *bytes, size_t bytes_len,
                                         float *scores, size_t scores_len,
                                         uint32_t *markers, size_t markers_len,
                                         uint32_t *values, size_t values_len);

/* BEGIN generated words-match */
enum charuco_match_word {
    CHARUCO_BEST_TURN = 0,                /* best placement, the alignment of cells */
    CHARUCO_BEST_TX = 1,                  /* signed, like every translation */
    CHARUCO_BEST_TY = 2,
    CHARUCO_BEST_IS_NUMBER = 3,           /* 1 if its evidence is a number, which holds for every match */
    CHARUCO_BEST_EVIDENCE = 4,            /* f32 bit pattern */
    CHARUCO_NEXT_PRESENT = 5,             /* 1 if there is a runner-up, which holds for every match */
    CHARUCO_NEXT_TURN = 6,                /* runner-up */
    CHARUCO_NEXT_TX = 7,
    CHARUCO_NEXT_TY = 8,
    CHARUCO_NEXT_IS_NUMBER = 9,           /* 1 if its evidence is a number, else 0 */
    CHARUCO_NEXT_EVIDENCE = 10,           /* f32 bit pattern, or 0 */
    CHARUCO_MATCH_MARGIN = 11,            /* f32 bit pattern */
    CHARUCO_MATCH_PLACEMENTS = 12,        /* number of placements */
    CHARUCO_CORNERS_TURN = 13,            /* alignment of corners, for charuco_map_charuco_corners */
    CHARUCO_CORNERS_TX = 14,
    CHARUCO_CORNERS_TY = 15,
    CHARUCO_MATCH_MARKERS = 16,           /* number of emitted markers */
    CHARUCO_BEST_CONTRIBUTING_CELLS = 17, /* number of contributing cells of the best, at least 1 */
    CHARUCO_NEXT_CONTRIBUTING_CELLS = 18  /* the same of the runner-up; 0 exactly where word 9 is 0 */
};
/* END generated words-match */

/* BEGIN generated words-marker */
enum charuco_marker_word {
    CHARUCO_MARKER_CELL = 0,              /* index of the cell in the record */
    CHARUCO_MARKER_ID = 1,
    CHARUCO_MARKER_U = 2,                 /* signed, like v: the grid point of the marker's own top left corner */
    CHARUCO_MARKER_V = 3,
    CHARUCO_MARKER_TURN = 4,              /* that of the best placement */
    CHARUCO_MARKER_DIFFERING_BITS = 5,    /* Hamming distance of the code read to the marker's rotated code */
    CHARUCO_MARKER_CODE_LOW = 6,          /* low 32 bits of the code read, as it lies in the grid */
    CHARUCO_MARKER_CODE_HIGH = 7,         /* high 32 bits of it */
    CHARUCO_MARKER_QUOTIENT = 8,          /* f32 bit pattern of score / bits^2, at most 0; 0 is best */
    CHARUCO_MARKER_FRACTION = 9,          /* f32 bit pattern */
    CHARUCO_MARKER_RECTIFIED_CORNERS = 10 /* to 17: f32 bit patterns of x and y of its cell's corners top left, top right, bottom right, bottom
                                             left in a rectified image with px_per_square to a cell and grid point (0, 0) at 0, 0 */
};
/* END generated words-marker */

/*
 * Which inner corner of the board each corner is: for each id the corner with the greatest score, the earlier on a tie. Corners without a grid
 * point and those that are no inner corner are skipped.
 * legacy_pattern: 0, or any other number for a legacy board; corner ids are the same for both.
 * codes: code k is that of marker k. scores, grid: as for charuco_build_marker_cells. turn, tx, ty: the alignment of corners, words 13 to 15 of a
 * match, not the best placement, which is that of cells.
 * corners, output: enum charuco_corner_word for each corner, by increasing id. Check 14 requires CHARUCO_CORNER_WORDS words for each inner corner
 * of the board; CHARUCO_MAX_BOARD_CORNERS * CHARUCO_CORNER_WORDS suffice for every board.
 * values: the number of corners.
 */
uint32_t charuco_map_charuco_corners(uint32_t rows, uint32_t cols, uint32_t bits, uint32_t border_bits,
                                     uint32_t legacy_pattern, float cell_size, float marker_size_rel,
                                     const uint64_t *codes, size_t codes_len,
                                     const float *scores, size_t scores_len,
                                     const int32_t *grid, size_t grid_len,
                                     uint32_t turn, int32_t tx, int32_t ty,
                                     uint32_t *corners, size_t corners_len,
                                     uint32_t *values, size_t values_len);

/* BEGIN generated words-corner */
enum charuco_corner_word {
    CHARUCO_CORNER_ID = 0,
    CHARUCO_CORNER_INDEX = 1,    /* index of the input corner in scores */
    CHARUCO_CORNER_I = 2,        /* board corner (i, j) */
    CHARUCO_CORNER_J = 3,
    CHARUCO_CORNER_TARGET_X = 4, /* f32 bit pattern of i * cell_size */
    CHARUCO_CORNER_TARGET_Y = 5  /* f32 bit pattern of j * cell_size */
};
/* END generated words-corner */

/*
 * Whether reported links of markers and corners agree with the board. A marker off the rim has the four corners of its square; a marker on the rim
 * has fewer inner corners, and each link of it is a violation of kind 2.
 * links, an odd last word is ignored; for each link:
 * BEGIN generated words-link
 *   [0] marker id; [1] corner id.
 * END generated words-link
 * mode: with CHARUCO_SUBSET_OK a marker may have fewer links than corners; with any other number a marker with four corners that occurs in a link
 * must be linked with all four.
 * violations, output, CHARUCO_VIOLATIONS_PER_LINK * CHARUCO_VIOLATION_WORDS words for each link in both modes (check 14); for each violation:
 * BEGIN generated words-violation
 *   [0] marker id; [1] kind, of enum charuco_violation; [2] the reported corner, or 0; [3 to 6] the expected corners top left, top right, bottom
 *   right, bottom left, or 0; [7] number of missing corners; [8 to 11] the missing corners in that order, then 0.
 * END generated words-violation
 * values: the number of violations.
 */
uint32_t charuco_validate_marker_corner_links(uint32_t rows, uint32_t cols, uint32_t bits, uint32_t border_bits,
                                              uint32_t legacy_pattern, float cell_size, float marker_size_rel,
                                              const uint64_t *codes, size_t codes_len,
                                              const uint32_t *links, size_t links_len,
                                              uint32_t mode,
                                              uint32_t *violations, size_t violations_len,
                                              uint32_t *values, size_t values_len);

enum {
    CHARUCO_SUBSET_OK = 0,
    CHARUCO_MUST_MATCH_ALL_4 = 1
};

/* Kinds 1 to 3 come first, in link order; then, for each marker with four corners in the order of its first link, its kind 4 in link order and its
 * kind 5. */
enum charuco_violation {
    CHARUCO_UNKNOWN_MARKER = 1,             /* no marker has this id; words 0 to 2 */
    CHARUCO_MARKER_HAS_NO_FOUR_CORNERS = 2, /* the marker is on the rim; words 0 to 2 */
    CHARUCO_CORNER_NOT_IN_NEIGHBORHOOD = 3, /* the corner is none of the marker's four; words 0 to 6 */
    CHARUCO_DUPLICATE_CORNER = 4,           /* the link repeats an earlier one; words 0 to 6 */
    CHARUCO_MISSING_CORNERS = 5             /* corners of the marker without a link; words 0, 1 and 3 to 11; not with CHARUCO_SUBSET_OK */
};

/*
 * A record of a legacy board in the current layout, for readers that do not know the legacy flag. A legacy board with even rows and odd columns is a
 * current board rotated by 180 degrees: the codes of its M markers are listed in reverse, each rotated by 180 degrees, and the flag is cleared. With
 * odd rows only the flag is cleared. With even rows and even columns the record is refused 25. A record without the flag is copied as it is. Further
 * codes and every other byte stay: fields that only a match checks are not checked here.
 * A match of the new record has turn (r + 2) mod 4 and translation (cols - 1, rows - 1) - (tx, ty), corner translation (cols, rows) - (tx, ty), the
 * same evidence, marker ids M - 1 - id, and corner ids C - 1 - id with C inner corners, unless placements tie (docs/DIFFERENCES.md).
 * sheet, output, which must not overlap bytes: as many bytes as the record has (check 14). values: that number.
 */
uint32_t charuco_restate(const uint8_t *bytes, size_t bytes_len,
                         uint8_t *sheet, size_t sheet_len,
                         uint32_t *values, size_t values_len);

#ifdef __cplusplus
}
#endif

#endif
