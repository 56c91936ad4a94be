/*
 * A cabinet's loop: reads each record file and prints markers and corners, or the error number. Every corner of a cell of the record serves as
 * a detected corner; each marker found is linked with the corners of its cell, and the links are checked.
 *
 *     cabinet FILE...
 *
 * Exit status: 0 every record was processed, 2 a file cannot be read, 3 the output cannot be written.
 */
#include <stdio.h>
#include <string.h>

#include "charuco.h"

/* One byte more than the longest record, so that a longer file is refused. */
static uint8_t record[CHARUCO_MAX_RECORD_BYTES + 1];
static uint64_t codes[CHARUCO_MAX_CODES];
static uint32_t markers[CHARUCO_MAX_CELLS * CHARUCO_MARKER_WORDS];
static float scores[4 * CHARUCO_MAX_CELLS];
static int32_t grid[4 * CHARUCO_MAX_CELLS * CHARUCO_GRID_POINT_WORDS];
static uint32_t corners[CHARUCO_MAX_BOARD_CORNERS * CHARUCO_CORNER_WORDS];
static uint32_t links[4 * CHARUCO_MAX_CELLS * CHARUCO_LINK_WORDS];
static uint32_t violations[4 * CHARUCO_MAX_CELLS * CHARUCO_VIOLATIONS_PER_LINK * CHARUCO_VIOLATION_WORDS];

#define LENGTH(list) (sizeof(list) / sizeof((list)[0]))

/* Offsets of a cell's four corners: top left, top right, bottom right, bottom left. */
static const int32_t right[4] = {0, 1, 1, 0};
static const int32_t down[4] = {0, 0, 1, 1};

static float float_of(uint32_t bits)
{
    float x;
    memcpy(&x, &bits, sizeof x);
    return x;
}

static int32_t signed_of(uint32_t word)
{
    int32_t z;
    memcpy(&z, &word, sizeof z);
    return z;
}

static void print_refusal(uint32_t number, const uint32_t *values)
{
    printf("  refused %lu", (unsigned long)number);
    if (number == CHARUCO_NOT_ENOUGH_DICTIONARY_CODES)
        printf(", %lu codes needed, %lu available", (unsigned long)values[0], (unsigned long)values[1]);
    if (number == CHARUCO_MARGIN)
        printf(", margin %g", float_of(values[0]));
    printf("\n");
}

/* Reads the file into `record` and sets the length; stops one byte past the longest record. */
static int read_file(const char *name, size_t *length)
{
    FILE *file = fopen(name, "rb");
    if (file == NULL)
        return 0;
    *length = fread(record, 1, sizeof record, file);
    int failed = ferror(file);
    fclose(file);
    return !failed;
}

/* Fills `codes`, `scores` and `grid` from the codes and cells of the record. */
static void read_lists(size_t length, uint32_t n_codes, uint32_t n_cells)
{
    uint32_t words[CHARUCO_CELL_WORDS];
    for (uint32_t k = 0; k < n_codes; k++) {
        charuco_code(record, length, k, words, LENGTH(words));
        codes[k] = (uint64_t)words[2] << 32 | words[1];
    }
    for (uint32_t k = 0; k < n_cells; k++) {
        charuco_cell(record, length, k, words, LENGTH(words));
        for (uint32_t c = 0; c < 4; c++) {
            int32_t *point = grid + CHARUCO_GRID_POINT_WORDS * (4 * k + c);
            scores[4 * k + c] = 1.0f;
            point[0] = 1;
            point[1] = signed_of(words[CHARUCO_CELL_U]) + right[c];
            point[2] = signed_of(words[CHARUCO_CELL_V]) + down[c];
        }
    }
}

static int same_point(uint32_t a, uint32_t b)
{
    return memcmp(grid + CHARUCO_GRID_POINT_WORDS * a, grid + CHARUCO_GRID_POINT_WORDS * b,
                  CHARUCO_GRID_POINT_WORDS * sizeof grid[0]) == 0;
}

/* Writes a link for each marker and each mapped corner of its cell; returns the number of words. */
static size_t make_links(uint32_t n_markers, uint32_t n_corners)
{
    size_t n = 0;
    for (uint32_t m = 0; m < n_markers; m++) {
        const uint32_t *marker = markers + CHARUCO_MARKER_WORDS * m;
        for (uint32_t c = 0; c < 4; c++) {
            for (uint32_t k = 0; k < n_corners; k++) {
                const uint32_t *corner = corners + CHARUCO_CORNER_WORDS * k;
                if (same_point(4 * marker[CHARUCO_MARKER_CELL] + c, corner[CHARUCO_CORNER_INDEX])) {
                    links[n++] = marker[CHARUCO_MARKER_ID];
                    links[n++] = corner[CHARUCO_CORNER_ID];
                }
            }
        }
    }
    return n;
}

static void print_match(const uint32_t *match)
{
    printf("  placed: turn %lu, tx %ld, ty %ld, contributing cells %lu, margin %g, %lu placements\n",
           (unsigned long)match[CHARUCO_BEST_TURN], (long)signed_of(match[CHARUCO_BEST_TX]), (long)signed_of(match[CHARUCO_BEST_TY]),
           (unsigned long)match[CHARUCO_BEST_CONTRIBUTING_CELLS], float_of(match[CHARUCO_MATCH_MARGIN]),
           (unsigned long)match[CHARUCO_MATCH_PLACEMENTS]);
    for (uint32_t m = 0; m < match[CHARUCO_MATCH_MARKERS]; m++) {
        const uint32_t *marker = markers + CHARUCO_MARKER_WORDS * m;
        printf("  marker %lu in cell %lu, %lu bits differ\n", (unsigned long)marker[CHARUCO_MARKER_ID],
               (unsigned long)marker[CHARUCO_MARKER_CELL], (unsigned long)marker[CHARUCO_MARKER_DIFFERING_BITS]);
    }
}

/* Prints the corners for a match, and checks the links of its markers. */
static void corners_and_links(const uint32_t *header, const uint32_t *match)
{
    uint32_t values[CHARUCO_REFUSAL_WORDS];
    const uint32_t rows = header[CHARUCO_HEADER_ROWS], cols = header[CHARUCO_HEADER_COLS];
    const uint32_t bits = header[CHARUCO_HEADER_BITS], border = header[CHARUCO_HEADER_BORDER];
    const uint32_t legacy = header[CHARUCO_HEADER_LEGACY_PATTERN];
    const float cell_size = float_of(header[CHARUCO_HEADER_CELL_SIZE]), marker_size_rel = float_of(header[CHARUCO_HEADER_MARKER_SIZE_REL]);
    const size_t n_codes = header[CHARUCO_HEADER_CODES], n_scores = (size_t)4 * header[CHARUCO_HEADER_CELLS];
    uint32_t number = charuco_map_charuco_corners(rows, cols, bits, border, legacy, cell_size, marker_size_rel, codes, n_codes, scores,
                                                  n_scores, grid, n_scores * CHARUCO_GRID_POINT_WORDS, match[CHARUCO_CORNERS_TURN],
                                                  signed_of(match[CHARUCO_CORNERS_TX]), signed_of(match[CHARUCO_CORNERS_TY]), corners,
                                                  LENGTH(corners), values, LENGTH(values));
    if (number != CHARUCO_OK) {
        print_refusal(number, values);
        return;
    }
    uint32_t n_corners = values[0];
    for (uint32_t k = 0; k < n_corners; k++) {
        const uint32_t *corner = corners + CHARUCO_CORNER_WORDS * k;
        const int32_t *point = grid + CHARUCO_GRID_POINT_WORDS * corner[CHARUCO_CORNER_INDEX];
        printf("  corner %lu at grid point %ld %ld, board corner %lu %lu, target %g %g\n", (unsigned long)corner[CHARUCO_CORNER_ID],
               (long)point[1], (long)point[2], (unsigned long)corner[CHARUCO_CORNER_I], (unsigned long)corner[CHARUCO_CORNER_J],
               float_of(corner[CHARUCO_CORNER_TARGET_X]), float_of(corner[CHARUCO_CORNER_TARGET_Y]));
    }
    size_t n_links = make_links(match[CHARUCO_MATCH_MARKERS], n_corners);
    number = charuco_validate_marker_corner_links(rows, cols, bits, border, legacy, cell_size, marker_size_rel, codes, n_codes, links, n_links,
                                                  CHARUCO_MUST_MATCH_ALL_4, violations, LENGTH(violations), values, LENGTH(values));
    if (number != CHARUCO_OK)
        print_refusal(number, values);
    else
        printf("  %lu links, %lu violations\n", (unsigned long)(n_links / CHARUCO_LINK_WORDS), (unsigned long)values[0]);
}

static void place(size_t length)
{
    uint32_t header[CHARUCO_HEADER_WORDS];
    uint32_t match[CHARUCO_MATCH_WORDS];
    uint32_t number = charuco_match_board(record, length, markers, LENGTH(markers), match, LENGTH(match));
    if (number != CHARUCO_OK) {
        print_refusal(number, match);
        return;
    }
    print_match(match);
    /* The record was placed, so it is well-formed and has at most CHARUCO_MAX_CODES codes and CHARUCO_MAX_CELLS cells. */
    charuco_read_header(record, length, header, LENGTH(header));
    read_lists(length, header[CHARUCO_HEADER_CODES], header[CHARUCO_HEADER_CELLS]);
    corners_and_links(header, match);
}

int main(int argc, char **argv)
{
    for (int i = 1; i < argc; i++) {
        size_t length;
        printf("%s\n", argv[i]);
        if (!read_file(argv[i], &length)) {
            fprintf(stderr, "cabinet: cannot read '%s'\n", argv[i]);
            return 2;
        }
        place(length);
    }
    if (fflush(stdout) != 0 || ferror(stdout)) {
        fprintf(stderr, "cabinet: cannot write the standard output\n");
        return 3;
    }
    return 0;
}
