/*
 * Reads a shot record from standard input and prints its numbered corners: for each inner corner of the board that belongs to a cell of the
 * record, its id, its grid point and its point on the printed board. A program that relies on them first checks the match by the rule of
 * docs/SHEETS.md, "When to accept a placement". Exit status: 0 placed, 1 refused, 2 not read, 3 not written.
 */
#include <stdio.h>
#include <string.h>

#include "charuco.h"

static uint8_t record[CHARUCO_MAX_RECORD_BYTES + 1]; /* one more byte, so that a longer input is refused */
static uint32_t header[CHARUCO_HEADER_WORDS], match[CHARUCO_MATCH_WORDS], values[CHARUCO_CELL_WORDS];
static uint32_t markers[CHARUCO_MAX_CELLS * CHARUCO_MARKER_WORDS], corners[CHARUCO_MAX_BOARD_CORNERS * CHARUCO_CORNER_WORDS];
static uint64_t codes[CHARUCO_MAX_CODES];
static float scores[4 * CHARUCO_MAX_CELLS]; /* all 0: no corner is preferred */
static int32_t grid[4 * CHARUCO_MAX_CELLS * CHARUCO_GRID_POINT_WORDS];

static int told(const char *what, unsigned number, int status)
{
    fprintf(stderr, "minimal: %s %u\n", what, number);
    return status;
}

int main(void)
{
    size_t length = fread(record, 1, sizeof record, stdin), n = 0;
    if (ferror(stdin))
        return told("the record cannot be read, bytes so far:", (unsigned)length, 2);
    uint32_t number = charuco_match_board(record, length, markers, sizeof markers / 4, match, CHARUCO_MATCH_WORDS);
    if (number != CHARUCO_OK)
        return told("refused", number, 1);
    charuco_read_header(record, length, header, CHARUCO_HEADER_WORDS);
    for (uint32_t k = 0; k < header[CHARUCO_HEADER_CODES]; k++) {
        charuco_code(record, length, k, values, CHARUCO_CODE_WORDS);
        codes[k] = (uint64_t)values[2] << 32 | values[1];
    }
    for (uint32_t k = 0; k < header[CHARUCO_HEADER_CELLS]; k++) {
        int32_t cell[2];
        charuco_cell(record, length, k, values, CHARUCO_CELL_WORDS);
        memcpy(cell, values + CHARUCO_CELL_U, sizeof cell);
        for (int32_t c = 0; c < 4; c++, n++) {
            const int32_t point[CHARUCO_GRID_POINT_WORDS] = {1, cell[0] + c % 2, cell[1] + c / 2};
            memcpy(grid + n * CHARUCO_GRID_POINT_WORDS, point, sizeof point);
        }
    }
    float sizes[2], target[2];
    int32_t translation[2];
    memcpy(sizes, header + CHARUCO_HEADER_CELL_SIZE, sizeof sizes);
    memcpy(translation, match + CHARUCO_CORNERS_TX, sizeof translation);
    number = charuco_map_charuco_corners(header[CHARUCO_HEADER_ROWS], header[CHARUCO_HEADER_COLS], header[CHARUCO_HEADER_BITS],
                                         header[CHARUCO_HEADER_BORDER], header[CHARUCO_HEADER_LEGACY_PATTERN], sizes[0], sizes[1], codes,
                                         header[CHARUCO_HEADER_CODES], scores, n, grid, n * CHARUCO_GRID_POINT_WORDS, match[CHARUCO_CORNERS_TURN], translation[0], translation[1], corners,
                                         sizeof corners / 4, values, CHARUCO_REFUSAL_WORDS);
    if (number != CHARUCO_OK)
        return told("refused", number, 1);
    for (uint32_t k = 0; k < values[0]; k++) {
        const uint32_t *corner = corners + k * CHARUCO_CORNER_WORDS;
        const int32_t *point = grid + corner[CHARUCO_CORNER_INDEX] * CHARUCO_GRID_POINT_WORDS;
        memcpy(target, corner + CHARUCO_CORNER_TARGET_X, sizeof target);
        printf("corner %u grid point %d %d target %g %g\n", (unsigned)corner[CHARUCO_CORNER_ID], (int)point[1], (int)point[2], target[0], target[1]);
    }
    return fflush(stdout) == 0 && !ferror(stdout) ? 0 : told("not written, corners:", values[0], 3);
}
