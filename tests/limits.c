/*
 * Tests what the header states. Sizes, on both sides of each limit: the most codes and cells of a well-formed record, and the most corners of a
 * board. Arrays of corners: which words check 18 reads, and which corner is taken for an id. The legacy flag, codes that are equal up to rotation,
 * two cells with the same (u, v), the score array: its lengths and its elements, restated records, and the least weight.
 */
#include <stdio.h>
#include <stdlib.h>
#include <string.h>

#include "charuco.h"

static uint8_t record[CHARUCO_MAX_RECORD_BYTES + 8];
static uint64_t codes[CHARUCO_MAX_CODES];
static float scores[CHARUCO_MAX_CORNERS];
static int32_t grid[CHARUCO_MAX_CORNERS * CHARUCO_GRID_POINT_WORDS];
static uint32_t corners[CHARUCO_MAX_BOARD_CORNERS * CHARUCO_CORNER_WORDS];
static float cell_scores[CHARUCO_MAX_SCORES + 1];

static void check(int holds, const char *what)
{
    if (!holds) {
        printf("limits: %s\n", what);
        exit(1);
    }
}

/* Pseudorandom codes of side 8; no two of them are equal up to rotation. */
static void make_codes(void)
{
    for (uint64_t k = 0; k < CHARUCO_MAX_CODES; k++)
        codes[k] = (k + 1) * 0x9E3779B97F4A7C15u;
}

static void put_u16(size_t at, size_t x)
{
    record[at] = (uint8_t)x;
    record[at + 1] = (uint8_t)(x >> 8);
}

/* A record of zeros except for its two counts, without optional fields and sampled cells. */
static uint32_t read_counts(size_t n_codes, size_t n_cells, uint32_t *words)
{
    memset(record, 0, sizeof record);
    put_u16(13, n_codes);
    put_u16(15 + 8 * n_codes, n_cells);
    return charuco_read_header(record, 17 + 8 * n_codes + (n_cells + 7) / 8 + 4 * n_cells, words, CHARUCO_HEADER_WORDS);
}

/* All corners of a board of 32 by 32, and those on its edge, with an output array of so many words. */
static uint32_t map_corners(size_t words, uint32_t *count)
{
    for (int32_t k = 0; k < CHARUCO_MAX_CORNERS; k++) {
        grid[3 * k] = 1;
        grid[3 * k + 1] = k % 32;
        grid[3 * k + 2] = k / 32;
    }
    return charuco_map_charuco_corners(32, 32, 8, 1, 0, 1.0f, 0.5f, codes, 512, scores, CHARUCO_MAX_CORNERS, grid,
                                       CHARUCO_MAX_CORNERS * CHARUCO_GRID_POINT_WORDS, 0, 0, 0, corners, words, count, 1);
}

/* Corners on the diagonal of a board of 5 by 5, from (1, 1) on; one more corner, with this score and these words; and words past the last corner. */
static uint32_t map_diagonal(float score, int32_t labelled, int32_t u, int32_t v, size_t words, uint32_t *count)
{
    const int32_t last[2 * CHARUCO_GRID_POINT_WORDS] = {labelled, u, v, 1, 4097, 4097};
    for (int32_t k = 0; k < 4; k++) {
        const int32_t point[CHARUCO_GRID_POINT_WORDS] = {1, k + 1, k + 1};
        memcpy(grid + k * CHARUCO_GRID_POINT_WORDS, point, sizeof point);
        scores[k] = 0.0f;
    }
    memcpy(grid + 4 * CHARUCO_GRID_POINT_WORDS, last, sizeof last);
    scores[4] = score;
    return charuco_map_charuco_corners(5, 5, 8, 1, 0, 1.0f, 0.5f, codes, 12, scores, 5, grid, words, 0, 0, 0, corners, 16 * CHARUCO_CORNER_WORDS,
                                       count, CHARUCO_COUNT_WORDS);
}

static void check_corner_lists(void)
{
    const size_t all = 5 * CHARUCO_GRID_POINT_WORDS;
    const float infinite = 2.0f * 3.0e38f;
    uint32_t count = 0;
    check(map_diagonal(0.0f, 1, 1, 2, all, &count) == 0 && count == 5, "a corner of the diagonal is missing");
    check(map_diagonal(0.0f, 1, 1, 2, all - 3, &count) == 0 && count == 4, "a corner without words has a grid point");
    check(map_diagonal(0.0f, 1, 1, 2, all + 3, &count) == 0 && count == 5, "words past the last corner are read");
    check(map_diagonal(0.0f, 1, 4097, 0, all, &count) == CHARUCO_CORNERS_OUT_OF_RANGE, "a grid point out of range passes");
    check(map_diagonal(0.0f, 0, 4097, 0, all, &count) == 0 && count == 4, "u is checked without a grid point");
    check(map_diagonal(infinite, 0, 0, 0, all, &count) == CHARUCO_CORNERS_OUT_OF_RANGE, "a score is not checked without a grid point");
    check(map_diagonal(0.0f, 1, 2, 2, all, &count) == 0 && count == 4 && corners[CHARUCO_CORNER_WORDS + CHARUCO_CORNER_INDEX] == 1,
          "of two corners with the same score the later one is taken");
    check(map_diagonal(1.0f, 1, 2, 2, all, &count) == 0 && count == 4 && corners[CHARUCO_CORNER_WORDS + CHARUCO_CORNER_INDEX] == 4,
          "the corner with the lower score is taken");
}

/* The number of violations of the link of marker 3 and corner 0 on a board of 4 rows and 5 columns: without the legacy flag the marker is on square
 * (2, 1), with it on (1, 1), whose top left corner is corner 0. */
static uint32_t violations_with(uint32_t legacy_pattern)
{
    static const uint32_t link[CHARUCO_LINK_WORDS] = {3, 0};
    uint32_t violations[CHARUCO_VIOLATIONS_PER_LINK * CHARUCO_VIOLATION_WORDS], count = UINT32_MAX;
    uint32_t number = charuco_validate_marker_corner_links(4, 5, 8, 1, legacy_pattern, 1.0f, 0.5f, codes, 10, link, CHARUCO_LINK_WORDS,
                                                           CHARUCO_SUBSET_OK, violations, sizeof violations / 4, &count, 1);
    check(number == CHARUCO_OK, "links are refused");
    return count;
}

/* A board of 2 by 2 with these codes for markers 0 and 1, and one more code. */
static uint32_t board_with(uint64_t first, uint64_t second, uint64_t past)
{
    const uint64_t of_board[3] = {first, second, past};
    uint32_t count;
    return charuco_map_charuco_corners(2, 2, 8, 1, 0, 1.0f, 0.5f, of_board, 3, scores, 0, grid, 0, 0, 0, 0, corners, CHARUCO_CORNER_WORDS, &count, 1);
}

/* Bits 0, 7, 63 and 56 are the corners of a code, in the order of its turns. */
static void check_codes_alike(void)
{
    const uint64_t corner[4] = {1, 1ull << 7, 1ull << 63, 1ull << 56};
    for (int turn = 0; turn < 4; turn++)
        check(board_with(1, corner[turn], 0) == CHARUCO_CODES_ALIKE, "a rotated code passes");
    check(board_with(1, 2, 1) == CHARUCO_OK && board_with(1, 2, 2) == CHARUCO_OK, "a code past those of the markers is checked");
    check(board_with(0, UINT64_MAX, 0) == CHARUCO_OK, "a code that is equal to its own rotation is refused");
}

static void check_mark(void)
{
    check(violations_with(0) == 1, "a legacy flag of 0 makes a legacy board");
    check(violations_with(1) == 0 && violations_with(256) == 0 && violations_with(UINT32_MAX) == 0, "a legacy flag that is not 0 makes no legacy board");
}

/* Document 01's record with the built-in table and its cell twice, at (u, v) and (x, y), with this fraction; the second is sampled or not. Returns the
 * number of bytes. */
static size_t put_cells(int u, int v, int x, int y, int sampled, float fraction)
{
    static const uint8_t front[] = {0, 2, 2, 2, 1, 0, 0, 128, 63, 0, 0, 0, 63, 2, 0, 1, 0, 0, 0, 0, 0, 0, 0, 15, 0, 0, 0, 0, 0, 0, 0, 2, 0};
    static const uint8_t sample[] = {0, 0, 0, 0, 128, 0, 0, 0, 0, 0, 0, 255, 0, 0, 255, 255, 0, 0, 0, 0, 0};
    const size_t first = sizeof front + 1, second = first + 4 + sizeof sample;
    memcpy(record, front, sizeof front);
    record[sizeof front] = sampled ? 3 : 1;
    put_u16(first, (size_t)u);
    put_u16(first + 2, (size_t)v);
    put_u16(second, (size_t)x);
    put_u16(second + 2, (size_t)y);
    memcpy(record + first + 4, sample, sizeof sample);
    memcpy(record + second + 4, sample, sizeof sample);
    memcpy(record + first + 4, &fraction, sizeof fraction);
    memcpy(record + second + 4, &fraction, sizeof fraction);
    return second + 4 + (sampled ? sizeof sample : 0);
}

/* The error number of a match of these cells, with an output array of so many words. The fraction is 2, so check 13 fails for every record that passes
 * check 23. An error changes no array. */
static uint32_t match_cells(int u, int v, int x, int y, int sampled, size_t words)
{
    uint32_t markers[2 * CHARUCO_MARKER_WORDS] = {0}, match[CHARUCO_MATCH_WORDS] = {0};
    static const uint32_t zeros[2 * CHARUCO_MARKER_WORDS];
    uint32_t number = charuco_match_board(record, put_cells(u, v, x, y, sampled, 2.0f), markers, words, match, CHARUCO_MATCH_WORDS);
    check(memcmp(markers, zeros, sizeof markers) == 0 && memcmp(match, zeros, sizeof match) == 0, "a refusal writes to an output array");
    return number;
}

static void check_same_cells(void)
{
    const size_t room = 2 * CHARUCO_MARKER_WORDS;
    uint32_t words[CHARUCO_HEADER_WORDS];
    for (int k = 0; k < 625; k++) {
        const int u = k % 5 - 2, v = k / 5 % 5 - 2, x = k / 25 % 5 - 2, y = k / 125 - 2;
        const uint32_t number = u == x && v == y ? CHARUCO_REPEATED_POINT : CHARUCO_INVALID_SAMPLE;
        check(match_cells(u, v, x, y, 1, room) == number && match_cells(u, v, x, y, 0, room) == number,
              number == CHARUCO_REPEATED_POINT ? "a duplicate position passes" : "two different positions are refused");
    }
    check(match_cells(4096, -4096, 4096, -4096, 1, room) == CHARUCO_REPEATED_POINT, "a duplicate position at the limit passes");
    check(match_cells(0, 4096, 1, -4096, 1, room) == CHARUCO_INVALID_SAMPLE && match_cells(4096, 0, -4096, 1, 1, room) == CHARUCO_INVALID_SAMPLE,
          "the last position of a row is refused as the first of the next");
    check(match_cells(4097, 0, 4097, 0, 1, room) == CHARUCO_CELLS_OUT_OF_RANGE, "check 23 is made before check 12");
    check(match_cells(0, 0, 0, 0, 1, 0) == CHARUCO_REPEATED_POINT, "check 14 is made before check 23");
    const size_t length = put_cells(-1, 2, -1, 2, 1, 2.0f);
    check(charuco_read_header(record, length, words, CHARUCO_HEADER_WORDS) == 0 && words[CHARUCO_HEADER_CELLS] == 2, "two cells at the same position are not read");
    for (size_t k = 0; k < 2; k++) {
        check(charuco_cell(record, length, k, words, CHARUCO_CELL_WORDS) == 0 && words[CHARUCO_CELL_STATE] == CHARUCO_CELL_SAMPLED
              && words[CHARUCO_CELL_U] == UINT32_MAX && words[CHARUCO_CELL_V] == 2, "a cell at a duplicate position is not read");
        check(charuco_grid(record, length, k, words, CHARUCO_GRID_WORDS) == 0 && words[0] == length - 16 - (1 - k) * 25 && words[1] == 16,
              "the grid of a cell at a duplicate position is not read");
    }
}

/* The error number of a match with scores, with arrays of so many words and elements. After the call the first n elements are the expected ones; all
 * others have the NaN that they had before. */
static uint32_t match_with_scores(size_t length, size_t words, size_t elements, const float *expected, size_t n)
{
    uint32_t markers[CHARUCO_MAX_CELLS * CHARUCO_MARKER_WORDS], match[CHARUCO_MATCH_WORDS];
    memset(cell_scores, 255, sizeof cell_scores);
    uint32_t number = charuco_match_board_with_scores(record, length, cell_scores, elements, markers, words, match, CHARUCO_MATCH_WORDS);
    const uint8_t *after = (const uint8_t *)(cell_scores + n);
    check(memcmp(cell_scores, expected, n * sizeof *expected) == 0, "the score array is not filled as it should be");
    for (size_t k = 0; k < sizeof cell_scores - n * sizeof *expected; k++)
        check(after[k] == 255, "an element of the score array is written that should not be");
    return number;
}

/* A cell that shows code 1, and an unsampled one to its left, or so far off that no placement has both. A bit that differs adds -6 to a score. */
static void check_scores(void)
{
    static const float expected[16] = {0, -12, -12, -12, -18, -18, -18, -18};
    const size_t room = 2 * CHARUCO_MARKER_WORDS;
    for (int x = -1; x >= -9; x -= 8) {
        const uint32_t number = x == -1 ? CHARUCO_OK : CHARUCO_TRANSLATION_WINDOW;
        const size_t length = put_cells(0, 0, x, 0, 0, 1.0f);
        for (size_t elements = 0; elements < 16; elements++) {
            check(match_with_scores(length, room, elements, expected, 0) == CHARUCO_SCORE_LIST_TOO_SHORT, "a short score array is not refused");
            check(match_with_scores(length, room - 1, elements, expected, 0) == CHARUCO_LIST_TOO_SHORT, "check 24 is made before check 14");
        }
        check(match_with_scores(length, room, 16, expected, 16) == number, "a score array that is just long enough is refused");
        check(match_with_scores(length, room, 19, expected, 16) == number, "a longer score array is refused");
        check(match_with_scores(length, room - 1, 19, expected, 0) == CHARUCO_LIST_TOO_SHORT, "check 14 is not made");
    }
}

/* 256 unsampled cells on a board of 32 by 32: all scores are 0, and so is the margin. */
static void check_most_scores(void)
{
    static const float zeros[CHARUCO_MAX_SCORES];
    const float sizes[2] = {1.0f, 0.5f};
    const size_t n_codes = 512, cells = 15 + 8 * n_codes, first = cells + 2 + CHARUCO_MAX_CELLS / 8;
    const size_t length = first + 4 * CHARUCO_MAX_CELLS, room = CHARUCO_MAX_CELLS * CHARUCO_MARKER_WORDS;
    memset(record, 0, sizeof record);
    record[1] = record[2] = 32;
    record[3] = 8;
    record[4] = 1;
    memcpy(record + 5, sizes, sizeof sizes);
    put_u16(13, n_codes);
    memcpy(record + 15, codes, 8 * n_codes);
    put_u16(cells, CHARUCO_MAX_CELLS);
    for (size_t k = 0; k < CHARUCO_MAX_CELLS; k++) {
        put_u16(first + 4 * k, k % 16);
        put_u16(first + 4 * k + 2, k / 16);
    }
    check(match_with_scores(length, room, CHARUCO_MAX_SCORES - 1, zeros, 0) == CHARUCO_SCORE_LIST_TOO_SHORT, "fewer scores are enough");
    check(match_with_scores(length, room, CHARUCO_MAX_SCORES, zeros, CHARUCO_MAX_SCORES) == CHARUCO_MARGIN, "the most scores are not enough");
}

/* The error number of restating `front` with this map byte, rows and cols into an array of so many bytes, each 255 before. After the call the first n
 * bytes are the expected ones, and no other has changed. */
static uint32_t restate(uint8_t *front, size_t length, int map, int rows, int cols, size_t room, const uint8_t *expected, size_t n)
{
    uint8_t sheet[64];
    uint32_t count = 0;
    memset(sheet, 255, sizeof sheet);
    front[0] = (uint8_t)map;
    front[1] = (uint8_t)rows;
    front[2] = (uint8_t)cols;
    uint32_t number = charuco_restate(front, length, sheet, room, &count, 1);
    check(number != 0 || count == length, "another number of bytes is returned");
    check(memcmp(sheet, expected, n) == 0, "the record is not restated as it should be");
    for (size_t k = n; k < sizeof sheet; k++)
        check(sheet[k] == 255, "a byte is written that should not be");
    return number;
}

/* Codes 1, 3, 7 and 0 of side 2: a board of 2 by 3 has three markers, and rotated by 180 degrees 7, 3 and 1 are 14, 12 and 8. */
static void check_restated(void)
{
    uint8_t front[] = {0, 0, 0, 2, 1, 0, 0, 128, 63, 0, 0, 0, 63, 4, 0, 1, 0, 0, 0, 0, 0, 0, 0, 3, 0, 0, 0, 0, 0, 0, 0,
                       7, 0, 0, 0, 0, 0, 0, 0, 0, 0, 0, 0, 0, 0, 0, 0, 0, 0};
    uint8_t expected[sizeof front];
    const size_t length = sizeof front;
    memcpy(expected, front, length);
    expected[1] = 2;
    expected[2] = 3;
    check(restate(front, length, 0, 2, 3, length, expected, length) == 0, "a record without the flag is refused");
    expected[15] = 14;
    expected[23] = 12;
    expected[31] = 8;
    check(restate(front, length, 16, 2, 3, length, expected, length) == 0, "an array that is just long enough is refused");
    check(restate(front, length, 16, 2, 3, 64, expected, length) == 0, "a longer array is refused");
    for (size_t room = 0; room < length; room++)
        check(restate(front, length, 16, 2, 3, room, expected, 0) == CHARUCO_LIST_TOO_SHORT, "a short array is not refused");
    check(restate(front, length, 16, 2, 4, 0, expected, 0) == CHARUCO_EVEN_LEGACY_BOARD, "check 14 is made before check 25");
    check(restate(front, length, 16, 2, 5, length, expected, 0) == CHARUCO_NOT_ENOUGH_DICTIONARY_CODES, "too few codes are not refused");
    check(restate(front, length, 16 + 64, 2, 3, length, expected, 0) == CHARUCO_INVALID_RECORD
          && restate(front, length, 16 + 128, 2, 3, length, expected, 0) == CHARUCO_INVALID_RECORD, "a spare bit is not refused");
    memcpy(expected, front, length);
    expected[0] = 0;
    expected[1] = 3;
    expected[2] = 2;
    check(restate(front, length, 16, 3, 2, length, expected, length) == 0, "a legacy board with odd rows is refused");
    front[23] = 2;
    check(restate(front, length, 16, 2, 4, length, expected, 0) == CHARUCO_CODES_ALIKE, "check 25 is made before check 22");
}

/* The error number of both matches of the cells of check_scores, the sampled one with this fraction, and a least weight of this bit pattern. */
static uint32_t match_with_least(float fraction, uint32_t least_weight)
{
    uint32_t markers[2 * CHARUCO_MARKER_WORDS], match[CHARUCO_MATCH_WORDS], header[CHARUCO_HEADER_WORDS] = {0};
    const size_t length = put_cells(0, 0, -1, 0, 0, fraction) + sizeof least_weight;
    memmove(record + 1 + sizeof least_weight, record + 1, length - 1 - sizeof least_weight);
    record[0] = 32;
    memcpy(record + 1, &least_weight, sizeof least_weight);
    const uint32_t word = (least_weight & 0x7FFFFFFF) > 0x7F800000 ? 0x7FC00000 : least_weight; /* every NaN is 7FC00000 */
    check(charuco_read_header(record, length, header, CHARUCO_HEADER_WORDS) == 0 && header[CHARUCO_HEADER_LEAST_WEIGHT] == word,
          "the least weight is not read");
    uint32_t number = charuco_match_board(record, length, markers, 2 * CHARUCO_MARKER_WORDS, match, CHARUCO_MATCH_WORDS);
    check(charuco_match_board_with_scores(record, length, cell_scores, 16, markers, 2 * CHARUCO_MARKER_WORDS, match, CHARUCO_MATCH_WORDS) == number,
          "the match with scores has another result");
    return number;
}

/* The border threshold is 0.5, so that fraction 0.25 is weight 0.5. Without a weight above 0 the margin is 0. */
static void check_least_weight(void)
{
    static const uint32_t refused[] = {0x80000001, 0xBF800000, 0x3F800001, 0x7F7FFFFF, 0x7F800000, 0xFF800000, 0x7FC00000, 0x7F800001, UINT32_MAX};
    static const uint32_t passed[] = {0, 0x80000000, 1, 0x3EFFFFFF, 0x3F000000}; /* 0, -0, the least float, the next below 0.5, 0.5 */
    for (size_t k = 0; k < sizeof refused / sizeof *refused; k++)
        check(match_with_least(1.0f, refused[k]) == CHARUCO_INVALID_SETTINGS, "a least weight out of range is not refused");
    for (size_t k = 0; k < sizeof passed / sizeof *passed; k++) {
        check(match_with_least(0.25f, passed[k]) == CHARUCO_OK, "a weight that is not below the least one is 0");
        check(match_with_least(0.0f, passed[k]) == CHARUCO_MARGIN, "weight 0 contributes");
    }
    check(match_with_least(0.25f, 0x3F000001) == CHARUCO_MARGIN && match_with_least(0.25f, 0x3F800000) == CHARUCO_MARGIN,
          "a weight below the least one is not 0");
    check(match_with_least(0.5f, 0x3F800000) == CHARUCO_OK && match_with_least(1.0f, 0x3F800000) == CHARUCO_OK, "weight 1 is below 1");
}

int main(void)
{
    uint32_t words[CHARUCO_HEADER_WORDS], count = 0;
    make_codes();
    check(read_counts(CHARUCO_MAX_RECORD_CODES, 0, words) == 0 && words[CHARUCO_HEADER_CODES] == CHARUCO_MAX_RECORD_CODES, "the most codes are not read");
    check(read_counts(CHARUCO_MAX_RECORD_CODES + 1, 0, words) == CHARUCO_INVALID_RECORD, "a record holds more codes");
    check(read_counts(0, CHARUCO_MAX_RECORD_CELLS, words) == 0 && words[CHARUCO_HEADER_CELLS] == CHARUCO_MAX_RECORD_CELLS, "the most cells are not read");
    check(read_counts(0, CHARUCO_MAX_RECORD_CELLS + 1, words) == CHARUCO_INVALID_RECORD, "a record holds more cells");
    check(map_corners(CHARUCO_MAX_BOARD_CORNERS * CHARUCO_CORNER_WORDS - 1, &count) == CHARUCO_LIST_TOO_SHORT, "fewer words are enough");
    check(map_corners(CHARUCO_MAX_BOARD_CORNERS * CHARUCO_CORNER_WORDS, &count) == 0 && count == CHARUCO_MAX_BOARD_CORNERS, "a corner is missing");
    check_corner_lists();
    check_codes_alike();
    check_mark();
    check_same_cells();
    check_scores();
    check_most_scores();
    check_restated();
    check_least_weight();
    printf("limits: %d codes, %d cells, %d corners, %d scores\n", CHARUCO_MAX_RECORD_CODES, CHARUCO_MAX_RECORD_CELLS, CHARUCO_MAX_BOARD_CORNERS,
           CHARUCO_MAX_SCORES);
    return 0;
}
