/*
 * Prints the settings of each shot record, the result of charuco_match_board for it, and its numbered corners. Written from include/charuco.h
 * alone, not from the library's sources: where the header and the library disagree the output is wrong. examples/run compares it with the output in
 * samples/ and the settings with the bytes of the record.
 *
 *     from_header FILE...
 *     from_header --fields FILE...    rows, columns and cell size of the board, then u and v of each cell, for examples/expected_corners.awk
 *
 * Exit status: 0 every record was processed, 1 a file cannot be read or the output cannot be written, 2 no file is named.
 */
#include <errno.h>
#include <inttypes.h>
#include <stdio.h>
#include <string.h>

#include "charuco.h"

/* One byte more than a record may have, so that a longer file is refused. */
static uint8_t record[CHARUCO_MAX_RECORD_BYTES + 1];
static uint32_t markers[CHARUCO_MAX_CELLS * CHARUCO_MARKER_WORDS];
static uint64_t codes[CHARUCO_MAX_CODES];
static float scores[CHARUCO_MAX_CORNERS];
static int32_t grid[CHARUCO_MAX_CORNERS * CHARUCO_GRID_POINT_WORDS];
static uint32_t corners[CHARUCO_MAX_BOARD_CORNERS * CHARUCO_CORNER_WORDS];

static int32_t word_int(uint32_t word)
{
    int32_t n;
    memcpy(&n, &word, sizeof n);
    return n;
}

static float word_float(uint32_t word)
{
    float f;
    memcpy(&f, &word, sizeof f);
    return f;
}

static void print_refusal(const char *what, uint32_t number, const uint32_t *values)
{
    printf("%s refused %" PRIu32, what, number);
    if (number == CHARUCO_NOT_ENOUGH_DICTIONARY_CODES)
        printf(" needed %" PRIu32 " available %" PRIu32, values[0], values[1]);
    else if (number == CHARUCO_MARGIN)
        printf(" margin %.9g", (double)word_float(values[0]));
    printf("\n");
}

static void print_strength(uint32_t is_number, uint32_t evidence, uint32_t contributing_cells)
{
    if (is_number)
        printf(" evidence %.9g", (double)word_float(evidence));
    else
        printf(" evidence none");
    printf(" contributing cells %" PRIu32 "\n", contributing_cells);
}

/* Returns 0, or -1 after a message on stderr. */
static int read_file(const char *name, size_t *len)
{
    FILE *file;
    int failed;

    errno = 0;
    file = fopen(name, "rb");
    if (file == NULL) {
        fprintf(stderr, "%s: cannot open: %s\n", name, strerror(errno));
        return -1;
    }
    *len = fread(record, 1, sizeof record, file);
    failed = ferror(file);
    if (failed)
        fprintf(stderr, "%s: cannot read: %s\n", name, strerror(errno));
    if (fclose(file) != 0 && !failed) {
        fprintf(stderr, "%s: cannot close: %s\n", name, strerror(errno));
        failed = 1;
    }
    return failed ? -1 : 0;
}

/* Adds grid point (u, v) unless it is present; returns 0, or -1 if the array is full. */
static int add_corner(size_t *count, int32_t u, int32_t v)
{
    size_t k;
    for (k = 0; k < *count; k++)
        if (grid[k * CHARUCO_GRID_POINT_WORDS + 1] == u && grid[k * CHARUCO_GRID_POINT_WORDS + 2] == v)
            return 0;
    if (*count == CHARUCO_MAX_CORNERS)
        return -1;
    scores[k] = 1.0f;
    grid[k * CHARUCO_GRID_POINT_WORDS + 0] = 1;
    grid[k * CHARUCO_GRID_POINT_WORDS + 1] = u;
    grid[k * CHARUCO_GRID_POINT_WORDS + 2] = v;
    *count += 1;
    return 0;
}

/* Returns 1 and writes the header to head, or prints the refusal and returns 0. */
static int read_header(size_t len, uint32_t *head)
{
    const uint32_t saved = charuco_floats_enter();
    const uint32_t number = charuco_read_header(record, len, head, CHARUCO_HEADER_WORDS);

    charuco_floats_leave(saved);
    if (number != CHARUCO_OK)
        print_refusal("header", number, head);
    return number == CHARUCO_OK;
}

/* Returns 1 and writes cell k to cell, or prints the result and returns 0. */
static int read_cell(size_t len, size_t k, uint32_t *cell)
{
    const uint32_t saved = charuco_floats_enter();
    const uint32_t number = charuco_cell(record, len, k, cell, CHARUCO_CELL_WORDS);

    charuco_floats_leave(saved);
    if (number == CHARUCO_OK && cell[CHARUCO_CELL_STATE] != CHARUCO_CELL_ABSENT)
        return 1;
    printf("cell %zu: number %" PRIu32 ", state %" PRIu32 "\n", k, number, cell[CHARUCO_CELL_STATE]);
    return 0;
}

static void map_corners(size_t len, const uint32_t *match)
{
    uint32_t head[CHARUCO_HEADER_WORDS] = {0}, values[CHARUCO_REFUSAL_WORDS] = {0};
    uint32_t number, saved;
    size_t k, codes_len, cells_len, count = 0;

    if (!read_header(len, head))
        return;
    codes_len = head[CHARUCO_HEADER_CODES];
    cells_len = head[CHARUCO_HEADER_CELLS];
    if (codes_len > CHARUCO_MAX_CODES || cells_len > CHARUCO_MAX_CELLS) {
        printf("header: more codes or cells than a placed record has\n");
        return;
    }
    for (k = 0; k < codes_len; k++) {
        uint32_t code[CHARUCO_CODE_WORDS] = {0};
        saved = charuco_floats_enter();
        number = charuco_code(record, len, k, code, CHARUCO_CODE_WORDS);
        charuco_floats_leave(saved);
        if (number != CHARUCO_OK || code[0] != 1) {
            printf("code %zu: number %" PRIu32 ", presence %" PRIu32 "\n", k, number, code[0]);
            return;
        }
        codes[k] = (uint64_t)code[2] << 32 | code[1];
    }
    for (k = 0; k < cells_len; k++) {
        uint32_t cell[CHARUCO_CELL_WORDS] = {0};
        int32_t u, v;
        if (!read_cell(len, k, cell))
            return;
        u = word_int(cell[CHARUCO_CELL_U]);
        v = word_int(cell[CHARUCO_CELL_V]);
        if (add_corner(&count, u, v) != 0 || add_corner(&count, u + 1, v) != 0 ||
            add_corner(&count, u + 1, v + 1) != 0 || add_corner(&count, u, v + 1) != 0) {
            printf("more corners than %d\n", CHARUCO_MAX_CORNERS);
            return;
        }
    }

    {
        const float cell_size = word_float(head[CHARUCO_HEADER_CELL_SIZE]);
        const float marker_size_rel = word_float(head[CHARUCO_HEADER_MARKER_SIZE_REL]);
        saved = charuco_floats_enter();
        number = charuco_map_charuco_corners(head[CHARUCO_HEADER_ROWS], head[CHARUCO_HEADER_COLS], head[CHARUCO_HEADER_BITS],
                                             head[CHARUCO_HEADER_BORDER], head[CHARUCO_HEADER_LEGACY_PATTERN], cell_size, marker_size_rel,
                                             codes, codes_len, scores, count, grid, count * CHARUCO_GRID_POINT_WORDS,
                                             match[CHARUCO_CORNERS_TURN], word_int(match[CHARUCO_CORNERS_TX]),
                                             word_int(match[CHARUCO_CORNERS_TY]),
                                             corners, sizeof corners / sizeof corners[0],
                                             values, sizeof values / sizeof values[0]);
        charuco_floats_leave(saved);
    }
    if (number != CHARUCO_OK) {
        print_refusal("corners", number, values);
        return;
    }
    printf("corners %" PRIu32 "\n", values[0]);
    for (k = 0; k < values[0]; k++) {
        const uint32_t *c = corners + k * CHARUCO_CORNER_WORDS;
        const int32_t *g = grid + (size_t)c[CHARUCO_CORNER_INDEX] * CHARUCO_GRID_POINT_WORDS;
        printf("corner id %" PRIu32 " u %" PRId32 " v %" PRId32 "\n", c[CHARUCO_CORNER_ID], g[1], g[2]);
    }
}

static void show_fields(size_t len)
{
    uint32_t head[CHARUCO_HEADER_WORDS] = {0}, cell[CHARUCO_CELL_WORDS] = {0};
    size_t k;

    if (!read_header(len, head))
        return;
    printf("board %" PRIu32 " %" PRIu32 " %.17g\n", head[CHARUCO_HEADER_ROWS], head[CHARUCO_HEADER_COLS],
           (double)word_float(head[CHARUCO_HEADER_CELL_SIZE]));
    for (k = 0; k < head[CHARUCO_HEADER_CELLS]; k++) {
        if (!read_cell(len, k, cell))
            return;
        printf("cell %" PRId32 " %" PRId32 "\n", word_int(cell[CHARUCO_CELL_U]), word_int(cell[CHARUCO_CELL_V]));
    }
}

static void print_setting(const char *name, uint32_t word, const char *end)
{
    printf("%s %.9g%s", name, (double)word_float(word), end);
}

static void show_settings(size_t len)
{
    uint32_t head[CHARUCO_HEADER_WORDS] = {0};

    if (!read_header(len, head))
        return;
    print_setting("minimum margin", head[CHARUCO_HEADER_MINIMUM_MARGIN], ", ");
    print_setting("border threshold", head[CHARUCO_HEADER_BORDER_THRESHOLD], ", ");
    print_setting("px_per_square", head[CHARUCO_HEADER_PX_PER_SQUARE], ", ");
    print_setting("least weight", head[CHARUCO_HEADER_LEAST_WEIGHT], "\n");
}

static void show(size_t len)
{
    uint32_t match[CHARUCO_MATCH_WORDS] = {0};
    uint32_t number, saved;
    size_t k;

    saved = charuco_floats_enter();
    number = charuco_match_board(record, len, markers, sizeof markers / sizeof markers[0], match, CHARUCO_MATCH_WORDS);
    charuco_floats_leave(saved);
    if (number != CHARUCO_OK) {
        print_refusal("match", number, match);
        return;
    }
    printf("turn %" PRIu32 " tx %" PRId32 " ty %" PRId32, match[CHARUCO_BEST_TURN], word_int(match[CHARUCO_BEST_TX]),
           word_int(match[CHARUCO_BEST_TY]));
    print_strength(match[CHARUCO_BEST_IS_NUMBER], match[CHARUCO_BEST_EVIDENCE], match[CHARUCO_BEST_CONTRIBUTING_CELLS]);
    if (match[CHARUCO_NEXT_PRESENT]) {
        printf("next turn %" PRIu32 " tx %" PRId32 " ty %" PRId32, match[CHARUCO_NEXT_TURN], word_int(match[CHARUCO_NEXT_TX]),
               word_int(match[CHARUCO_NEXT_TY]));
        print_strength(match[CHARUCO_NEXT_IS_NUMBER], match[CHARUCO_NEXT_EVIDENCE], match[CHARUCO_NEXT_CONTRIBUTING_CELLS]);
    } else {
        printf("next absent\n");
    }
    printf("margin %.9g\n", (double)word_float(match[CHARUCO_MATCH_MARGIN]));
    printf("placements %" PRIu32 "\n", match[CHARUCO_MATCH_PLACEMENTS]);
    printf("markers %" PRIu32 "\n", match[CHARUCO_MATCH_MARKERS]);
    for (k = 0; k < match[CHARUCO_MATCH_MARKERS]; k++) {
        const uint32_t *m = markers + k * CHARUCO_MARKER_WORDS;
        printf("marker cell %" PRIu32 " id %" PRIu32 " differing %" PRIu32 "\n", m[CHARUCO_MARKER_CELL], m[CHARUCO_MARKER_ID],
               m[CHARUCO_MARKER_DIFFERING_BITS]);
    }
    map_corners(len, match);
}

int main(int argc, char **argv)
{
    const int fields = argc > 1 && strcmp(argv[1], "--fields") == 0;
    int k, status = 0;

    if (argc < 2 + fields) {
        fprintf(stderr, "usage: %s [--fields] FILE...\n", argv[0]);
        return 2;
    }
    for (k = 1 + fields; k < argc; k++) {
        size_t len;
        if (!fields)
            printf("%s\n", argv[k]);
        if (read_file(argv[k], &len) != 0) {
            printf("not read\n");
            status = 1;
        } else if (fields) {
            show_fields(len);
        } else {
            show_settings(len);
            show(len);
        }
    }
    if (fflush(stdout) != 0 || ferror(stdout)) {
        fprintf(stderr, "cannot write the output\n");
        status = 1;
    }
    return status;
}
