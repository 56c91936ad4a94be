/*
 * The caller's floating-point settings: results for records under other settings of MXCSR, with charuco_floats_enter and charuco_floats_leave and
 * without them. With them every result must be that of the default setting, bit for bit. Without them at least one must differ under each setting,
 * so that the comparison can fail; with exceptions unmasked a signal must end the process.
 *
 *     floats [--other] FILE...
 *
 * The records are those of the files and thousands that are made here with integers only, so that no setting changes them. The setting at the
 * start of the program is one of those tried; with --other it must not be the default, as in a program linked with -ffast-math. The last line
 * has a digest of the results under the default setting: it is the same in every build.
 */
#define _POSIX_C_SOURCE 200809L
#include <signal.h>
#include <stdio.h>
#include <stdlib.h>
#include <string.h>
#include <sys/wait.h>
#include <unistd.h>

#include "charuco.h"

#define MADE 6000
#define DEFAULT 0x1F80u
#define MASKS 0x1F80u
#define LENGTH(list) (sizeof(list) / sizeof((list)[0]))

static uint8_t record[CHARUCO_MAX_RECORD_BYTES + 1];
static size_t record_length;

static uint32_t mxcsr(void)
{
    uint32_t x;
    __asm__ __volatile__("stmxcsr %0" : "=m"(x) : : "memory");
    return x;
}

static void set_mxcsr(uint32_t x)
{
    __asm__ __volatile__("ldmxcsr %0" : : "m"(x) : "memory");
}

static void fail(const char *what, const char *which)
{
    printf("floats: %s: %s\n", what, which);
    exit(1);
}

/* ---- records */

static uint64_t state = 0x9E3779B97F4A7C15u;

static uint64_t random64(void)
{
    state ^= state << 13;
    state ^= state >> 7;
    state ^= state << 17;
    return state * 0x2545F4914F6CDD1Du;
}

static uint32_t below(uint32_t n)
{
    return (uint32_t)(random64() >> 32) % n;
}

static void put(uint64_t x, int bytes)
{
    for (int k = 0; k < bytes; k++)
        record[record_length++] = (uint8_t)(x >> (8 * k));
}

/* Bit pattern of a float above 0 and at most 1: subnormal, of any exponent, 1, or in most cases at least 2^-12. */
static uint32_t fraction_bits(void)
{
    switch (below(8)) {
    case 0:
        return 1 + below(0x7FFFFF);
    case 1:
        return 0x800000 + below(0x3F000000);
    case 2:
        return 0x3F800000;
    default:
        return 0x39800000 + below(0x3F800000 - 0x39800000);
    }
}

/* A table entry from -8 to 0: one in four is 0 or subnormal. */
static uint32_t entry_bits(void)
{
    if (below(4) == 0)
        return below(0x800000) | 0x80000000;
    return 0x80000000 | (0x3A000000 + below(0x41000000 - 0x3A000000));
}

static void put_cells(uint32_t rows, uint32_t cols, uint32_t bits, uint32_t border, const uint64_t *codes)
{
    uint32_t across = 1 + below(cols < 4 ? cols : 4), down = 1 + below(rows < 3 ? rows : 3), n = across * down;
    uint32_t i0 = below(cols - across + 1), j0 = below(rows - down + 1), side = bits + 2 * border, faint = below(3);
    uint32_t sampled = (1u << n) - 1 - (below(3) == 0 ? below(1u << n) : 0);
    put(n, 2);
    put(sampled, (int)(n + 7) / 8);
    for (uint32_t k = 0; k < n; k++) {
        uint32_t i = i0 + k % across, j = j0 + k / across;
        uint64_t code = (i + j) % 2 == 1 ? codes[(j * cols + i) / 2] : random64();
        put(k % across, 2);
        put(k / across, 2);
        if ((sampled >> k & 1) == 0)
            continue;
        put(faint == 0 ? 1 + below(0x7FFFFF) : fraction_bits(), 4);
        put(96 + below(64), 1);
        for (uint32_t y = 0; y < side; y++)
            for (uint32_t x = 0; x < side; x++) {
                int inside = border <= x && x < border + bits && border <= y && y < border + bits;
                int black = !inside || (code >> ((y - border) * bits + x - border) & 1);
                put(black ? below(120) : 255 - below(120), 1);
            }
    }
}

static uint64_t turned(uint64_t code, uint32_t n)
{
    uint64_t out = 0;
    for (uint32_t y = 0; y < n; y++)
        for (uint32_t x = 0; x < n; x++)
            out |= (code >> ((n - 1 - x) * n + y) & 1) << (y * n + x);
    return out;
}

/* A code of side n that is not equal up to rotation to a code before it. */
static uint64_t new_code(const uint64_t *codes, uint32_t count, uint32_t n)
{
    uint64_t code = random64() >> (64 - n * n);
    for (uint32_t k = 0; k < count; k++)
        for (int turn = 0; turn < 4; turn++, code = turned(code, n))
            if (code == codes[k])
                return new_code(codes, count, n);
    return code;
}

/* A board, its codes, and cells that show a part of it, more or less clearly. */
static void make_record(void)
{
    static uint64_t codes[CHARUCO_MAX_CODES];
    uint32_t given = below(16) | 1 | below(2) << 5, rows = 2 + below(6), cols = 2 + below(6), bits = 3 + below(3), border = 1 + below(2);
    uint32_t n_codes = rows * cols / 2 + below(3);
    record_length = 0;
    put(given, 1);
    put(below(4) == 0 ? 0x3D4CCCCD : 0xC2C80000, 4); /* 0.05 or -100 */
    if (given & 2)
        put(below(4) == 0 ? 0x3F000000 + below(0x400000) : fraction_bits(), 4);
    if (given & 4)
        put(fraction_bits() + 0x2000000 * below(2), 4);
    for (int k = 0; given & 8 && k < 511; k++)
        put(entry_bits(), 4);
    if (given & 32)
        put(fraction_bits(), 4);
    put(rows, 1);
    put(cols, 1);
    put(bits, 1);
    put(border, 1);
    put(fraction_bits(), 4);
    put(fraction_bits(), 4);
    put(n_codes, 2);
    for (uint32_t k = 0; k < n_codes; k++) {
        codes[k] = new_code(codes, k, bits);
        put(codes[k], 8);
    }
    put_cells(rows, cols, bits, border, codes);
}

static void read_record(const char *name)
{
    FILE *file = fopen(name, "rb");
    if (file == NULL)
        fail("cannot read", name);
    record_length = fread(record, 1, sizeof record, file);
    if (ferror(file))
        fail("cannot read", name);
    fclose(file);
}

/* ---- results */

struct answers {
    uint32_t numbers[9];
    uint32_t match[CHARUCO_MATCH_WORDS];
    uint32_t markers[CHARUCO_MAX_CELLS * CHARUCO_MARKER_WORDS];
    uint32_t header[CHARUCO_HEADER_WORDS];
    uint32_t entry[CHARUCO_TABLE_ENTRY_WORDS], code[CHARUCO_CODE_WORDS], cell[CHARUCO_CELL_WORDS], part[CHARUCO_GRID_WORDS];
    uint32_t counts[3];
    int32_t cells[CHARUCO_MAX_CELLS * CHARUCO_MARKER_CELL_WORDS];
    uint32_t corners[CHARUCO_MAX_BOARD_CORNERS * CHARUCO_CORNER_WORDS];
    uint32_t violations[8 * CHARUCO_VIOLATIONS_PER_LINK * CHARUCO_VIOLATION_WORDS];
};

/* The arrays of a record, read once, under the default setting. */
static uint32_t header[CHARUCO_HEADER_WORDS];
static uint64_t codes[CHARUCO_MAX_CODES];
static float sizes[2], scores[36];
static int32_t grid[LENGTH(scores) * CHARUCO_GRID_POINT_WORDS];
static size_t inliers[LENGTH(scores)];
static const uint32_t links[16] = {0, 0, 1, 0, 3, 1, 3, 1, 3, 9, 90, 0, 4, 2, 4, 3};

static void read_lists(void)
{
    uint32_t words[CHARUCO_CODE_WORDS];
    memset(header, 0, sizeof header);
    charuco_read_header(record, record_length, header, LENGTH(header));
    memcpy(sizes, header + CHARUCO_HEADER_CELL_SIZE, sizeof sizes);
    for (uint32_t k = 0; k < header[CHARUCO_HEADER_CODES] && k < LENGTH(codes); k++) {
        charuco_code(record, record_length, k, words, LENGTH(words));
        codes[k] = (uint64_t)words[2] << 32 | words[1];
    }
    for (uint32_t k = 0; k < LENGTH(scores); k++) {
        const uint32_t bits = fraction_bits() | (k % 2) << 31;
        memcpy(&scores[k], &bits, sizeof bits);
        grid[3 * k] = 1;
        grid[3 * k + 1] = (int32_t)(k % 6 / 2 * 2);
        grid[3 * k + 2] = (int32_t)(k / 6 % 3);
        inliers[k] = k;
    }
}

/* A call, between the two functions or without them. */
static int guarded;
#define ASK(k, call)                                            \
    do {                                                        \
        uint32_t saved_ = guarded ? charuco_floats_enter() : 0; \
        a->numbers[k] = call;                                   \
        if (guarded)                                            \
            charuco_floats_leave(saved_);                       \
    } while (0)

static void ask(struct answers *a)
{
    const uint32_t rows = header[CHARUCO_HEADER_ROWS], cols = header[CHARUCO_HEADER_COLS];
    const uint32_t bits = header[CHARUCO_HEADER_BITS], border = header[CHARUCO_HEADER_BORDER];
    const uint32_t legacy = header[CHARUCO_HEADER_LEGACY_PATTERN];
    size_t n = record_length, n_codes = header[CHARUCO_HEADER_CODES] < LENGTH(codes) ? header[CHARUCO_HEADER_CODES] : LENGTH(codes);
    ASK(0, charuco_match_board(record, n, a->markers, LENGTH(a->markers), a->match, LENGTH(a->match)));
    ASK(1, charuco_read_header(record, n, a->header, LENGTH(a->header)));
    ASK(2, charuco_table_entry(record, n, 7, a->entry, LENGTH(a->entry)));
    ASK(3, charuco_code(record, n, 0, a->code, LENGTH(a->code)));
    ASK(4, charuco_cell(record, n, 0, a->cell, LENGTH(a->cell)));
    ASK(5, charuco_grid(record, n, 0, a->part, LENGTH(a->part)));
    ASK(6, charuco_build_marker_cells(scores, LENGTH(scores), grid, LENGTH(grid), inliers, LENGTH(inliers), a->cells, LENGTH(a->cells),
                                      &a->counts[0], 1));
    ASK(7, charuco_map_charuco_corners(rows, cols, bits, border, legacy, sizes[0], sizes[1], codes, n_codes, scores, LENGTH(scores), grid,
                                       LENGTH(grid), 0, 1, 1, a->corners, LENGTH(a->corners), &a->counts[1], 1));
    ASK(8, charuco_validate_marker_corner_links(rows, cols, bits, border, legacy, sizes[0], sizes[1], codes, n_codes, links, LENGTH(links),
                                                CHARUCO_MUST_MATCH_ALL_4, a->violations, LENGTH(a->violations), &a->counts[2], 1));
}

/* ---- settings */

static struct {
    const char *name;
    uint32_t bits;
    unsigned long plain, plain_match; /* the number of records that differ without the two functions, and of those that differ in Match */
} settings[] = {
    {"flush-to-zero", DEFAULT | 0x8000, 0, 0}, {"denormals-are-zero", DEFAULT | 0x0040, 0, 0}, {"both", DEFAULT | 0x8040, 0, 0},
    {"round down", DEFAULT | 0x2000, 0, 0},    {"round up", DEFAULT | 0x4000, 0, 0},           {"round toward zero", DEFAULT | 0x6000, 0, 0},
    {"as started", 0, 0, 0},
};
#define STARTED (LENGTH(settings) - 1)

static struct answers expected, answers;
static unsigned long placed;
static uint64_t digest = 14695981039346656037u;

static int differ(size_t n)
{
    return memcmp(&expected, &answers, n) != 0;
}

static void ask_under(uint32_t bits, int with)
{
    memset(&answers, 0, sizeof answers);
    guarded = with;
    set_mxcsr(bits);
    ask(&answers);
    uint32_t left = mxcsr();
    set_mxcsr(DEFAULT);
    if (with && left != bits)
        fail("MXCSR is not restored", "charuco_floats_leave");
}

/* The record under each setting. With exceptions unmasked it is tried only between the two functions, as a signal would end the process. */
static void try_record(const char *name)
{
    memset(&expected, 0, sizeof expected);
    read_lists();
    guarded = 0;
    ask(&expected);
    placed += expected.numbers[0] == 0;
    for (size_t k = 0; k < sizeof expected; k++)
        digest = (digest ^ ((const uint8_t *)&expected)[k]) * 1099511628211u;
    for (size_t k = 0; k < LENGTH(settings); k++) {
        ask_under(settings[k].bits, 1);
        if (differ(sizeof expected))
            fail(name, "a result between the two functions is not that of the default setting");
        ask_under(settings[k].bits, 0);
        settings[k].plain += (unsigned long)differ(sizeof expected);
        settings[k].plain_match += expected.numbers[0] != answers.numbers[0] || memcmp(expected.match, answers.match, sizeof answers.match) != 0
                                   || memcmp(expected.markers, answers.markers, sizeof answers.markers) != 0;
    }
    ask_under(DEFAULT & ~MASKS, 1);
    if (differ(sizeof expected))
        fail(name, "a result differs with exceptions unmasked");
}

/* SIGFPE ends a process that unmasks exceptions and calls without the two functions. */
static int signal_comes(void)
{
    int status = 0;
    fflush(stdout);
    pid_t child = fork();
    if (child == 0) {
        ask_under(DEFAULT & ~MASKS, 0);
        _exit(0);
    }
    if (child < 0 || waitpid(child, &status, 0) != child)
        fail("cannot run", "a process");
    return WIFSIGNALED(status) && WTERMSIG(status) == SIGFPE;
}

int main(int argc, char **argv)
{
    int other = argc > 1 && strcmp(argv[1], "--other") == 0;
    settings[STARTED].bits = mxcsr();
    set_mxcsr(DEFAULT);
    if (other != (settings[STARTED].bits != DEFAULT))
        fail("the setting at the start is", other ? "the default" : "not the default");
    set_mxcsr(0);
    if (charuco_floats_enter() != 0 || mxcsr() != DEFAULT)
        fail("MXCSR is not the default", "charuco_floats_enter");
    for (int k = 1 + other; k < argc; k++) {
        read_record(argv[k]);
        try_record(argv[k]);
    }
    if (argc > 1 + other && !signal_comes())
        fail("no signal", "exceptions unmasked");
    for (int k = 0; k < MADE; k++) {
        make_record();
        try_record("a record that was made");
    }
    for (size_t k = 0; k < LENGTH(settings) - !other; k++) {
        printf("floats: %-18s %04lX: %lu of %d records differ without the two functions (%lu in Match), 0 with them\n", settings[k].name,
               (unsigned long)settings[k].bits, settings[k].plain, MADE + argc - 1 - other, settings[k].plain_match);
        if (settings[k].plain_match == 0)
            fail("no result differs", settings[k].name);
    }
    printf("floats: %lu records placed, digest %016llX\n", placed, (unsigned long long)digest);
    return 0;
}
