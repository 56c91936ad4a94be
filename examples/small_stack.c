/*
 * Runs every function on a thread with a 64 KiB stack above a guard page, compares the results with those on the main thread, and measures
 * the stack that each function takes. The record is as large as a match allows: 256 cells of 8 by 8 bits on a board of 32 by 32, with its own
 * likelihood table and a least weight.
 *
 * The stack below the caller is filled with a pattern before a call; afterwards the lowest changed byte is searched. The same call of a
 * function that only returns shows the position of the return address; bytes are counted from there, including the return address.
 */
#define _GNU_SOURCE
#include <pthread.h>
#include <stdio.h>
#include <stdlib.h>
#include <string.h>
#include <sys/mman.h>
#include <sys/wait.h>
#include <unistd.h>

#include "charuco.h"

#define STACK_BYTES 65536
#define SIDE 32
#define BITS 8
#define BORDER 3
#define GRID_SIDE (BITS + 2 * BORDER)
#define CELLS_ACROSS 16
#define CODES (SIDE * SIDE / 2)
#define FIELDS (8 + 32) /* map byte: likelihood table and least weight */
#define COLS_AT 2050    /* offsets in the record */
#define CODES_AT 2063
#define LENGTH(list) (sizeof(list) / sizeof((list)[0]))

static uint8_t record[CHARUCO_MAX_RECORD_BYTES], legacy_record[CHARUCO_MAX_RECORD_BYTES];
static size_t record_length;
static uint64_t codes[CODES];
static float scores[CHARUCO_MAX_CORNERS];
static int32_t grid[CHARUCO_MAX_CORNERS * CHARUCO_GRID_POINT_WORDS];
static size_t inliers[CHARUCO_MAX_CORNERS];
static uint32_t links[CHARUCO_MAX_LINKS * CHARUCO_LINK_WORDS];

/* Everything that the entry points return and write. */
struct answers {
    uint32_t numbers[11];
    uint32_t header[CHARUCO_HEADER_WORDS];
    uint32_t entry[CHARUCO_TABLE_ENTRY_WORDS];
    uint32_t code[CHARUCO_CODE_WORDS];
    uint32_t cell[CHARUCO_CELL_WORDS];
    uint32_t part[CHARUCO_GRID_WORDS];
    uint32_t match[CHARUCO_MATCH_WORDS];
    uint32_t second_match[CHARUCO_MATCH_WORDS];
    uint32_t counts[4];
    uint8_t sheet[CHARUCO_MAX_RECORD_BYTES];
    uint32_t markers[CHARUCO_MAX_CELLS * CHARUCO_MARKER_WORDS];
    uint32_t second_markers[CHARUCO_MAX_CELLS * CHARUCO_MARKER_WORDS];
    float cell_scores[CHARUCO_MAX_SCORES];
    int32_t cells[CHARUCO_MAX_CELLS * CHARUCO_MARKER_CELL_WORDS];
    uint32_t corners[CHARUCO_MAX_CORNERS * CHARUCO_CORNER_WORDS];
    uint32_t violations[CHARUCO_MAX_LINKS * CHARUCO_VIOLATIONS_PER_LINK * CHARUCO_VIOLATION_WORDS];
};

static struct answers on_main, on_small;

static void put(const void *bytes, size_t n)
{
    memcpy(record + record_length, bytes, n);
    record_length += n;
}

static void put_byte(unsigned x)
{
    uint8_t byte = (uint8_t)x;
    put(&byte, 1);
}

static void put_u16(unsigned x)
{
    put_byte(x % 256);
    put_byte(x / 256 % 256);
}

static void put_float(float x)
{
    put(&x, sizeof x);
}

static uint64_t next_code(void)
{
    static uint64_t x = 88172645463325252u;
    x ^= x << 13;
    x ^= x >> 7;
    x ^= x << 17;
    return x;
}

/* The grey level at a field of a marker's cell: black is 0. A set bit is black, and so is the border. */
static unsigned grey(uint64_t code, int column, int row)
{
    int x = column - BORDER, y = row - BORDER;
    if (x < 0 || BITS <= x || y < 0 || BITS <= y)
        return 0;
    return code >> (y * BITS + x) & 1 ? 0 : 255;
}

/* Cell (x, y) is on square (x + 1, y) and shows that square's marker, or code 0 for a square without one. */
static void put_cell(int x, int y)
{
    int i = x + 1, j = y;
    uint64_t code = (i + j) % 2 == 1 ? codes[(j * SIDE + i) / 2] : 0;
    put_u16((unsigned)x);
    put_u16((unsigned)y);
    put_float(1.0f);
    put_byte(128);
    for (int row = 0; row < GRID_SIDE; row++)
        for (int column = 0; column < GRID_SIDE; column++)
            put_byte(grey(code, column, row));
}

static void make_record(void)
{
    put_byte(FIELDS);
    for (int d = -255; d <= 255; d++)
        put_float(d < 0 ? (float)d / 64 : 0.0f);
    put_float(1.0f); /* the weight of every cell, so that none is cut */
    put_byte(SIDE);
    put_byte(SIDE);
    put_byte(BITS);
    put_byte(BORDER);
    put_float(1.0f);
    put_float(0.75f);
    put_u16(CODES);
    for (int k = 0; k < CODES; k++) {
        codes[k] = next_code();
        put(&codes[k], sizeof codes[k]);
    }
    put_u16(CHARUCO_MAX_CELLS);
    for (int k = 0; k < CHARUCO_MAX_CELLS / 8; k++)
        put_byte(255);
    for (int k = 0; k < CHARUCO_MAX_CELLS; k++)
        put_cell(k % CELLS_ACROSS, k / CELLS_ACROSS);
}

/* The same record with the legacy flag and one column less, so that nearly all codes are reversed. */
static void make_legacy_record(void)
{
    memcpy(legacy_record, record, record_length);
    legacy_record[0] |= 16;
    legacy_record[COLS_AT] = SIDE - 1;
}

/* The code of marker 0 in the restated record is that of the last marker, rotated by 180 degrees: its bits in reverse. */
static int is_restated(const uint8_t *sheet)
{
    uint64_t code = codes[SIDE * (SIDE - 1) / 2 - 1], new_code;
    memcpy(&new_code, sheet + CODES_AT, sizeof new_code);
    for (int k = 0; k < BITS * BITS; k++)
        if ((code >> k & 1) != (new_code >> (BITS * BITS - 1 - k) & 1))
            return 0;
    return sheet[0] == FIELDS;
}

/* Corners of a 32 by 32 grid, 17 by 15 of them inliers, and links of every marker with corners, most of them wrong. */
static void make_lists(void)
{
    for (int k = 0; k < CHARUCO_MAX_CORNERS; k++) {
        scores[k] = (float)(k % 7);
        grid[3 * k] = 1;
        grid[3 * k + 1] = k % 32;
        grid[3 * k + 2] = k / 32;
        inliers[k] = (size_t)(k % 17 + k / 17 % 15 * 32);
    }
    for (int k = 0; k < CHARUCO_MAX_LINKS; k++) {
        links[2 * k] = (uint32_t)(k / 8);
        links[2 * k + 1] = (uint32_t)(k * 5 % 961);
    }
}

/* A function that only returns, with an alias of the same type for each function of the library. */
__asm__(".pushsection .text\nidle:\n\txorl %eax, %eax\n\tret\n.popsection\n");
#define IDLE(name) extern __typeof__(charuco_##name) idle_##name __asm__("idle")
IDLE(read_header);
IDLE(table_entry);
IDLE(code);
IDLE(cell);
IDLE(grid);
IDLE(build_marker_cells);
IDLE(match_board);
IDLE(match_board_with_scores);
IDLE(map_charuco_corners);
IDLE(validate_marker_corner_links);
IDLE(restate);

/* One call of the idle function or of the library's, with the largest valid index and the full length of each array. */
#define ASK(k, name, ...)                                                                     \
    static __attribute__((noinline)) void ask_##name(struct answers *a, int idle)             \
    {                                                                                         \
        __typeof__(charuco_##name) *volatile asked = idle ? idle_##name : charuco_##name;     \
        a->numbers[k] = asked(__VA_ARGS__);                                                   \
    }

ASK(0, read_header, record, record_length, a->header, LENGTH(a->header))
ASK(1, table_entry, record, record_length, 510, a->entry, LENGTH(a->entry))
ASK(2, code, record, record_length, CODES - 1, a->code, LENGTH(a->code))
ASK(3, cell, record, record_length, CHARUCO_MAX_CELLS - 1, a->cell, LENGTH(a->cell))
ASK(4, grid, record, record_length, CHARUCO_MAX_CELLS - 1, a->part, LENGTH(a->part))
ASK(5, build_marker_cells, scores, LENGTH(scores), grid, LENGTH(grid), inliers, LENGTH(inliers), a->cells, LENGTH(a->cells), &a->counts[0], 1)
ASK(6, match_board, record, record_length, a->markers, LENGTH(a->markers), a->match, LENGTH(a->match))
ASK(7, match_board_with_scores, record, record_length, a->cell_scores, LENGTH(a->cell_scores), a->second_markers, LENGTH(a->second_markers),
    a->second_match, LENGTH(a->second_match))
ASK(8, map_charuco_corners, SIDE, SIDE, BITS, BORDER, 0, 1.0f, 0.75f, codes, LENGTH(codes), scores, LENGTH(scores), grid, LENGTH(grid), 0, 1, 1,
    a->corners, LENGTH(a->corners), &a->counts[1], 1)
ASK(9, validate_marker_corner_links, SIDE, SIDE, BITS, BORDER, 0, 1.0f, 0.75f, codes, LENGTH(codes), links, LENGTH(links),
    CHARUCO_MUST_MATCH_ALL_4, a->violations, LENGTH(a->violations), &a->counts[2], 1)
ASK(10, restate, legacy_record, record_length, a->sheet, LENGTH(a->sheet), &a->counts[3], 1)

static const struct {
    void (*ask)(struct answers *, int);
    const char *name;
    size_t promised;
} functions[] = {
    {ask_read_header, "charuco_read_header", CHARUCO_STACK_READ_HEADER},
    {ask_table_entry, "charuco_table_entry", CHARUCO_STACK_TABLE_ENTRY},
    {ask_code, "charuco_code", CHARUCO_STACK_CODE},
    {ask_cell, "charuco_cell", CHARUCO_STACK_CELL},
    {ask_grid, "charuco_grid", CHARUCO_STACK_GRID},
    {ask_build_marker_cells, "charuco_build_marker_cells", CHARUCO_STACK_BUILD_MARKER_CELLS},
    {ask_match_board, "charuco_match_board", CHARUCO_STACK_MATCH_BOARD},
    {ask_match_board_with_scores, "charuco_match_board_with_scores", CHARUCO_STACK_MATCH_BOARD_WITH_SCORES},
    {ask_map_charuco_corners, "charuco_map_charuco_corners", CHARUCO_STACK_MAP_CHARUCO_CORNERS},
    {ask_validate_marker_corner_links, "charuco_validate_marker_corner_links", CHARUCO_STACK_VALIDATE_MARKER_CORNER_LINKS},
    {ask_restate, "charuco_restate", CHARUCO_STACK_RESTATE},
};

static void check(int holds, const char *what)
{
    if (!holds) {
        printf("small_stack: %s\n", what);
        exit(1);
    }
}

static uint8_t *stack;

/* 64 KiB of memory above a page without access. */
static void make_stack(void)
{
    size_t page = (size_t)sysconf(_SC_PAGESIZE);
    uint8_t *all = mmap(NULL, page + STACK_BYTES, PROT_READ | PROT_WRITE, MAP_PRIVATE | MAP_ANONYMOUS, -1, 0);
    check(all != MAP_FAILED, "no memory");
    check(mprotect(all, page, PROT_NONE) == 0, "no guard page");
    stack = all + page;
}

static void run(void *(*start)(void *), void *argument)
{
    pthread_attr_t attributes;
    pthread_t thread;
    check(pthread_attr_init(&attributes) == 0, "no attributes");
    check(pthread_attr_setstack(&attributes, stack, STACK_BYTES) == 0, "the stack is not taken");
    check(pthread_create(&thread, &attributes, start, argument) == 0, "no thread");
    check(pthread_join(thread, NULL) == 0, "the thread does not end");
    pthread_attr_destroy(&attributes);
}

/* Offset of the lowest byte that a call changes, from the bottom of the stack. Nothing else is called between filling and searching. */
static __attribute__((noinline)) size_t lowest(size_t k, struct answers *a, int idle)
{
    volatile uint8_t *bytes = stack, *here;
    size_t unchanged = 0;
    __asm__ volatile("movq %%rsp, %0" : "=r"(here));
    for (volatile uint8_t *byte = bytes; byte < here; byte++)
        *byte = 0xA5;
    functions[k].ask(a, idle);
    while (bytes + unchanged < here && bytes[unchanged] == 0xA5)
        unchanged++;
    return unchanged;
}

static size_t taken[LENGTH(functions)];

static void *measure(void *argument)
{
    for (size_t k = 0; k < LENGTH(functions); k++) {
        size_t return_address = lowest(k, argument, 1);
        taken[k] = return_address + 8 - lowest(k, argument, 0);
    }
    return NULL;
}

static void *touch_below(void *argument)
{
    *(volatile uint8_t *)(stack - 1) = 0;
    return argument;
}

/* A thread that writes below its stack is killed with its process, so the guard page works. */
static int guard_holds(void)
{
    int status;
    pid_t child = fork();
    check(child >= 0, "no process");
    if (child == 0) {
        run(touch_below, NULL);
        _exit(0);
    }
    check(waitpid(child, &status, 0) == child, "the process does not end");
    return WIFSIGNALED(status);
}

int main(void)
{
    make_record();
    make_legacy_record();
    make_lists();
    make_stack();
    check(guard_holds(), "the page below the stack can be touched");
    for (size_t k = 0; k < LENGTH(functions); k++) {
        functions[k].ask(&on_main, 0);
        check(on_main.numbers[k] == 0, "a function refused");
    }
    run(measure, &on_small);
    check(on_main.match[CHARUCO_BEST_TX] == 1 && on_main.match[CHARUCO_BEST_TY] == 0 && on_main.match[CHARUCO_BEST_TURN] == 0,
          "the board is placed elsewhere");
    check(on_main.match[CHARUCO_MATCH_MARKERS] == CHARUCO_MAX_CELLS / 2, "not every marker was found");
    check(on_main.match[CHARUCO_BEST_CONTRIBUTING_CELLS] == CHARUCO_MAX_CELLS / 2, "the cells on markers' squares are not counted exactly");
    check(memcmp(on_main.match, on_main.second_match, sizeof on_main.match) == 0
          && memcmp(on_main.markers, on_main.second_markers, sizeof on_main.markers) == 0, "the match with scores has another result");
    check(is_restated(on_main.sheet), "the record is not restated");
    check(memcmp(&on_main, &on_small, sizeof on_main) == 0, "the results differ");
    printf("small_stack: the same results on a stack of %d bytes; record of %lu bytes; stack taken, and the header's limit:\n", STACK_BYTES,
           (unsigned long)record_length);
    for (size_t k = 0; k < LENGTH(functions); k++) {
        printf("%8lu %8lu  %s\n", (unsigned long)taken[k], (unsigned long)functions[k].promised, functions[k].name);
        check(taken[k] <= functions[k].promised, "more stack is taken than the header states");
        check(functions[k].promised <= taken[k] + 64, "far less stack is taken than the header states");
    }
    return 0;
}
