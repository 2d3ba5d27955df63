/* Calls the functions of the archive with exact, longer and too short buffers and rubbish inside. The archive is not compiled with a
 * sanitizer, so each buffer ends at a page that may be neither read nor written, and has guard bytes before it. */
#define _DEFAULT_SOURCE
#include <stdbool.h>
#include <stdio.h>
#include <stdlib.h>
#include <string.h>
#include <sys/mman.h>
#include <unistd.h>

#include "dustroute.h"

static int failures = 0;

static void expect(bool holds, const char *what, int line) {
    if (!holds) {
        printf("check.c:%d: %s\n", line, what);
        failures++;
    }
}
#define EXPECT(fact) expect((fact), #fact, __LINE__)

/* ---- lent buffers: rubbish inside, guards round them */

enum { GUARD = 64, RUBBISH = 0xA5, GUARD_BYTE = 0x3C };

struct buffer {
    uint8_t *block; /* whole pages: guard bytes, the elements, and a page that is barred */
    size_t block_size;
    uint8_t *elements;
    size_t length, size;
};

static struct buffer lend(size_t length, size_t size) {
    size_t page = (size_t)sysconf(_SC_PAGESIZE), bytes = length * size;
    size_t open = (bytes + GUARD + page - 1) / page * page;
    uint8_t *block = mmap(NULL, open + page, PROT_READ | PROT_WRITE, MAP_PRIVATE | MAP_ANONYMOUS, -1, 0);
    if (block == MAP_FAILED || mprotect(block + open, page, PROT_NONE) != 0)
        abort();
    struct buffer lent = {block, open + page, block + open - bytes, length, size};
    memset(lent.elements - GUARD, GUARD_BYTE, GUARD);
    memset(lent.elements, RUBBISH, bytes);
    return lent;
}

static void give_back(struct buffer lent) {
    if (munmap(lent.block, lent.block_size) != 0)
        abort();
}

/* A buffer of length 0 may have any pointer: that of the barred page, or none at all. */
static bool empty_is_null = false;

static void *at(struct buffer lent) { return lent.length == 0 && empty_is_null ? NULL : lent.elements; }

static bool all(const uint8_t *bytes, size_t count, uint8_t byte) {
    for (size_t i = 0; i < count; i++)
        if (bytes[i] != byte)
            return false;
    return true;
}

static bool untouched(struct buffer lent) { return all(at(lent), lent.length * lent.size, RUBBISH); }
static bool cleared(struct buffer lent) { return all(at(lent), lent.length * lent.size, 0); }

/* An input, lent with just its length. */
static struct buffer lend_copy(const uint8_t *bytes, size_t length) {
    struct buffer copy = lend(length, 1);
    memcpy(copy.elements, bytes, length);
    return copy;
}

/* After a call an input is as it was, and no guard is touched. */
static void expect_kept(struct buffer copy, const uint8_t *bytes, const struct buffer *lent, int count) {
    EXPECT(memcmp(copy.elements, bytes, copy.length) == 0);
    for (int i = 0; i < count; i++)
        EXPECT(all(lent[i].elements - GUARD, GUARD, GUARD_BYTE));
    give_back(copy);
}

/* ---- one search */

enum { PATH, KNOWN, PREVIOUS, CLASSES, SEARCH_QUEUE, SEARCH_VALUES, SEARCH_BUFFERS };

struct search {
    struct buffer lent[SEARCH_BUFFERS];
    uint32_t number;
};

/* A row of `wide` cells from end to end, at the usual costs; the lent lengths are those of the table, in its order. */
static struct search search_row(const uint8_t *kinds, size_t wide, const size_t lengths[SEARCH_BUFFERS]) {
    static const size_t sizes[SEARCH_BUFFERS] = {4, 4, 4, 1, 8, 8};
    struct search asked;
    struct buffer copy = lend_copy(kinds, wide);
    for (int i = 0; i < SEARCH_BUFFERS; i++)
        asked.lent[i] = lend(lengths[i], sizes[i]);
    struct buffer *b = asked.lent;
    asked.number = dustroute_search(
        wide, 1, 1, 30000, 10, 25, 15, at(copy), wide, 0, wide - 1,
        at(b[PATH]), lengths[PATH], at(b[KNOWN]), lengths[KNOWN], at(b[PREVIOUS]), lengths[PREVIOUS],
        at(b[CLASSES]), lengths[CLASSES], at(b[SEARCH_QUEUE]), lengths[SEARCH_QUEUE], at(b[SEARCH_VALUES]), lengths[SEARCH_VALUES]);
    expect_kept(copy, kinds, b, SEARCH_BUFFERS);
    return asked;
}

static void free_search(struct search asked) {
    for (int i = 0; i < SEARCH_BUFFERS; i++)
        give_back(asked.lent[i]);
}

static void expect_work_cleared(struct search asked) {
    for (int i = KNOWN; i <= SEARCH_QUEUE; i++)
        EXPECT(cleared(asked.lent[i]));
}

/* Sample b of docs/RULES.md, over these lengths: path 0 1 2, cost 20, expanded 2. */
static void expect_sample_b(const size_t lengths[SEARCH_BUFFERS]) {
    static const uint8_t air[3] = {0, 0, 0};
    struct search asked = search_row(air, 3, lengths);
    const uint32_t *path = at(asked.lent[PATH]);
    const uint64_t *values = at(asked.lent[SEARCH_VALUES]);
    EXPECT(asked.number == DUSTROUTE_DONE);
    EXPECT(values[0] == 0 && values[1] == 3 && values[2] == 20 && values[3] == 2);
    for (size_t i = 0; i < lengths[PATH]; i++)
        EXPECT(path[i] == (i < 3 ? i : 0));
    for (size_t i = 4; i < lengths[SEARCH_VALUES]; i++)
        EXPECT(values[i] == (i == 4 ? 20 : 0));
    expect_work_cleared(asked);
    free_search(asked);
}

/* Two storeys of Air, from 1 to 3: a step of 10 and one new support of 15. Each total is told where so many values are lent. */
static void expect_totals(size_t lent) {
    static const uint8_t air[4] = {0, 0, 0, 0};
    static const uint64_t due[DUSTROUTE_SEARCH_TOTALS] = {0, 2, 25, 1, 10, 15, 1};
    uint32_t path[4], known[4], previous[4];
    uint8_t classes[4];
    uint64_t queue[40];
    struct buffer values = lend(lent, 8);
    uint32_t number = dustroute_search(
        2, 2, 1, 30000, 10, 25, 15, air, 4, 1, 3, path, 4, known, 4, previous, 4, classes, 4, queue, 40, at(values), lent);
    const uint64_t *told = at(values);
    EXPECT(number == DUSTROUTE_DONE);
    for (size_t i = 0; i < lent; i++)
        EXPECT(told[i] == (i < DUSTROUTE_SEARCH_TOTALS ? due[i] : 0));
    EXPECT(all(values.elements - GUARD, GUARD, GUARD_BYTE));
    give_back(values);
}

static void check_search(void) {
    const size_t exact[SEARCH_BUFFERS] = {3, 3, 3, 3, 30, 4};
    const size_t longer[SEARCH_BUFFERS] = {8, 5, 9, 4, 37, 11};
    static const uint8_t air[3] = {0, 0, 0}, walled[3] = {0, 1, 0};
    expect_sample_b(exact);
    expect_sample_b(longer);
    for (size_t lent = DUSTROUTE_SEARCH_VALUES; lent < DUSTROUTE_SEARCH_TOTALS + 3; lent++)
        expect_totals(lent);

    /* number 11: zeros, and the detail */
    struct search refused = search_row(walled, 3, longer);
    const uint64_t *values = at(refused.lent[SEARCH_VALUES]);
    EXPECT(refused.number == DUSTROUTE_NO_ROUTE);
    EXPECT(values[0] == 1);
    for (size_t i = 1; i < longer[SEARCH_VALUES]; i++)
        EXPECT(values[i] == 0);
    EXPECT(cleared(refused.lent[PATH]));
    expect_work_cleared(refused);
    free_search(refused);

    /* number 6: each buffer one short, then each of length 0; nothing is touched */
    const size_t least[SEARCH_BUFFERS] = {3, 3, 3, 3, 2, 4};
    for (int i = 0; i < SEARCH_BUFFERS; i++)
        for (int none = 0; none < 2; none++) {
            size_t lengths[SEARCH_BUFFERS];
            memcpy(lengths, exact, sizeof lengths);
            lengths[i] = none ? 0 : least[i] - 1;
            struct search asked = search_row(air, 3, lengths);
            EXPECT(asked.number == DUSTROUTE_BUFFER);
            for (int j = 0; j < SEARCH_BUFFERS; j++)
                EXPECT(untouched(asked.lent[j]));
            free_search(asked);
        }
}

/* ---- why there is no route */

enum { WHY_PATH, REACHED, WALLS, WHY_KNOWN, WHY_PREVIOUS, WHY_CLASSES, WHY_QUEUE, WHY_VALUES, WHY_BUFFERS };

struct why {
    struct buffer lent[WHY_BUFFERS];
    uint32_t number;
};

/* A search from cell 1 to cell 5 of a room of 3 by 2 by 1, at the usual costs. */
static struct why why_of(const uint8_t kinds[6], uint32_t limit, const size_t n[WHY_BUFFERS]) {
    static const size_t sizes[WHY_BUFFERS] = {4, 1, 1, 4, 4, 1, 8, 8};
    struct why asked;
    struct buffer copy = lend_copy(kinds, 6);
    for (int i = 0; i < WHY_BUFFERS; i++)
        asked.lent[i] = lend(n[i], sizes[i]);
    struct buffer *b = asked.lent;
    asked.number = dustroute_why(
        3, 2, 1, limit, 10, 25, 15, at(copy), 6, 1, 5, at(b[WHY_PATH]), n[WHY_PATH], at(b[REACHED]), n[REACHED],
        at(b[WALLS]), n[WALLS], at(b[WHY_KNOWN]), n[WHY_KNOWN], at(b[WHY_PREVIOUS]), n[WHY_PREVIOUS],
        at(b[WHY_CLASSES]), n[WHY_CLASSES], at(b[WHY_QUEUE]), n[WHY_QUEUE], at(b[WHY_VALUES]), n[WHY_VALUES]);
    expect_kept(copy, kinds, b, WHY_BUFFERS);
    return asked;
}

static void free_why(struct why asked) {
    for (int i = 0; i < WHY_BUFFERS; i++)
        give_back(asked.lent[i]);
}

/* After any number from 10 on: the detail, and zeros but for the reason. */
static void expect_why_cleared(struct why asked, uint64_t detail) {
    const uint64_t *values = at(asked.lent[WHY_VALUES]);
    EXPECT(values[0] == detail);
    for (size_t i = 1; i < asked.lent[WHY_VALUES].length; i++)
        EXPECT(values[i] == 0);
    EXPECT(cleared(asked.lent[WHY_PATH]));
    for (int i = WHY_KNOWN; i <= WHY_QUEUE; i++)
        EXPECT(cleared(asked.lent[i]));
}

static const uint8_t TWO_LEVERS[6] = {7, 0, 0, 0, 7, 0};

/* Cells 1, 2 and 3 are reached, and every reason is met. */
static void expect_reason(const size_t n[WHY_BUFFERS]) {
    enum { A = DUSTROUTE_ALLOWED, O = DUSTROUTE_OUTSIDE, T = DUSTROUTE_TAKEN, B = DUSTROUTE_BAD_SUPPORT };
    static const uint8_t due[6 * DUSTROUTE_MOVES] = {
        0, 0, 0, 0, 0, 0, 0, 0, 0, 0, 0, 0,
        A, A, O, O, O, O, O, O, O, O, O, O,
        O, T, B, O, T, B, O, O, O, O, O, O,
        T, B, O, T, B, O, O, O, O, O, O, O};
    struct why asked = why_of(TWO_LEVERS, 30000, n);
    const uint8_t *reached = at(asked.lent[REACHED]), *walls = at(asked.lent[WALLS]);
    EXPECT(asked.number == DUSTROUTE_NO_ROUTE);
    for (size_t i = 0; i < n[REACHED]; i++)
        EXPECT(reached[i] == (i >= 1 && i <= 3));
    EXPECT(memcmp(walls, due, sizeof due) == 0);
    EXPECT(all(walls + sizeof due, n[WALLS] - sizeof due, 0));
    expect_why_cleared(asked, 3);
    free_why(asked);
}

static void check_why(void) {
    const size_t exact[WHY_BUFFERS] = {6, 6, DUSTROUTE_WALLS_LENGTH(6), 6, 6, 6, 60, 4};
    const size_t longer[WHY_BUFFERS] = {9, 13, DUSTROUTE_WALLS_LENGTH(6) + 7, 8, 7, 11, 61, 6};
    static const uint8_t air[6] = {0}, lever_at_goal[6] = {0, 0, 0, 0, 0, 7};
    expect_reason(exact);
    expect_reason(longer);

    /* a route: its path, and no reason */
    struct why route = why_of(air, 30000, longer);
    const uint32_t *path = at(route.lent[WHY_PATH]);
    const uint64_t *values = at(route.lent[WHY_VALUES]);
    EXPECT(route.number == DUSTROUTE_DONE && path[0] == 1 && path[1] == 3 && path[2] == 5 && path[3] == 0);
    EXPECT(values[0] == 0 && values[1] == 3 && values[2] == 50 && values[3] == 4);
    EXPECT(cleared(route.lent[REACHED]) && cleared(route.lent[WALLS]));
    free_why(route);

    /* cut short, and an end where no wire can be: no reason is told */
    struct why limited = why_of(TWO_LEVERS, 0, longer), taken = why_of(lever_at_goal, 30000, longer);
    EXPECT(limited.number == DUSTROUTE_LIMIT_PASSED && taken.number == DUSTROUTE_NOT_ROUTEABLE);
    EXPECT(cleared(limited.lent[REACHED]) && cleared(limited.lent[WALLS]));
    EXPECT(cleared(taken.lent[REACHED]) && cleared(taken.lent[WALLS]));
    expect_why_cleared(limited, 1);
    expect_why_cleared(taken, 5);
    free_why(limited);
    free_why(taken);

    /* number 6: each buffer one short, then each of length 0; nothing is touched */
    for (int i = 0; i < WHY_BUFFERS; i++)
        for (int none = 0; none < 2; none++) {
            size_t lengths[WHY_BUFFERS];
            memcpy(lengths, longer, sizeof lengths);
            lengths[i] = none ? 0 : i == WHY_QUEUE ? 1 : exact[i] - 1;
            struct why asked = why_of(TWO_LEVERS, 30000, lengths);
            EXPECT(asked.number == DUSTROUTE_BUFFER);
            for (int j = 0; j < WHY_BUFFERS; j++)
                EXPECT(untouched(asked.lent[j]));
            free_why(asked);
        }
}

/* ---- one route by the plain engine */

enum { PLAIN_PATH, PLAIN_KNOWN, PLAIN_PREVIOUS, PLAIN_CLASSES, PLAIN_VALUES, PLAIN_BUFFERS };

struct plain {
    struct buffer lent[PLAIN_BUFFERS];
    uint32_t number;
};

/* A row of `wide` cells from end to end, a flat step for 7; the lent lengths are those of the table, in its order. */
static struct plain plain_row(const uint8_t *kinds, size_t wide, const size_t n[PLAIN_BUFFERS]) {
    static const size_t sizes[PLAIN_BUFFERS] = {4, 4, 4, 1, 8};
    struct plain asked;
    struct buffer copy = lend_copy(kinds, wide);
    for (int i = 0; i < PLAIN_BUFFERS; i++)
        asked.lent[i] = lend(n[i], sizes[i]);
    struct buffer *b = asked.lent;
    asked.number = dustroute_plain(
        wide, 1, 1, 7, 25, 15, at(copy), wide, 0, wide - 1,
        at(b[PLAIN_PATH]), n[PLAIN_PATH], at(b[PLAIN_KNOWN]), n[PLAIN_KNOWN], at(b[PLAIN_PREVIOUS]), n[PLAIN_PREVIOUS],
        at(b[PLAIN_CLASSES]), n[PLAIN_CLASSES], at(b[PLAIN_VALUES]), n[PLAIN_VALUES]);
    expect_kept(copy, kinds, b, PLAIN_BUFFERS);
    return asked;
}

static void free_plain(struct plain asked) {
    for (int i = 0; i < PLAIN_BUFFERS; i++)
        give_back(asked.lent[i]);
}

/* The number, the three values with zeros behind them, so many cells 0, 1, 2 .. in the path, and work memory cleared. */
static void expect_plain(const uint8_t *kinds, const size_t lengths[PLAIN_BUFFERS], uint32_t number, uint64_t detail, uint64_t cells,
                         uint64_t cost) {
    struct plain asked = plain_row(kinds, 3, lengths);
    const uint32_t *path = at(asked.lent[PLAIN_PATH]);
    const uint64_t *values = at(asked.lent[PLAIN_VALUES]);
    EXPECT(asked.number == number);
    EXPECT(values[0] == detail && values[1] == cells && values[2] == cost);
    for (size_t i = 3; i < lengths[PLAIN_VALUES]; i++)
        EXPECT(values[i] == 0);
    for (size_t i = 0; i < lengths[PLAIN_PATH]; i++)
        EXPECT(path[i] == (i < cells ? i : 0));
    for (int i = PLAIN_KNOWN; i <= PLAIN_CLASSES; i++)
        EXPECT(cleared(asked.lent[i]));
    free_plain(asked);
}

static void check_plain(void) {
    const size_t exact[PLAIN_BUFFERS] = {3, 3, 3, 3, 3};
    const size_t longer[PLAIN_BUFFERS] = {8, 5, 9, 4, 11};
    static const uint8_t air[3] = {0, 0, 0}, walled[3] = {0, 1, 0}, taken[3] = {0, 0, 7};
    expect_plain(air, exact, DUSTROUTE_DONE, 0, 3, 14);
    expect_plain(air, longer, DUSTROUTE_DONE, 0, 3, 14);
    expect_plain(walled, longer, DUSTROUTE_NO_ROUTE, 1, 0, 0);
    expect_plain(taken, exact, DUSTROUTE_NOT_ROUTEABLE, 2, 0, 0);

    /* number 6: each buffer one short, then each of length 0; nothing is touched */
    for (int i = 0; i < PLAIN_BUFFERS; i++)
        for (int none = 0; none < 2; none++) {
            size_t lengths[PLAIN_BUFFERS];
            memcpy(lengths, exact, sizeof lengths);
            lengths[i] = none ? 0 : exact[i] - 1;
            struct plain asked = plain_row(air, 3, lengths);
            EXPECT(asked.number == DUSTROUTE_BUFFER);
            for (int j = 0; j < PLAIN_BUFFERS; j++)
                EXPECT(untouched(asked.lent[j]));
            free_plain(asked);
        }
}

/* ---- one route drawn */

/* A path, lent with just its length. */
static struct buffer lend_path(const uint32_t *cells, size_t length) {
    struct buffer copy = lend(length, 4);
    memcpy(copy.elements, cells, 4 * length);
    return copy;
}

/* The number of a drawn path in a room 2x2x1 of Air, with so many values; what is left is as due. */
static void expect_drawn(const uint32_t *cells, size_t length, uint32_t support, size_t value_count, uint32_t number, const uint8_t *due) {
    static const uint8_t air[4] = {0, 0, 0, 0};
    struct buffer kinds = lend_copy(air, 4), path = lend_path(cells, length), values = lend(value_count, 8);
    EXPECT(dustroute_materialize_route(2, 2, 1, support, at(kinds), 4, at(path), length, at(values), value_count) == number);
    EXPECT(number == DUSTROUTE_DONE ? cleared(values) : untouched(values));
    const struct buffer others[2] = {path, values};
    expect_kept(kinds, number == DUSTROUTE_DONE ? due : air, others, 2);
    EXPECT(memcmp(path.elements, cells, 4 * length) == 0);
    give_back(path);
    give_back(values);
}

/* The same of the repeaters of a row of five at limit 2, over lists of these lengths. */
static void expect_listed(const uint32_t *path_cells, size_t cell_count, size_t facing_count, size_t value_count, uint32_t number) {
    static const uint8_t row[5] = {3, 3, 3, 3, 3}, due[5] = {3, 3, 5, 3, 3};
    struct buffer kinds = lend_copy(row, 5), path = lend_path(path_cells, 5), values = lend(value_count, 8);
    struct buffer cells = lend(cell_count, 4), facings = lend(facing_count, 1);
    EXPECT(dustroute_insert_repeaters(5, 1, 1, 2, at(kinds), 5, at(path), 5, at(cells), cell_count, at(facings), facing_count, at(values),
                                      value_count) == number);
    if (number == DUSTROUTE_DONE) {
        const uint32_t *listed = at(cells);
        const uint8_t *faces = at(facings);
        const uint64_t *told = at(values);
        for (size_t i = 0; i < cell_count; i++)
            EXPECT(listed[i] == (i == 0 ? 2 : 0));
        for (size_t i = 0; i < facing_count; i++)
            EXPECT(faces[i] == (i == 0 ? 2 : 0));
        for (size_t i = 0; i < value_count; i++)
            EXPECT(told[i] == (i == 1 ? 1 : 0));
    } else
        EXPECT(untouched(cells) && untouched(facings) && untouched(values));
    const struct buffer others[4] = {path, values, cells, facings};
    expect_kept(kinds, number == DUSTROUTE_DONE ? due : row, others, 4);
    EXPECT(memcmp(path.elements, path_cells, 20) == 0);
    give_back(path);
    give_back(values);
    give_back(cells);
    give_back(facings);
}

static void check_drawing(void) {
    static const uint32_t down[3] = {1, 2, 0}, outside[3] = {1, 2, 4}, row[5] = {0, 1, 2, 3, 4}, past[5] = {0, 1, 2, 3, 5};
    static const uint8_t due[4] = {1, 3, 3, 0}, wire[4] = {0, 3, 3, 0};
    expect_drawn(down, 3, 1, 1, DUSTROUTE_DONE, due);
    expect_drawn(down, 3, 1, 4, DUSTROUTE_DONE, due);
    expect_drawn(down, 2, 0, 1, DUSTROUTE_DONE, wire);
    expect_drawn(down, 0, 1, 1, DUSTROUTE_DONE, (const uint8_t[4]){0, 0, 0, 0});
    expect_drawn(down, 3, 13, 1, DUSTROUTE_CODE, due);
    expect_drawn(down, 3, 256, 1, DUSTROUTE_CODE, due);
    expect_drawn(outside, 3, 1, 1, DUSTROUTE_POSITION, due);
    expect_drawn(outside, 3, 256, 0, DUSTROUTE_BUFFER, due);
    expect_listed(row, 5, 5, 2, DUSTROUTE_DONE);
    expect_listed(row, 9, 6, 5, DUSTROUTE_DONE);
    expect_listed(past, 5, 5, 2, DUSTROUTE_POSITION);
    expect_listed(past, 4, 5, 2, DUSTROUTE_BUFFER);
    expect_listed(row, 5, 4, 2, DUSTROUTE_BUFFER);
    expect_listed(row, 0, 0, 2, DUSTROUTE_BUFFER);
    expect_listed(row, 5, 5, 1, DUSTROUTE_BUFFER);
    expect_listed(row, 5, 5, 0, DUSTROUTE_BUFFER);
}

/* One call for repeaters: a row of ten cells at run limit 4 and tail limit 3. */
static void expect_planned(size_t marks, size_t work, size_t value_count, uint32_t second, uint32_t number) {
    static const uint16_t source[DUSTROUTE_END_NUMBERS] = {0, 0, 0, 0, 0}, sink[DUSTROUTE_SINK_NUMBERS] = {9, 0, 0, 0, 0, 3};
    const uint32_t cells[10] = {0, second, 2, 3, 4, 5, 6, 7, 8, 9}, length[1] = {10};
    struct buffer lent[6] = {lend(marks, 1), lend(work, 1), lend(work, 4), lend(work, 4), lend(work, 4), lend(value_count, 8)};
    EXPECT(dustroute_place_repeaters(10, 1, 1, 4, source, 5, sink, 6, cells, 10, length, 1, at(lent[0]), marks, at(lent[1]), work,
                                     at(lent[2]), work, at(lent[3]), work, at(lent[4]), work, at(lent[5]), value_count) == number);
    if (number == DUSTROUTE_DONE) {
        const uint8_t *marked = at(lent[0]);
        const uint64_t *told = at(lent[5]);
        for (size_t i = 0; i < marks; i++)
            EXPECT(marked[i] == (i == 5 || i == 7));
        for (size_t i = 0; i < value_count; i++)
            EXPECT(told[i] == (i == 1 ? 2 : 0));
    } else
        for (int i = 0; i < 6; i++)
            EXPECT(untouched(lent[i]));
    for (int i = 0; i < 6; i++)
        give_back(lent[i]);
}

static void check_repeaters(void) {
    expect_planned(10, 10, 2, 1, DUSTROUTE_DONE);
    expect_planned(13, 11, 5, 1, DUSTROUTE_DONE);
    expect_planned(9, 10, 2, 1, DUSTROUTE_BUFFER);
    expect_planned(10, 9, 2, 1, DUSTROUTE_BUFFER);
    expect_planned(10, 10, 1, 1, DUSTROUTE_BUFFER);
    expect_planned(0, 0, 0, 3, DUSTROUTE_POSITION);
    expect_planned(10, 10, 2, 10, DUSTROUTE_POSITION);
}

/* ---- one tree */

enum {
    BRANCHES, OCCUPIED, REPEATERS, KINDS, BLOCKED, TREE_CLASSES, JOINABLE, TREE_KNOWN, TREE_PREVIOUS, TREE_PATH, BEST,
    TREE_QUEUE, TREE_VALUES, TREE_BUFFERS
};

struct tree {
    struct buffer lent[TREE_BUFFERS];
    uint32_t number;
};

/* Whether trees are asked through dustroute_tree_mode, and the number that it is handed for its mode. */
static bool in_mode = false;
static uint32_t strict = DUSTROUTE_PUBLISHED;

static struct tree tree_of(const uint8_t *sheet, size_t sheet_length, const size_t n[TREE_BUFFERS]) {
    static const size_t sizes[TREE_BUFFERS] = {4, 1, 1, 1, 1, 1, 1, 4, 4, 4, 4, 8, 8};
    struct tree asked;
    struct buffer copy = lend_copy(sheet, sheet_length);
    for (int i = 0; i < TREE_BUFFERS; i++)
        asked.lent[i] = lend(n[i], sizes[i]);
    struct buffer *b = asked.lent;
#define TREE_LENT \
    at(copy), sheet_length, at(b[BRANCHES]), n[BRANCHES], at(b[OCCUPIED]), n[OCCUPIED], at(b[REPEATERS]), n[REPEATERS], \
    at(b[KINDS]), n[KINDS], at(b[BLOCKED]), n[BLOCKED], at(b[TREE_CLASSES]), n[TREE_CLASSES], at(b[JOINABLE]), n[JOINABLE], \
    at(b[TREE_KNOWN]), n[TREE_KNOWN], at(b[TREE_PREVIOUS]), n[TREE_PREVIOUS], at(b[TREE_PATH]), n[TREE_PATH], \
    at(b[BEST]), n[BEST], at(b[TREE_QUEUE]), n[TREE_QUEUE], at(b[TREE_VALUES]), n[TREE_VALUES]
    asked.number = in_mode ? dustroute_tree_mode(strict, TREE_LENT) : dustroute_tree(TREE_LENT);
    expect_kept(copy, sheet, b, TREE_BUFFERS);
    return asked;
}

static void free_tree(struct tree asked) {
    for (int i = 0; i < TREE_BUFFERS; i++)
        give_back(asked.lent[i]);
}

/* The hex sheet of tools/README.md: a row of ten cells, from end to end. */
static const uint8_t ROW[45] = {
    1, 0, 0, 0, 40, 10, 1, 1, 0, 0, 0x75, 0x30, 0, 0, 0, 10, 0, 0, 0, 25, 0, 0, 0, 15,
    0, 0, 0, 0, 0, 0, 0, 0, 0, 0, 0, 0, 0, 0, 0, 1, 9, 0, 0, 0, 0};
enum { REST_LENGTH = 4, SINK_COUNT = 39, SINK_PORT = 43, SINK_FACING = 44 };

static const size_t EXACT[TREE_BUFFERS] = {10, 10, 10, 10, 10, 10, 10, 10, 10, 10, 10, 100, 20};
static const size_t LONGER[TREE_BUFFERS] = {13, 11, 17, 12, 10, 14, 19, 11, 15, 12, 16, 103, 29};

static void expect_tree_cleared(struct tree asked, int first) {
    for (int i = first; i < TREE_VALUES; i++)
        EXPECT(cleared(asked.lent[i]));
}

static void expect_row(const size_t lengths[TREE_BUFFERS]) {
    struct tree asked = tree_of(ROW, sizeof ROW, lengths);
    const uint32_t *branches = at(asked.lent[BRANCHES]);
    const uint8_t *occupied = at(asked.lent[OCCUPIED]), *repeaters = at(asked.lent[REPEATERS]);
    const uint64_t *values = at(asked.lent[TREE_VALUES]);
    EXPECT(asked.number == DUSTROUTE_DONE);
    EXPECT(values[0] == 0 && values[1] == 1 && values[2] == 10 && values[3] == 1 && values[4] == 10);
    for (size_t i = 5; i < lengths[TREE_VALUES]; i++)
        EXPECT(values[i] == 0);
    for (size_t i = 0; i < lengths[BRANCHES]; i++)
        EXPECT(branches[i] == (i < 10 ? i : 0));
    for (size_t i = 0; i < lengths[OCCUPIED]; i++)
        EXPECT(occupied[i] == (i < 10));
    for (size_t i = 0; i < lengths[REPEATERS]; i++)
        EXPECT(repeaters[i] == (i == 1));
    expect_tree_cleared(asked, KINDS);
    free_tree(asked);
}

/* A number above 6: the detail alone is left. */
static void expect_refused(const uint8_t *sheet, const size_t lengths[TREE_BUFFERS], uint32_t number, uint64_t detail) {
    struct tree asked = tree_of(sheet, sizeof ROW, lengths);
    const uint64_t *values = at(asked.lent[TREE_VALUES]);
    EXPECT(asked.number == number);
    EXPECT(values[0] == detail);
    for (size_t i = 1; i < lengths[TREE_VALUES]; i++)
        EXPECT(values[i] == 0);
    expect_tree_cleared(asked, BRANCHES);
    free_tree(asked);
}

/* A number from 1 to 6: nothing is touched. */
static void expect_untouched(const uint8_t *sheet, size_t length, const size_t lengths[TREE_BUFFERS], uint32_t number) {
    struct tree asked = tree_of(sheet, length, lengths);
    EXPECT(asked.number == number);
    for (int i = 0; i < TREE_BUFFERS; i++)
        EXPECT(untouched(asked.lent[i]));
    free_tree(asked);
}

static void check_short_tree(void) {
    for (int i = OCCUPIED; i < TREE_BUFFERS; i++)
        for (int none = 0; none < 2; none++) {
            size_t lengths[TREE_BUFFERS];
            memcpy(lengths, LONGER, sizeof lengths);
            lengths[i] = none ? 0 : i == TREE_QUEUE ? 1 : EXACT[i] - 1;
            expect_untouched(ROW, sizeof ROW, lengths, DUSTROUTE_BUFFER);
            expect_untouched(ROW, sizeof ROW - 1, lengths, DUSTROUTE_SHEET); /* the sheet is read before the buffers are judged */
        }
    size_t lengths[TREE_BUFFERS];
    memcpy(lengths, LONGER, sizeof lengths);
    lengths[BRANCHES] = 9;
    expect_refused(ROW, lengths, DUSTROUTE_BRANCHES_FULL, 1);
    lengths[BRANCHES] = 0;
    expect_refused(ROW, lengths, DUSTROUTE_BRANCHES_FULL, 1);
}

/* A net without sinks needs no branch buffer: it is its source. */
static void check_no_sinks(void) {
    uint8_t sheet[SINK_COUNT + 1];
    size_t lengths[TREE_BUFFERS];
    memcpy(sheet, ROW, sizeof sheet);
    sheet[REST_LENGTH] = sizeof sheet - 5;
    sheet[SINK_COUNT] = 0;
    memcpy(lengths, EXACT, sizeof lengths);
    lengths[BRANCHES] = 0;
    struct tree asked = tree_of(sheet, sizeof sheet, lengths);
    const uint64_t *values = at(asked.lent[TREE_VALUES]);
    EXPECT(asked.number == DUSTROUTE_DONE);
    EXPECT(values[0] == 0 && values[1] == 0 && values[2] == 1 && values[3] == 0 && values[4] == 0);
    EXPECT(*(const uint8_t *)at(asked.lent[OCCUPIED]) == 1);
    expect_tree_cleared(asked, REPEATERS);
    free_tree(asked);
}

static void check_tree(void) {
    uint8_t sheet[sizeof ROW];
    expect_row(EXACT);
    expect_row(LONGER);
    check_short_tree();
    check_no_sinks();
    for (size_t length = 0; length < sizeof ROW; length++)
        expect_untouched(ROW, length, EXACT, DUSTROUTE_SHEET);
    memcpy(sheet, ROW, sizeof sheet);
    sheet[SINK_PORT] = 1; /* BlockPower without a horizontal facing */
    expect_refused(sheet, LONGER, DUSTROUTE_PORT_FACING, 1);
    sheet[SINK_FACING] = 2; /* East of the last cell: outside */
    expect_refused(sheet, LONGER, DUSTROUTE_END_OUTSIDE, 1);
    sheet[SINK_FACING] = 7;
    expect_untouched(sheet, sizeof sheet, LONGER, DUSTROUTE_CODE);
}

/* Every byte of the sheet at many values: whatever comes, it stays within the buffers. */
static void check_damaged(void) {
    for (size_t place = 0; place < sizeof ROW; place++)
        for (int byte = 0; byte < 256; byte += byte < 16 ? 1 : 15) {
            uint8_t sheet[sizeof ROW];
            memcpy(sheet, ROW, sizeof sheet);
            sheet[place] = (uint8_t)byte;
            struct tree asked = tree_of(sheet, sizeof sheet, EXACT);
            EXPECT(asked.number <= DUSTROUTE_BRANCHES_FULL);
            free_tree(asked);
        }
}

/* ---- one arena */

/* An arena of so many bytes that ends at a barred page: wherever it begins, and however short it is, nothing outside is touched. */
static uint32_t tree_in(const uint8_t *sheet, size_t length, struct buffer arena, struct dustroute_tree_answer *answer) {
    struct buffer copy = lend_copy(sheet, length);
    uint32_t number = in_mode ? dustroute_tree_mode_in_arena(strict, at(copy), length, at(arena), arena.length, answer)
                              : dustroute_tree_in_arena(at(copy), length, at(arena), arena.length, answer);
    expect_kept(copy, sheet, &arena, 1);
    return number;
}

static void check_arena(void) {
    struct dustroute_tree_answer answer;
    size_t enough = dustroute_arena_size(ROW, sizeof ROW);
    for (size_t more = 0; more < 9; more++) {
        struct buffer arena = lend(enough + more, 1);
        EXPECT(tree_in(ROW, sizeof ROW, arena, &answer) == DUSTROUTE_DONE);
        EXPECT(answer.cells == 10 && answer.branch_count == 1 && answer.occupied_count == 10 && answer.repeater_count == 1);
        EXPECT(answer.lengths[0] == 10 && answer.detail == 0);
        for (size_t i = 0; i < 10; i++)
            EXPECT(answer.branches[i] == i && answer.occupied[i] == 1 && answer.repeaters[i] == (i == 1));
        give_back(arena);
    }
    for (size_t length = 0; length < enough - 7; length += length < enough - 20 ? 97 : 1) {
        struct buffer arena = lend(length, 1);
        EXPECT(tree_in(ROW, sizeof ROW, arena, &answer) == DUSTROUTE_BUFFER);
        EXPECT(untouched(arena) && answer.cells == 0 && answer.branches == NULL);
        EXPECT(tree_in(ROW, sizeof ROW - 1, arena, &answer) == DUSTROUTE_SHEET);
        EXPECT(untouched(arena));
        give_back(arena);
    }
    uint8_t sheet[sizeof ROW];
    memcpy(sheet, ROW, sizeof sheet);
    sheet[SINK_PORT] = 1;
    struct buffer arena = lend(dustroute_arena_size(sheet, sizeof sheet), 1);
    EXPECT(tree_in(sheet, sizeof sheet, arena, &answer) == DUSTROUTE_PORT_FACING);
    EXPECT(answer.detail == 1 && answer.branch_count == 0);
    give_back(arena);
}

/* Every byte of the sheet at many values, in the arena that it asks for: no buffer is too short. */
static void check_damaged_in_arena(void) {
    for (size_t place = 0; place < sizeof ROW; place++)
        for (int byte = 0; byte < 256; byte += byte < 16 ? 1 : 15) {
            struct dustroute_tree_answer answer;
            uint8_t sheet[sizeof ROW];
            memcpy(sheet, ROW, sizeof sheet);
            sheet[place] = (uint8_t)byte;
            struct buffer arena = lend(dustroute_arena_size(sheet, sizeof sheet), 1);
            uint32_t number = tree_in(sheet, sizeof sheet, arena, &answer);
            EXPECT(number != DUSTROUTE_BUFFER && number != DUSTROUTE_QUEUE_FULL && number != DUSTROUTE_BRANCHES_FULL);
            give_back(arena);
        }
    for (size_t length = 0; length < sizeof ROW; length++)
        EXPECT(dustroute_arena_size(ROW, length) >= 7);
}

/* ---- both modes */

/* A room of 1x2x3, in whose upper level the net runs from end to end; beneath its middle lies another net's wire. */
static const uint8_t OVER[48] = {
    1, 0, 0, 0, 43, 1, 2, 3, 0, 0, 0x75, 0x30, 0, 0, 0, 10, 0, 0, 0, 25, 0, 0, 0, 15,
    0, 0, 0, 1, 0, 0, 1, 0, 0, 0, 0, 0, 0, 0, 1, 0, 0, 0, 1, 0, 1, 2, 0, 0};

static void check_modes(void) {
    static const uint32_t modes[4] = {DUSTROUTE_PUBLISHED, DUSTROUTE_STRICT, 2, UINT32_MAX};
    in_mode = true;
    for (int i = 0; i < 4; i++) {
        strict = modes[i];
        check_tree(); /* in a bare room the modes are one */
        check_arena();
        struct tree asked = tree_of(OVER, sizeof OVER, LONGER);
        const uint32_t *branches = at(asked.lent[BRANCHES]);
        const uint64_t *values = at(asked.lent[TREE_VALUES]);
        if (strict) {
            EXPECT(asked.number == DUSTROUTE_NO_GOAL && values[0] == 5 && values[1] == 0);
            expect_tree_cleared(asked, BRANCHES);
        } else {
            EXPECT(asked.number == DUSTROUTE_DONE && values[4] == 3);
            EXPECT(branches[0] == 3 && branches[1] == 4 && branches[2] == 5 && branches[3] == 0);
            expect_tree_cleared(asked, KINDS);
        }
        free_tree(asked);
        struct dustroute_tree_answer answer;
        struct buffer arena = lend(dustroute_arena_size(OVER, sizeof OVER), 1);
        EXPECT(tree_in(OVER, sizeof OVER, arena, &answer) == (strict ? DUSTROUTE_NO_GOAL : DUSTROUTE_DONE));
        EXPECT(answer.detail == (strict ? 5 : 0) && answer.branch_count == (strict ? 0 : 1));
        give_back(arena);
    }
    in_mode = false;
}

/* ---- why a sink wasn't reached */

enum { SINK_REACHED = TREE_BUFFERS, SINK_WALLS, SINK_CAUSES, SINK_BUFFERS };

struct tree_why {
    struct buffer lent[SINK_BUFFERS];
    uint32_t number;
};

static struct tree_why tree_why_of(uint32_t mode, const uint8_t *sheet, size_t sheet_length, const size_t n[SINK_BUFFERS]) {
    static const size_t sizes[SINK_BUFFERS] = {4, 1, 1, 1, 1, 1, 1, 4, 4, 4, 4, 8, 8, 1, 1, 1};
    struct tree_why asked;
    struct buffer copy = lend_copy(sheet, sheet_length);
    for (int i = 0; i < SINK_BUFFERS; i++)
        asked.lent[i] = lend(n[i], sizes[i]);
    struct buffer *b = asked.lent;
    asked.number = dustroute_tree_why(
        mode, at(copy), sheet_length, at(b[BRANCHES]), n[BRANCHES], at(b[OCCUPIED]), n[OCCUPIED], at(b[REPEATERS]), n[REPEATERS],
        at(b[SINK_REACHED]), n[SINK_REACHED], at(b[SINK_WALLS]), n[SINK_WALLS], at(b[SINK_CAUSES]), n[SINK_CAUSES],
        at(b[KINDS]), n[KINDS], at(b[BLOCKED]), n[BLOCKED], at(b[TREE_CLASSES]), n[TREE_CLASSES], at(b[JOINABLE]), n[JOINABLE],
        at(b[TREE_KNOWN]), n[TREE_KNOWN], at(b[TREE_PREVIOUS]), n[TREE_PREVIOUS], at(b[TREE_PATH]), n[TREE_PATH],
        at(b[BEST]), n[BEST], at(b[TREE_QUEUE]), n[TREE_QUEUE], at(b[TREE_VALUES]), n[TREE_VALUES]);
    expect_kept(copy, sheet, b, SINK_BUFFERS);
    return asked;
}

static void free_tree_why(struct tree_why asked) {
    for (int i = 0; i < SINK_BUFFERS; i++)
        give_back(asked.lent[i]);
}

/* After 13 or 14: the detail, the sink's place and the verdict, and zeros in all that is no reason. */
static void expect_stopped(struct tree_why asked, uint64_t detail, uint64_t sink, uint64_t verdict) {
    const uint64_t *values = at(asked.lent[TREE_VALUES]);
    EXPECT(values[0] == detail && values[20] == sink && values[21] == verdict);
    for (size_t i = 1; i < asked.lent[TREE_VALUES].length; i++)
        EXPECT(i == 20 || i == 21 || values[i] == 0);
    for (int i = BRANCHES; i < TREE_VALUES; i++)
        EXPECT(cleared(asked.lent[i]));
}

static void expect_no_reason(struct tree_why asked) {
    for (int i = SINK_REACHED; i <= SINK_CAUSES; i++)
        EXPECT(cleared(asked.lent[i]));
}

/* In strict mode the far end alone is reached: ahead of it what is beneath is kept free, and so is the cell one down. */
static void expect_shut_in(uint32_t mode, const size_t n[SINK_BUFFERS]) {
    enum { O = DUSTROUTE_OUTSIDE, F = DUSTROUTE_KEPT_FREE, S = DUSTROUTE_SUPPORT_KEPT_FREE };
    static const uint8_t due[DUSTROUTE_MOVES] = {O, O, O, O, O, O, O, O, O, F, S, O};
    struct tree_why asked = tree_why_of(mode, OVER, sizeof OVER, n);
    const uint8_t *reached = at(asked.lent[SINK_REACHED]), *walls = at(asked.lent[SINK_WALLS]), *causes = at(asked.lent[SINK_CAUSES]);
    EXPECT(asked.number == DUSTROUTE_NO_GOAL);
    expect_stopped(asked, 5, 1, DUSTROUTE_SHUT_IN);
    for (size_t i = 0; i < n[SINK_REACHED]; i++)
        EXPECT(reached[i] == (i == 5));
    EXPECT(all(walls, 5 * DUSTROUTE_MOVES, 0) && memcmp(walls + 5 * DUSTROUTE_MOVES, due, sizeof due) == 0);
    EXPECT(all(walls + 6 * DUSTROUTE_MOVES, n[SINK_WALLS] - 6 * DUSTROUTE_MOVES, 0));
    for (size_t i = 0; i < n[SINK_CAUSES]; i++)
        EXPECT(causes[i] == (i == 1 ? DUSTROUTE_CAUSE_CONDUCTOR : 0));
    free_tree_why(asked);
}

static void check_tree_why(void) {
    const size_t exact[SINK_BUFFERS] = {6, 6, 6, 6, 6, 6, 6, 6, 6, 6, 6, 60, DUSTROUTE_TREE_WHY_VALUES, 6, DUSTROUTE_WALLS_LENGTH(6), 6};
    const size_t longer[SINK_BUFFERS] = {9, 7, 11, 8, 6, 13, 9, 7, 8, 9, 10, 61, 27, 13, DUSTROUTE_WALLS_LENGTH(6) + 7, 9};
    expect_shut_in(DUSTROUTE_STRICT, exact);
    expect_shut_in(UINT32_MAX, longer);

    /* a tree: no sink, no verdict, no reason */
    struct tree_why done = tree_why_of(DUSTROUTE_PUBLISHED, OVER, sizeof OVER, longer);
    const uint32_t *branches = at(done.lent[BRANCHES]);
    const uint64_t *values = at(done.lent[TREE_VALUES]);
    EXPECT(done.number == DUSTROUTE_DONE && branches[0] == 3 && branches[1] == 4 && branches[2] == 5 && branches[3] == 0);
    EXPECT(values[1] == 1 && values[4] == 3 && values[20] == 0 && values[21] == 0);
    expect_no_reason(done);
    free_tree_why(done);

    /* the node limit is 0, and then the queue has one place: cut short, and nothing is told */
    uint8_t limited[sizeof OVER];
    memcpy(limited, OVER, sizeof limited);
    limited[10] = limited[11] = 0;
    size_t narrow[SINK_BUFFERS];
    memcpy(narrow, longer, sizeof narrow);
    narrow[TREE_QUEUE] = 2;
    struct tree_why limit = tree_why_of(DUSTROUTE_PUBLISHED, limited, sizeof limited, longer);
    struct tree_why queue = tree_why_of(DUSTROUTE_PUBLISHED, OVER, sizeof OVER, narrow);
    EXPECT(limit.number == DUSTROUTE_NO_GOAL && queue.number == DUSTROUTE_QUEUE_FULL);
    expect_stopped(limit, 5, 1, DUSTROUTE_CUT_SHORT);
    expect_stopped(queue, 2, 1, DUSTROUTE_CUT_SHORT);
    expect_no_reason(limit);
    expect_no_reason(queue);
    free_tree_why(limit);
    free_tree_why(queue);

    /* number 6: each buffer but the branches one short, then each of length 0; nothing is touched */
    for (int i = OCCUPIED; i < SINK_BUFFERS; i++)
        for (int none = 0; none < 2; none++) {
            size_t lengths[SINK_BUFFERS];
            memcpy(lengths, longer, sizeof lengths);
            lengths[i] = none ? 0 : i == TREE_QUEUE ? 1 : exact[i] - 1;
            struct tree_why asked = tree_why_of(DUSTROUTE_STRICT, OVER, sizeof OVER, lengths);
            EXPECT(asked.number == DUSTROUTE_BUFFER);
            for (int j = 0; j < SINK_BUFFERS; j++)
                EXPECT(untouched(asked.lent[j]));
            free_tree_why(asked);
        }
}

/* ---- several nets */

enum {
    NETS_BRANCHES, NETS_LENGTHS, OWNERS, NETS_REPEATERS, LAID_KINDS, LAID_FACINGS, NETS_OCCUPIED, PLANNED_WORK, BEFORE_WORK, ROOM_WORK,
    NETS_BLOCKED, NETS_CLASSES, NETS_JOINABLE, NETS_KNOWN, NETS_PREVIOUS, NETS_PATH, NETS_BEST, NETS_QUEUE, NETS_VALUES, NETS_BUFFERS
};

/* A number of lists alone, how many values one tells, and how many lengths a net has. */
enum { NETS_OVERLAP = 16, NETS_TOLD = 3, NET_LENGTHS = 16 };

struct nets {
    struct buffer lent[NETS_BUFFERS];
    uint32_t number;
};

static struct nets nets_of(uint32_t mode, const uint8_t *list, size_t list_length, const size_t n[NETS_BUFFERS]) {
    static const size_t sizes[NETS_BUFFERS] = {4, 4, 4, 1, 1, 1, 1, 1, 1, 1, 1, 1, 1, 4, 4, 4, 4, 8, 8};
    struct nets asked;
    struct buffer copy = lend_copy(list, list_length);
    for (int i = 0; i < NETS_BUFFERS; i++)
        asked.lent[i] = lend(n[i], sizes[i]);
    struct buffer *b = asked.lent;
    asked.number = dustroute_nets(
        mode, at(copy), list_length, at(b[NETS_BRANCHES]), n[NETS_BRANCHES], at(b[NETS_LENGTHS]), n[NETS_LENGTHS], at(b[OWNERS]), n[OWNERS],
        at(b[NETS_REPEATERS]), n[NETS_REPEATERS], at(b[LAID_KINDS]), n[LAID_KINDS], at(b[LAID_FACINGS]), n[LAID_FACINGS],
        at(b[NETS_OCCUPIED]), n[NETS_OCCUPIED], at(b[PLANNED_WORK]), n[PLANNED_WORK], at(b[BEFORE_WORK]), n[BEFORE_WORK],
        at(b[ROOM_WORK]), n[ROOM_WORK], at(b[NETS_BLOCKED]), n[NETS_BLOCKED], at(b[NETS_CLASSES]), n[NETS_CLASSES],
        at(b[NETS_JOINABLE]), n[NETS_JOINABLE], at(b[NETS_KNOWN]), n[NETS_KNOWN], at(b[NETS_PREVIOUS]), n[NETS_PREVIOUS],
        at(b[NETS_PATH]), n[NETS_PATH], at(b[NETS_BEST]), n[NETS_BEST], at(b[NETS_QUEUE]), n[NETS_QUEUE],
        at(b[NETS_VALUES]), n[NETS_VALUES]);
    expect_kept(copy, list, b, NETS_BUFFERS);
    return asked;
}

static void free_nets(struct nets asked) {
    for (int i = 0; i < NETS_BUFFERS; i++)
        give_back(asked.lent[i]);
}

/* Lengths for a room of so many cells and so many nets of one sink; all longer by `more`. */
static void nets_lengths(size_t n[NETS_BUFFERS], size_t cells, size_t nets, size_t more) {
    for (int i = 0; i < NETS_BUFFERS; i++)
        n[i] = cells + more;
    n[NETS_BRANCHES] = nets * (cells + 1) + more;
    n[NETS_LENGTHS] = nets * NET_LENGTHS + more;
    n[NETS_QUEUE] = DUSTROUTE_QUEUE_LENGTH(cells) + (more > 0);
    n[NETS_VALUES] = NETS_TOLD + more;
}

/* The first three values, and zeros or rubbish behind them. */
static void expect_told(struct nets asked, uint64_t detail, uint64_t net, uint64_t count, uint8_t behind) {
    struct buffer values = asked.lent[NETS_VALUES];
    const uint64_t *told = at(values);
    EXPECT(told[0] == detail && told[1] == net && told[2] == count);
    EXPECT(all(values.elements + 8 * NETS_TOLD, 8 * (values.length - NETS_TOLD), behind));
}

/* A number of a net: 1 to 6 leave all but the first three values as it was, others leave zeros. */
static void expect_net_refused(
    const uint8_t *list, size_t length, const size_t n[NETS_BUFFERS], uint32_t number, uint64_t detail, uint64_t net) {
    struct nets asked = nets_of(DUSTROUTE_PUBLISHED, list, length, n);
    EXPECT(asked.number == number);
    expect_told(asked, detail, net, 0, number <= DUSTROUTE_BUFFER ? RUBBISH : 0);
    for (int i = 0; i < NETS_VALUES; i++)
        EXPECT(number <= DUSTROUTE_BUFFER ? untouched(asked.lent[i]) : cleared(asked.lent[i]));
    free_nets(asked);
}

/* Nets of one branch each, which have these lengths and cells one behind another; and the room that they are laid into. */
struct laid {
    size_t nets, lengths[2], branches[5], cells;
    uint32_t owners[6];
    uint8_t kinds[6], facings[6];
};

static void expect_laid(const uint8_t *list, size_t length, size_t more, const struct laid *due) {
    size_t n[NETS_BUFFERS], used = 0;
    nets_lengths(n, due->cells, due->nets, more);
    struct nets asked = nets_of(more ? DUSTROUTE_STRICT : DUSTROUTE_PUBLISHED, list, length, n);
    const uint32_t *branches = at(asked.lent[NETS_BRANCHES]), *lengths = at(asked.lent[NETS_LENGTHS]), *owners = at(asked.lent[OWNERS]);
    const uint8_t *kinds = at(asked.lent[LAID_KINDS]), *facings = at(asked.lent[LAID_FACINGS]);
    EXPECT(asked.number == DUSTROUTE_DONE);
    expect_told(asked, 0, 0, due->nets, 0);
    for (size_t i = 0; i < n[NETS_LENGTHS]; i++)
        EXPECT(lengths[i] == (i % NET_LENGTHS == 0 && i / NET_LENGTHS < due->nets ? due->lengths[i / NET_LENGTHS] : 0));
    for (size_t i = 0; i < due->nets; i++)
        used += due->lengths[i];
    for (size_t i = 0; i < n[NETS_BRANCHES]; i++)
        EXPECT(branches[i] == (i < used ? due->branches[i] : 0));
    for (size_t i = 0; i < due->cells + more; i++) {
        bool inside = i < due->cells;
        EXPECT(owners[i] == (inside ? due->owners[i] : 0));
        EXPECT(kinds[i] == (inside ? due->kinds[i] : 0) && facings[i] == (inside ? due->facings[i] : 0));
    }
    EXPECT(cleared(asked.lent[NETS_REPEATERS]));
    for (int i = NETS_OCCUPIED; i < NETS_VALUES; i++)
        EXPECT(cleared(asked.lent[i]));
    free_nets(asked);
}

/* Writes the sheet of a net from one cell to another, where it may face; without a sink where `sinks` is 0. */
static size_t net_sheet(uint8_t *out, const uint8_t sides[3], const uint8_t from[3], int sinks, const uint8_t to[3], uint8_t facing) {
    memcpy(out, ROW, sizeof ROW);
    memcpy(out + 5, sides, 3);
    memcpy(out + 34, from, 3);
    out[SINK_COUNT] = (uint8_t)sinks;
    memcpy(out + SINK_COUNT + 1, to, 3);
    out[SINK_FACING] = facing;
    size_t length = sinks ? sizeof ROW : SINK_COUNT + 1;
    out[REST_LENGTH] = (uint8_t)(length - 5);
    return length;
}

/* Sample l of docs/RULES.md: a row of six with a Solid block at its end, which is powered from the west. */
static const uint8_t SAMPLE_L[52] = {
    1, 0, 0, 0, 47, 6, 1, 1, 0, 0, 0x75, 0x30, 0, 0, 0, 10, 0, 0, 0, 25, 0, 0, 0, 15,
    0, 1, 0, 0, 5, 0, 0, 1, 0, 0, 0, 0, 0, 0, 0, 0, 0, 0, 0, 0, 0, 0, 1, 5, 0, 0, 1, 4};

static const uint8_t SQUARE[3] = {2, 2, 1}, LOW_0[3] = {0, 0, 0}, LOW_1[3] = {1, 0, 0}, HIGH_0[3] = {0, 1, 0}, HIGH_1[3] = {1, 1, 0};

static void check_laid(void) {
    static const struct laid sample = {1, {5}, {0, 1, 2, 3, 4}, 6, {1, 1, 1, 1, 1, 0}, {3, 3, 3, 3, 5, 1}, {0, 0, 0, 0, 2, 0}};
    static const struct laid upper = {2, {2, 2}, {1, 3, 0, 2}, 4, {2, 1, 2, 1}, {2, 3, 2, 3}, {0}};
    static const struct laid lower = {2, {2, 2}, {0, 2, 1, 3}, 4, {1, 2, 1, 2}, {3, 3, 3, 3}, {0}};
    uint8_t list[2 * sizeof ROW];
    for (size_t more = 0; more < 24; more += 23) {
        expect_laid(SAMPLE_L, sizeof SAMPLE_L, more, &sample);
        /* the upper net's supports stand where the lower one's wire would lie */
        size_t length = net_sheet(list, SQUARE, HIGH_0, 1, HIGH_1, 0);
        expect_laid(list, length + net_sheet(list + length, SQUARE, LOW_0, 1, LOW_1, 0), more, &upper);
        net_sheet(list, SQUARE, LOW_0, 1, LOW_1, 0);
        expect_laid(list, length + net_sheet(list + length, SQUARE, HIGH_0, 1, HIGH_1, 0), more, &lower);
    }
}

static void check_nets_refused(void) {
    static const uint8_t one[3] = {1, 1, 1}, low[3] = {1, 2, 3}, at_1[3] = {0, 0, 1}, at_4[3] = {0, 1, 1};
    uint8_t list[2 * sizeof ROW];
    size_t n[NETS_BUFFERS];
    nets_lengths(n, 6, 2, 3);
    expect_net_refused(list, 0, n, DUSTROUTE_SHEET, 0, 0); /* no bytes */
    size_t length = net_sheet(list, one, LOW_0, 0, LOW_0, 0);
    expect_net_refused(list, length + net_sheet(list + length, one, LOW_0, 0, LOW_0, 0), n, NETS_OVERLAP, 0, 1);
    length = net_sheet(list, low, LOW_0, 1, at_4, 3);
    expect_net_refused(list, length + net_sheet(list + length, low, HIGH_0, 1, at_1, 0), n, NETS_OVERLAP, 1, 1);
    length = net_sheet(list, SQUARE, LOW_0, 1, LOW_1, 0);
    size_t both = length + net_sheet(list + length, SQUARE, HIGH_0, 1, HIGH_1, 2);
    expect_net_refused(list, both, n, DUSTROUTE_END_OUTSIDE, 1, 1);
    n[NETS_LENGTHS] = 2 * NET_LENGTHS - 1; /* before that net's 9 */
    expect_net_refused(list, both, n, DUSTROUTE_BUFFER, 0, 1);
    for (size_t cut = length + 1; cut < both; cut++)
        expect_net_refused(list, cut, n, DUSTROUTE_SHEET, 0, 1);
    nets_lengths(n, 4, 2, 0);
    net_sheet(list + length, SQUARE, HIGH_0, 1, HIGH_1, 0);
    n[NETS_BRANCHES] = 3;
    expect_net_refused(list, both, n, DUSTROUTE_BRANCHES_FULL, 1, 1);
    list[length + 5] = 3; /* other sides */
    expect_net_refused(list, both, n, DUSTROUTE_SHEET, 0, 1);
}

/* Each buffer that is judged with net 0 one short, then of length 0. */
static void check_short_nets(void) {
    size_t n[NETS_BUFFERS];
    for (int i = OWNERS; i < NETS_BUFFERS; i++)
        for (int none = 0; none < 2; none++) {
            nets_lengths(n, 6, 1, i % 2);
            n[i] = none ? 0 : i == NETS_QUEUE ? 1 : i == NETS_VALUES ? NETS_TOLD - 1 : 5;
            if (i < NETS_VALUES) {
                expect_net_refused(SAMPLE_L, sizeof SAMPLE_L, n, DUSTROUTE_BUFFER, 0, 0);
                expect_net_refused(SAMPLE_L, sizeof SAMPLE_L - 1, n, DUSTROUTE_SHEET, 0, 0);
                continue;
            }
            struct nets asked = nets_of(DUSTROUTE_STRICT, SAMPLE_L, sizeof SAMPLE_L, n);
            EXPECT(asked.number == DUSTROUTE_BUFFER);
            for (int j = 0; j < NETS_BUFFERS; j++)
                EXPECT(untouched(asked.lent[j]));
            free_nets(asked);
        }
}

/* Every byte of a list of two at many values: whatever comes, it stays within the buffers. */
static void check_damaged_nets(void) {
    uint8_t list[2 * sizeof ROW], damaged[2 * sizeof ROW];
    size_t n[NETS_BUFFERS], length = net_sheet(list, SQUARE, LOW_0, 1, LOW_1, 0);
    length += net_sheet(list + length, SQUARE, HIGH_0, 1, HIGH_1, 0);
    nets_lengths(n, 4, 2, 0);
    for (size_t place = 0; place < length; place++)
        for (int byte = 0; byte < 256; byte += byte < 16 ? 1 : 15) {
            memcpy(damaged, list, length);
            damaged[place] = (uint8_t)byte;
            struct nets asked = nets_of(DUSTROUTE_PUBLISHED, damaged, length, n);
            EXPECT(asked.number <= NETS_OVERLAP);
            free_nets(asked);
        }
}

/* ---- a function file */

static const char WIRES[] = "setblock ~ ~ ~ minecraft:redstone_wire replace\nsetblock ~2 ~ ~ minecraft:redstone_wire replace\n";
enum { WIRES_LENGTH = sizeof WIRES - 1 };

/* A row of three, these kinds and facings, over a text and values of these lengths: the number, and all bytes. */
static void expect_written(const uint8_t *kinds, const uint8_t *facings, size_t cells, size_t length, size_t count, uint32_t number) {
    struct buffer text = lend(length, 1), values = lend(count, 8);
    uint32_t found = dustroute_write_function(3, 1, 1, kinds, cells, facings, cells, at(text), length, at(values), count);
    const uint64_t *told = at(values);
    EXPECT(found == number);
    if (number == DUSTROUTE_DONE) {
        EXPECT(memcmp(at(text), WIRES, WIRES_LENGTH) == 0 && all(text.elements + WIRES_LENGTH, length - WIRES_LENGTH, 0));
        EXPECT(told[0] == 0 && told[1] == WIRES_LENGTH && all(values.elements + 16, 8 * count - 16, 0));
    } else if (number == DUSTROUTE_TEXT_SHORT) {
        EXPECT(all(text.elements, length, 0) && all(values.elements, 8 * count, 0));
    } else {
        EXPECT(all(text.elements, length, RUBBISH) && all(values.elements, 8 * count, RUBBISH));
    }
    EXPECT(all(text.elements - GUARD, GUARD, GUARD_BYTE) && all(values.elements - GUARD, GUARD, GUARD_BYTE));
    give_back(text);
    give_back(values);
}

/* A text of a row of three, over kinds, facings and values of these lengths. */
static void expect_read(const char *text, size_t length, size_t cells, size_t count, uint32_t number, uint64_t bad) {
    struct buffer kinds = lend(cells, 1), facings = lend(cells, 1), values = lend(count, 8);
    uint32_t found = dustroute_read_function(
        3, 1, 1, (const uint8_t *)text, length, at(kinds), cells, at(facings), cells, at(values), count);
    const uint64_t *told = at(values);
    const uint8_t row[3] = {3, 0, 3};
    EXPECT(found == number);
    if (number == DUSTROUTE_DONE) {
        EXPECT(memcmp(at(kinds), row, 3) == 0 && all(kinds.elements + 3, cells - 3, 0) && all(facings.elements, cells, 0));
        EXPECT(told[0] == 0 && told[1] == 2 && all(values.elements + 16, 8 * count - 16, 0));
    } else if (number == DUSTROUTE_BAD_LINE) {
        EXPECT(all(kinds.elements, cells, 0) && all(facings.elements, cells, 0));
        EXPECT(told[0] == bad && told[1] == 0 && all(values.elements + 16, 8 * count - 16, 0));
    } else {
        EXPECT(all(kinds.elements, cells, RUBBISH) && all(facings.elements, cells, RUBBISH) && all(values.elements, 8 * count, RUBBISH));
    }
    give_back(kinds);
    give_back(facings);
    give_back(values);
}

static void check_functions(void) {
    const uint8_t wires[3] = {3, 0, 3}, none[3] = {0, 0, 0}, faced[3] = {1, 0, 0}, unknown[3] = {13, 0, 0};
    expect_written(wires, none, 3, WIRES_LENGTH, 2, DUSTROUTE_DONE);
    expect_written(wires, none, 3, DUSTROUTE_TEXT_LENGTH(2), 5, DUSTROUTE_DONE);
    expect_written(wires, none, 3, WIRES_LENGTH - 1, 3, DUSTROUTE_TEXT_SHORT);
    expect_written(wires, none, 3, 0, 2, DUSTROUTE_TEXT_SHORT);
    expect_written(wires, faced, 3, WIRES_LENGTH, 2, DUSTROUTE_CODE);
    expect_written(unknown, none, 3, 0, 2, DUSTROUTE_CODE);
    expect_written(wires, none, 2, 9, 2, DUSTROUTE_BUFFER);
    expect_written(wires, none, 3, WIRES_LENGTH, 1, DUSTROUTE_BUFFER);
    expect_written(wires, none, 3, WIRES_LENGTH, 0, DUSTROUTE_BUFFER);
    expect_read(WIRES, WIRES_LENGTH, 3, 2, DUSTROUTE_DONE, 0);
    expect_read(WIRES, WIRES_LENGTH, 70, 7, DUSTROUTE_DONE, 0);
    expect_read(WIRES, WIRES_LENGTH + 1, 4, 2, DUSTROUTE_BAD_LINE, 3);
    expect_read(WIRES, WIRES_LENGTH - 1, 3, 3, DUSTROUTE_BAD_LINE, 2);
    expect_read("#", 1, 3, 2, DUSTROUTE_BAD_LINE, 1);
    expect_read(WIRES, WIRES_LENGTH, 2, 2, DUSTROUTE_BUFFER, 0);
    expect_read(WIRES, WIRES_LENGTH, 3, 1, DUSTROUTE_BUFFER, 0);
    uint64_t values[2] = {7, 7};
    EXPECT(dustroute_write_function(0, 1, 1, NULL, 0, NULL, 0, NULL, 0, values, 0) == DUSTROUTE_SIDES && values[0] == 7);
    EXPECT(dustroute_read_function(1, 301, 1, NULL, 0, NULL, 0, NULL, 0, values, 2) == DUSTROUTE_SIDES && values[1] == 7);
    /* from x to x + 1 a signal runs through a repeater that faces west in the game */
    static const char west[] = "setblock ~ ~ ~ minecraft:repeater[facing=west] replace\n";
    uint8_t repeater = 5, east = 2, text[DUSTROUTE_LINE_BYTES];
    EXPECT(dustroute_write_function(1, 1, 1, &repeater, 1, &east, 1, text, sizeof text, values, 2) == DUSTROUTE_DONE);
    EXPECT(values[1] == sizeof west - 1 && memcmp(text, west, sizeof west - 1) == 0);
}

/* ---- a sheet written */

enum { BLOCKS, CONDUCTORS, CLEARANCES, TERMINALS, RESERVED, SOURCE, SINKS, PART_LISTS };

/* A job's lists as 16-bit numbers, at the usual costs in a room of 5x2x3. */
struct parts {
    size_t wide, high, deep;
    uint32_t limit, run;
    uint16_t numbers[PART_LISTS][12];
    size_t lengths[PART_LISTS];
};

static const struct parts PARTS = {
    5, 2, 3, 30000, DUSTROUTE_USUAL_RUN,
    {{0x0102, 3, 0, 0, 1, 0, 0xFFFF, 1, 1, 1, 5, 2}, {4, 1, 0}, {0, 1, 0}, {1, 1, 0}, {2, 1, 0, 2, 1, 0}, {0, 0, 1, 0, 0},
     {4, 0, 1, 0, 0, 8, 2, 0, 2, 1, 4, 8}},
    {12, 3, 3, 3, 6, 5, 12}};

/* Their sheet. */
static const uint8_t PARTS_SHEET[79] = {
    1, 0, 0, 0, 74, 5, 2, 3, 0, 0, 0x75, 0x30, 0, 0, 0, 10, 0, 0, 0, 25, 0, 0, 0, 15,
    0, 2, 1, 2, 3, 0, 0, 1, 0, 0xFF, 0xFF, 1, 1, 1, 5, 2, 0, 1, 4, 1, 0, 0, 1, 0, 1, 0, 0, 1, 1, 1, 0, 0, 2, 2, 1, 0, 2, 1, 0,
    0, 0, 1, 0, 0, 2, 4, 0, 1, 0, 0, 2, 0, 2, 1, 4};

/* The same with a tail limit of 3 in the last sink: version 2, three bytes longer. */
static const uint8_t TAIL_SHEET[82] = {
    2, 0, 0, 0, 77, 5, 2, 3, 0, 0, 0x75, 0x30, 0, 0, 0, 10, 0, 0, 0, 25, 0, 0, 0, 15, 12,
    0, 2, 1, 2, 3, 0, 0, 1, 0, 0xFF, 0xFF, 1, 1, 1, 5, 2, 0, 1, 4, 1, 0, 0, 1, 0, 1, 0, 0, 1, 1, 1, 0, 0, 2, 2, 1, 0, 2, 1, 0,
    0, 0, 1, 0, 0, 2, 4, 0, 1, 0, 0, 8, 2, 0, 2, 1, 4, 3};

/* These parts over an output and values of these lengths: the number, all bytes, and lists as they were. */
static void expect_sheet(const struct parts *parts, size_t length, size_t count, uint32_t number) {
    struct buffer sheet = lend(length, 1), values = lend(count, 8), lists[PART_LISTS];
    for (int i = 0; i < PART_LISTS; i++) {
        lists[i] = lend(parts->lengths[i], 2);
        memcpy(lists[i].elements, parts->numbers[i], 2 * parts->lengths[i]);
    }
    const size_t *n = parts->lengths;
    uint32_t found = dustroute_write_sheet(
        parts->wide, parts->high, parts->deep, parts->limit, 10, 25, 15, parts->run, at(lists[BLOCKS]), n[BLOCKS],
        at(lists[CONDUCTORS]), n[CONDUCTORS], at(lists[CLEARANCES]), n[CLEARANCES], at(lists[TERMINALS]), n[TERMINALS],
        at(lists[RESERVED]), n[RESERVED], at(lists[SOURCE]), n[SOURCE], at(lists[SINKS]), n[SINKS],
        at(sheet), length, at(values), count);
    const uint64_t *told = at(values);
    EXPECT(found == number);
    if (found == DUSTROUTE_DONE && number == found) {
        int is_usual = parts->numbers[SINKS][11] == DUSTROUTE_USUAL_TAIL;
        size_t due = is_usual ? sizeof PARTS_SHEET : sizeof TAIL_SHEET;
        EXPECT(memcmp(at(sheet), is_usual ? PARTS_SHEET : TAIL_SHEET, due) == 0 && all(sheet.elements + due, length - due, 0));
        EXPECT(told[0] == 0 && told[1] == due && all(values.elements + 16, 8 * count - 16, 0));
    } else {
        EXPECT(untouched(sheet) && untouched(values));
    }
    EXPECT(all(sheet.elements - GUARD, GUARD, GUARD_BYTE) && all(values.elements - GUARD, GUARD, GUARD_BYTE));
    for (int i = 0; i < PART_LISTS; i++) {
        EXPECT(memcmp(lists[i].elements, parts->numbers[i], 2 * parts->lengths[i]) == 0);
        EXPECT(all(lists[i].elements - GUARD, GUARD, GUARD_BYTE));
        give_back(lists[i]);
    }
    give_back(sheet);
    give_back(values);
}

/* The parts with one number of a list changed. */
static void expect_sheet_refused(int list, size_t place, uint16_t value, uint32_t number) {
    struct parts parts = PARTS;
    parts.numbers[list][place] = value;
    expect_sheet(&parts, 79, DUSTROUTE_WRITE_VALUES, number);
}

/* Limits of 1 to 15 are written, others refused: the run limit's 3 before the records, a tail limit's 3 in its record. */
static void check_limits_written(void) {
    struct parts parts = PARTS;
    parts.numbers[SINKS][11] = 3;
    expect_sheet(&parts, 82, DUSTROUTE_WRITE_VALUES, DUSTROUTE_DONE);
    expect_sheet(&parts, 90, DUSTROUTE_WRITE_VALUES, DUSTROUTE_DONE);
    expect_sheet(&parts, 81, DUSTROUTE_WRITE_VALUES, DUSTROUTE_BUFFER);
    const uint32_t bad[] = {0, 16, 256 + 12, 1 << 16 | 12, (uint32_t)-1};
    for (size_t i = 0; i < sizeof bad / sizeof *bad; i++) {
        parts = PARTS;
        parts.run = bad[i];
        parts.numbers[BLOCKS][1] = 300;
        expect_sheet(&parts, 82, DUSTROUTE_WRITE_VALUES, DUSTROUTE_CONFIG);
    }
    const uint16_t tails[] = {0, 16, 256 + 8, (uint16_t)-1};
    for (size_t i = 0; i < sizeof tails / sizeof *tails; i++) {
        expect_sheet_refused(SINKS, 5, tails[i], DUSTROUTE_CONFIG);
        expect_sheet_refused(SINKS, 11, tails[i], DUSTROUTE_CONFIG);
    }
}

static void check_write_sheet(void) {
    expect_sheet(&PARTS, 79, DUSTROUTE_WRITE_VALUES, DUSTROUTE_DONE);
    expect_sheet(&PARTS, DUSTROUTE_MAX_SHEET, 5, DUSTROUTE_DONE);
    expect_sheet(&PARTS, 78, DUSTROUTE_WRITE_VALUES, DUSTROUTE_BUFFER);
    expect_sheet(&PARTS, 0, DUSTROUTE_WRITE_VALUES, DUSTROUTE_BUFFER);
    expect_sheet(&PARTS, 79, 1, DUSTROUTE_BUFFER);
    expect_sheet(&PARTS, 79, 0, DUSTROUTE_BUFFER);
    for (int i = 0; i < PART_LISTS; i++) {
        struct parts parts = PARTS;
        parts.lengths[i]--;
        parts.wide = 0; /* 1 comes before 2, and 6 last */
        expect_sheet(&parts, 0, 0, DUSTROUTE_SHEET);
    }
    for (int axis = 0; axis < 3; axis++) {
        struct parts parts = PARTS;
        size_t *sides[3] = {&parts.wide, &parts.high, &parts.deep};
        const size_t bad[] = {0, 301, 512 + 5, (size_t)-1, (size_t)1 << 32 | 5};
        for (size_t i = 0; i < sizeof bad / sizeof *bad; i++) {
            *sides[axis] = bad[i];
            expect_sheet(&parts, 79, DUSTROUTE_WRITE_VALUES, DUSTROUTE_SIDES);
        }
    }
    struct parts parts = PARTS;
    parts.wide = parts.high = parts.deep = (size_t)1 << 32; /* their product wraps to 0 */
    expect_sheet(&parts, 79, DUSTROUTE_WRITE_VALUES, DUSTROUTE_SIDES);
    parts = PARTS;
    parts.limit = 800001;
    expect_sheet(&parts, 79, DUSTROUTE_WRITE_VALUES, DUSTROUTE_CONFIG);
    expect_sheet_refused(BLOCKS, 1, 300, DUSTROUTE_POSITION);
    expect_sheet_refused(RESERVED, 5, 256, DUSTROUTE_POSITION);
    expect_sheet_refused(SINKS, 6, 5, DUSTROUTE_POSITION);
    expect_sheet_refused(BLOCKS, 10, 300, DUSTROUTE_CODE);
    expect_sheet_refused(BLOCKS, 4, 0, DUSTROUTE_CODE);
    expect_sheet_refused(SOURCE, 3, 256, DUSTROUTE_CODE);
    expect_sheet_refused(SINKS, 10, 7, DUSTROUTE_CODE);
    check_limits_written();
}

/* Sixteen sinks are written, seventeen are not; nor is more than 60,000 bytes, or a list of which no count can tell. */
static void check_longest_sheet(void) {
    static uint16_t numbers[3 * 65537], sinks[17 * DUSTROUTE_SINK_NUMBERS];
    static uint8_t sheet[DUSTROUTE_MAX_SHEET];
    static const struct { size_t positions, sinks; uint32_t run, number; } cases[] = {
        {0, 16, 12, DUSTROUTE_DONE}, {0, 17, 12, DUSTROUTE_SHEET}, {19985, 1, 12, DUSTROUTE_DONE}, {19986, 1, 12, DUSTROUTE_SHEET},
        {19985, 1, 11, DUSTROUTE_SHEET}, {19984, 1, 11, DUSTROUTE_DONE}, {0, 16, 15, DUSTROUTE_DONE},
        {65535, 0, 12, DUSTROUTE_SHEET}, {65536, 0, 12, DUSTROUTE_SHEET}, {65537, 0, 12, DUSTROUTE_SHEET}};
    for (size_t i = 0; i < 17; i++)
        sinks[DUSTROUTE_SINK_NUMBERS * i + 5] = DUSTROUTE_USUAL_TAIL;
    for (size_t i = 0; i < sizeof cases / sizeof *cases; i++) {
        uint64_t values[DUSTROUTE_WRITE_VALUES] = {7, 7};
        size_t limits = cases[i].run == DUSTROUTE_USUAL_RUN ? 0 : 1 + cases[i].sinks;
        size_t due = 40 + 3 * cases[i].positions + 5 * cases[i].sinks + limits;
        uint32_t found = dustroute_write_sheet(
            1, 1, 1, 0, 0, 0, 0, cases[i].run, NULL, 0, NULL, 0, NULL, 0, NULL, 0, numbers, 3 * cases[i].positions,
            numbers, DUSTROUTE_END_NUMBERS, sinks, DUSTROUTE_SINK_NUMBERS * cases[i].sinks,
            sheet, sizeof sheet, values, DUSTROUTE_WRITE_VALUES);
        EXPECT(found == cases[i].number);
        EXPECT(found == DUSTROUTE_DONE ? values[0] == 0 && values[1] == due : values[0] == 7 && values[1] == 7);
    }
}

int main(void) {
    for (int null = 0; null < 2; null++) {
        empty_is_null = null;
        check_search();
        check_why();
        check_plain();
        check_drawing();
        check_repeaters();
        check_tree();
        check_arena();
        check_modes();
        check_tree_why();
        check_laid();
        check_nets_refused();
        check_short_nets();
        check_functions();
        check_write_sheet();
    }
    check_longest_sheet();
    check_damaged();
    check_damaged_in_arena();
    check_damaged_nets();
    if (failures == 0)
        printf("check.c: all as promised\n");
    return failures != 0;
}
