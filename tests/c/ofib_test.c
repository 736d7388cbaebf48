// Every function of bindings/ofib.h, called from C: on the file of paper 01, against what is stored of it and what 01
// and 02 say of its plan (C1), on what they refuse, with rank timers, and on an area in which routers have five next
// hops.
//     ofib_test FILE REHEARSAL ROUTES
// FILE is the bench file, REHEARSAL and ROUTES what the programs print for it. What differs is printed, and the status
// is 1 then.
#include "ofib.h"

#include <stdio.h>
#include <stdlib.h>
#include <string.h>

// ---- Comparing.

static int failures;

static void number(const char *what, unsigned long got, unsigned long wanted)
{
    if (got != wanted) {
        printf("ofib_test: %s: %lu, and not %lu\n", what, got, wanted);
        failures++;
    }
}

// Entry k of a list, or cell k of a table: is it the wanted one?
static int is_same(const char *what, size_t k, unsigned long got, unsigned long wanted)
{
    if (got != wanted) {
        printf("ofib_test: %s, at %zu: %lu, and not %lu\n", what, k, got, wanted);
        failures++;
    }
    return got == wanted;
}

// Each up to the first that differs.
static void bytes(const char *what, const uint8_t *got, const uint8_t *wanted, size_t count)
{
    for (size_t k = 0; k < count && is_same(what, k, got[k], wanted[k]);)
        k++;
}

static void cells(const char *what, const uint32_t *got, const uint32_t *wanted, size_t count)
{
    for (size_t k = 0; k < count && is_same(what, k, got[k], wanted[k]);)
        k++;
}

static void sets(const char *what, const ofib_set *got, const ofib_set *wanted, size_t count)
{
    for (size_t k = 0; k < count && is_same(what, k, got[k], wanted[k]);)
        k++;
}

static void records(const char *what, const ofib_record *got, const ofib_record *wanted)
{
    number(what, got->n, wanted->n);
    number(what, got->root, wanted->root);
    number(what, got->direction, wanted->direction);
    bytes(what, got->ranks, wanted->ranks, OFIB_WIDTH);
    sets(what, got->waiting, wanted->waiting, OFIB_WIDTH);
    sets(what, got->telling, wanted->telling, OFIB_WIDTH);
    sets(what, got->due, wanted->due, OFIB_WIDTH);
    bytes(what, got->states, wanted->states, OFIB_WIDTH);
    sets(what, got->written, wanted->written, OFIB_WIDTH);
    number(what, got->hold_time, wanted->hold_time);
    number(what, got->step_time, wanted->step_time);
    number(what, got->clock, wanted->clock);
    cells(what, got->learn_times, wanted->learn_times, OFIB_WIDTH);
}

// ---- What the calls are made on.

// The file and its texts are small.
#define MOST 4096

typedef struct text {
    uint8_t bytes[MOST];
    size_t len;
} text;

static text file, rehearsal, routes;

static void load(const char *path, text *t)
{
    FILE *f = fopen(path, "rb");
    if (f == NULL) {
        perror(path);
        exit(2);
    }
    t->len = fread(t->bytes, 1, sizeof t->bytes, f);
    fclose(f);
    if (t->len == sizeof t->bytes) {
        fprintf(stderr, "%s: too long\n", path);
        exit(2);
    }
}

// The cell that number k has in the rows of so many routers, of which this one is the first.
static size_t cell_of(size_t first, size_t routers, size_t k)
{
    return OFIB_WIDTH * (first + k / routers) + first + k % routers;
}

// A table with these rows for so many routers from the first on, and `rest` everywhere else.
static void square(uint32_t *table, size_t first, size_t routers, const uint32_t *rows, uint32_t rest)
{
    for (size_t k = 0; k < OFIB_CELLS; k++)
        table[k] = rest;
    for (size_t k = 0; k < routers * routers; k++)
        table[cell_of(first, routers, k)] = rows[k];
}

// The same for the three lowest routers.
static void triangle(uint32_t *table, const uint32_t nine[9], uint32_t rest)
{
    square(table, 0, 3, nine, rest);
}

// A table of sets for so many routers, the lowest ones; those elsewhere are empty.
static void square_of_sets(ofib_set *table, size_t routers, const ofib_set *rows)
{
    memset(table, 0, OFIB_CELLS * sizeof *table);
    for (size_t k = 0; k < routers * routers; k++)
        table[cell_of(0, routers, k)] = rows[k];
}

#define NO OFIB_UNUSED
static const uint32_t no_link[9] = {NO, NO, NO, NO, NO, NO, NO, NO, NO};
static const uint32_t old_metrics[9] = {NO, 1, 3, 1, NO, 1, 3, 1, NO};
static const uint32_t new_metrics[9] = {NO, 1, 3, 1, NO, NO, 3, NO, NO};
static const uint32_t old_distances[9] = {0, 1, 2, 1, 0, 1, 2, 1, 0};
static const uint32_t new_distances[9] = {0, 1, 3, 1, 0, 4, 3, 4, 0};
static const ofib_set old_next_hops[9] = {0, 2, 2, 1, 0, 4, 2, 2, 0};
static const ofib_set new_next_hops[9] = {0, 2, 4, 1, 0, 1, 1, 1, 0};

static const uint8_t change[] = {1, 2, 255, 255, 255, 2, 1, 255, 255, 255};

// The times of the plans that are not about them.
#define HOLD 0
#define STEP 1
static const ofib_record fresh = {
    .n = 3,
    .root = 1,
    .direction = OFIB_RISE,
    .ranks = {0, 1, 0},
    .waiting = {0, 5, 0},
    .telling = {2, 0, 2},
    .due = {4, 4, 3},
    .hold_time = HOLD,
    .step_time = STEP,
};
static const ofib_record blank;

// The routers on the running sheet, and on the one of a refusal.
static const uint8_t in_order[OFIB_WIDTH] = {0, 2, 1}, no_order[OFIB_WIDTH];

// Every byte of the tables before a call that must not write them.
#define UNTOUCHED 7
static ofib_tables tables, untouched, planned;

static void fill_tables(void)
{
    memset(&untouched, UNTOUCHED, sizeof untouched);
    triangle(untouched.old, old_metrics, OFIB_UNUSED);
    triangle(planned.old, old_metrics, OFIB_UNUSED);
    triangle(planned.new_, new_metrics, OFIB_UNUSED);
    triangle(planned.old_dist, old_distances, OFIB_UNREACHED);
    triangle(planned.new_dist, new_distances, OFIB_UNREACHED);
    // A router has at most two next hops here, so each set of four is the full set.
    square_of_sets(planned.old_hops, 3, old_next_hops);
    square_of_sets(planned.old_fours, 3, old_next_hops);
    square_of_sets(planned.new_hops, 3, new_next_hops);
    square_of_sets(planned.new_fours, 3, new_next_hops);
}

static void same_tables(const char *what, const ofib_tables *wanted)
{
    cells(what, tables.old, wanted->old, OFIB_CELLS);
    cells(what, tables.new_, wanted->new_, OFIB_CELLS);
    cells(what, tables.old_dist, wanted->old_dist, OFIB_CELLS);
    sets(what, tables.old_hops, wanted->old_hops, OFIB_CELLS);
    sets(what, tables.old_fours, wanted->old_fours, OFIB_CELLS);
    cells(what, tables.new_dist, wanted->new_dist, OFIB_CELLS);
    sets(what, tables.new_hops, wanted->new_hops, OFIB_CELLS);
    sets(what, tables.new_fours, wanted->new_fours, OFIB_CELLS);
}

// ---- The tests.

// One call of ofib_read: its answer, what it says of the file, and the table that it leaves.
static void one_read(const char *what, size_t file_len, size_t table_len, uint8_t answer,
                     const size_t wanted[8], const uint32_t *metrics)
{
    size_t contents[8] = {9, 9, 9, 9, 9, 9, 9, 9};
    tables = untouched;
    number(what, ofib_read(file.bytes, file_len, tables.new_, table_len, contents), answer);
    for (size_t k = 0; k < 8; k++)
        number(what, contents[k], wanted[k]);
    cells(what, tables.new_, metrics, OFIB_CELLS);
}

// The second link of the file is made another one with the pair of the first. That it is a dead link is seen before
// that its pair is listed twice.
static void test_bad_link(const size_t nothing[8], const uint32_t *unused)
{
    static const uint8_t dead[] = {0, 1, 255, 255, 255}, repeated[] = {0, 1, 255, 255, 254};
    uint8_t *second = file.bytes + 3 + OFIB_ENTRY, before[OFIB_ENTRY];
    memcpy(before, second, OFIB_ENTRY);
    memcpy(second, dead, OFIB_ENTRY);
    one_read("ofib_read, a dead link", file.len, OFIB_CELLS, OFIB_DEAD_LINK, nothing, unused);
    memcpy(second, repeated, OFIB_ENTRY);
    one_read("ofib_read, a pair twice", file.len, OFIB_CELLS, OFIB_REPEATED, nothing, unused);
    memcpy(second, before, OFIB_ENTRY);
}

// The times of the file, two bytes each, high byte first.
#define TIMES_AT 44
#define STEPS_AT 50

// Other times in the file, and what it says of itself then. The step time may be 0.
static void test_file_times(const size_t wanted[8])
{
    static const uint8_t others[][4] = {{1, 2, 3, 4}, {255, 255, 255, 255}, {0, 1, 0, 0}};
    uint8_t before[4], *times = file.bytes + TIMES_AT;
    memcpy(before, times, 4);
    for (size_t k = 0; k < sizeof others / sizeof *others; k++) {
        size_t contents[8];
        const uint8_t *bytes = others[k];
        memcpy(contents, wanted, sizeof contents);
        contents[OFIB_HOLD_TIME] = 256u * bytes[0] + bytes[1];
        contents[OFIB_STEP_TIME] = 256u * bytes[2] + bytes[3];
        memcpy(times, bytes, 4);
        one_read("ofib_read, other times", file.len, OFIB_CELLS, OFIB_OK, contents, planned.old);
    }
    memcpy(times, before, 4);
}

static void test_read(void)
{
    static const size_t nothing[8], wanted[8] = {
        [OFIB_ROUTERS] = 3, [OFIB_LINKS] = 6,           [OFIB_CHANGES] = 2,      [OFIB_CHANGES_AT] = 34,
        [OFIB_STEPS] = 10,  [OFIB_STEPS_AT] = STEPS_AT, [OFIB_HOLD_TIME] = HOLD, [OFIB_STEP_TIME] = STEP,
    };
    static uint32_t unused[OFIB_CELLS];
    triangle(unused, no_link, OFIB_UNUSED);
    one_read("ofib_read", file.len, OFIB_CELLS, OFIB_OK, wanted, planned.old);
    one_read("ofib_read, an empty file", 0, OFIB_CELLS, OFIB_INCOMPLETE, nothing, unused);
    one_read("ofib_read, a byte less", file.len - 1, OFIB_CELLS, OFIB_INCOMPLETE, nothing, unused);
    one_read("ofib_read, a byte more", file.len + 1, OFIB_CELLS, OFIB_TRAILING, nothing, unused);
    one_read("ofib_read, a cell less", file.len, OFIB_CELLS - 1, OFIB_TABLE_SIZE, nothing, untouched.new_);
    one_read("ofib_read, no cell", file.len, 0, OFIB_TABLE_SIZE, nothing, untouched.new_);
    one_read("ofib_read, half a time", TIMES_AT + 3, OFIB_CELLS, OFIB_INCOMPLETE, nothing, unused);
    test_bad_link(nothing, unused);
    test_file_times(wanted);
}

#define ID(k) k, k, k, k, k, k, k
// Two routers. The third row is shadowed by the first, and router 1 has two identities.
static const uint8_t identities[] = {ID(1), 0, ID(2), 1, ID(1), 1, ID(3), 1};
#define ROWS sizeof identities

// One call of ofib_isis: its answer, and the table that it leaves.
static void one_isis(const char *what, size_t n, size_t rows_len, const uint8_t *lists, size_t lists_len,
                     uint8_t answer, const uint32_t nine[9])
{
    static uint32_t wanted[OFIB_CELLS];
    triangle(wanted, nine, OFIB_UNUSED);
    tables = untouched;
    number(what, ofib_isis(n, identities, rows_len, lists, lists_len, tables.new_, OFIB_CELLS), answer);
    cells(what, tables.new_, wanted, OFIB_CELLS);
}

// Each refusal of an entry, where those that are tested after it apply too if they can.
static void test_bad_entries(void)
{
    static const uint8_t past[] = {0, 11, ID(9), 0, 0, 0, 245, 0, 0}, unknown[] = {0, 11, ID(9), 0, 0, 0, 0, 0, 0},
                         own[] = {0, 11, ID(1), 0, 0, 0, 0, 0, 0}, zero[] = {0, 11, ID(3), 0, 0, 0, 0, 0, 0};
    static uint8_t longer[2 + 11 + 245 + 2] = {1, 0, ID(9), 0, 0, 0, 245};
    static const uint32_t five[9] = {NO, 5, NO, NO, NO, NO, NO, NO, NO};
    one_isis("ofib_isis, an entry past its list", 2, ROWS, past, sizeof past, OFIB_PAST_LIST, no_link);
    one_isis("ofib_isis, 245 bytes of sub-TLVs", 2, ROWS, longer, sizeof longer, OFIB_LONG_SUB_TLVS, no_link);
    one_isis("ofib_isis, an identity in no row", 2, ROWS, unknown, sizeof unknown, OFIB_UNKNOWN_IDENTITY, no_link);
    one_isis("ofib_isis, a list's own router", 2, ROWS, own, sizeof own, OFIB_SELF_LINK, no_link);
    one_isis("ofib_isis, metric 0", 2, ROWS, zero, sizeof zero, OFIB_BAD_METRIC, no_link);
    memcpy(longer, (const uint8_t[]){0, 255, ID(2), 0, 0, 5, 244}, 13);
    one_isis("ofib_isis, 244 bytes of sub-TLVs", 2, ROWS, longer, sizeof longer - 1, OFIB_OK, five);
}

static void test_isis(void)
{
    // From 0 to 1 at 5 and at 3, from 1 to 0 at 65,538, and a byte more.
    static const uint8_t lists[] = {0, 25, ID(2), 0, 0, 5, 0, ID(3), 0, 0, 3, 3, 9, 9, 9, 0, 11, ID(1), 1, 0, 2, 0, 9};
    static const uint32_t wanted[9] = {NO, 3, NO, 65538, NO, NO, NO, NO, NO};
    const size_t len = sizeof lists - 1;
    one_isis("ofib_isis", 2, ROWS, lists, len, OFIB_OK, wanted);
    one_isis("ofib_isis, no list", 2, ROWS, lists, 0, OFIB_INCOMPLETE, no_link);
    one_isis("ofib_isis, half a length", 2, ROWS, lists, 28, OFIB_INCOMPLETE, no_link);
    one_isis("ofib_isis, a byte less", 2, ROWS, lists, len - 1, OFIB_INCOMPLETE, no_link);
    one_isis("ofib_isis, a byte more", 2, ROWS, lists, len + 1, OFIB_TRAILING, no_link);
    one_isis("ofib_isis, a row cut short", 2, ROWS - 1, lists, len, OFIB_INCOMPLETE, no_link);
    tables = untouched;
    number("ofib_isis, a cell less", ofib_isis(0, identities, 1, lists, 0, tables.new_, OFIB_CELLS - 1),
           OFIB_TABLE_SIZE);
    same_tables("ofib_isis, a cell less", &untouched);
    one_isis("ofib_isis, n = 0", 0, 1, lists, len, OFIB_ROUTER_COUNT, no_link);
    one_isis("ofib_isis, a router too many", OFIB_WIDTH + 1, 1, lists, len, OFIB_ROUTER_COUNT, no_link);
    one_isis("ofib_isis, n = 1 and a row of router 1", 1, ROWS - 1, lists, len, OFIB_UNKNOWN_ROUTER, no_link);
    test_bad_entries();
}

// One call of ofib_paths, with the lengths of its four tables.
static void one_paths(const char *what, size_t n, const size_t lens[4], uint8_t answer, const ofib_tables *wanted)
{
    tables = untouched;
    number(what, ofib_paths(n, tables.old, lens[0], tables.old_dist, lens[1], tables.old_hops, lens[2],
                            tables.old_fours, lens[3]),
           answer);
    cells(what, tables.old, untouched.old, OFIB_CELLS);
    cells(what, tables.old_dist, wanted->old_dist, OFIB_CELLS);
    sets(what, tables.old_hops, wanted->old_hops, OFIB_CELLS);
    sets(what, tables.old_fours, wanted->old_fours, OFIB_CELLS);
}

static void test_paths(void)
{
    size_t lens[4] = {OFIB_CELLS, OFIB_CELLS, OFIB_CELLS, OFIB_CELLS};
    one_paths("ofib_paths", 3, lens, OFIB_OK, &planned);
    one_paths("ofib_paths, n = 0", 0, lens, OFIB_ROUTER_COUNT, &untouched);
    one_paths("ofib_paths, a router too many", OFIB_WIDTH + 1, lens, OFIB_ROUTER_COUNT, &untouched);
    for (size_t k = 0; k < 4; k++) {
        lens[k] = OFIB_CELLS - 1;
        one_paths("ofib_paths, a cell less", 3, lens, OFIB_TABLE_SIZE, &untouched);
        lens[k] = OFIB_CELLS;
    }
    untouched.old[1] = 0;
    one_paths("ofib_paths, metric 0", 3, lens, OFIB_BAD_METRIC, &untouched);
    untouched.old[1] = 1;
}

// The running sheet of the triangle: its answer, and the order of the routers and the tables that it leaves.
static void one_sheet(const char *what, const uint8_t *list, size_t list_len, uint8_t answer)
{
    uint8_t routers[OFIB_WIDTH];
    memset(routers, UNTOUCHED, sizeof routers);
    tables = untouched;
    number(what, ofib_tables_sheet(&tables, 3, HOLD, STEP, list, list_len, routers), answer);
    bytes(what, routers, answer == OFIB_OK ? in_order : no_order, OFIB_WIDTH);
    same_tables(what, answer == OFIB_OK ? &planned : &untouched);
}

// One plan of the triangle: its answer, and the record and the tables that it leaves. Then its running sheet.
static void one_plan(const char *what, const uint8_t *list, size_t list_len, uint8_t answer)
{
    ofib_record r = fresh;
    memset(&r, UNTOUCHED, sizeof r);
    tables = untouched;
    number(what, ofib_record_plan(&r, 3, HOLD, STEP, &tables, list, list_len), answer);
    records(what, &r, answer == OFIB_OK ? &fresh : &blank);
    same_tables(what, answer == OFIB_OK ? &planned : &untouched);
    one_sheet(what, list, list_len, answer);
}

// The lengths of the eight tables of one call, in their order.
#define TABLES 8

// All of them right but for that of table k, which is `len`.
static void lengths(size_t lens[TABLES], size_t k, size_t len)
{
    for (size_t other = 0; other < TABLES; other++)
        lens[other] = other == k ? len : OFIB_CELLS;
}

// The same with another length for each of the tables.
static void test_sheet_sizes(void)
{
    size_t lens[TABLES];
    const char *what = "ofib_sheet, a cell less";
    for (size_t k = 0; k < TABLES; k++) {
        uint8_t routers[OFIB_WIDTH] = {2, 1};
        tables = untouched;
        lengths(lens, k, OFIB_CELLS - 1);
        number(what, ofib_sheet(3, HOLD, STEP, tables.old, lens[0], change, sizeof change, tables.new_, lens[1],
                                tables.old_dist, lens[2], tables.old_hops, lens[3], tables.old_fours, lens[4],
                                tables.new_dist, lens[5], tables.new_hops, lens[6], tables.new_fours, lens[7],
                                routers),
               OFIB_TABLE_SIZE);
        bytes(what, routers, no_order, OFIB_WIDTH);
        same_tables(what, &untouched);
    }
}

static void test_plan_sizes(void)
{
    size_t lens[TABLES];
    const char *what = "ofib_plan, a cell less";
    for (size_t k = 0; k < TABLES; k++) {
        ofib_record r = fresh;
        tables = untouched;
        lengths(lens, k, OFIB_CELLS - 1);
        number(what, ofib_plan(3, HOLD, STEP, tables.old, lens[0], change, sizeof change, tables.new_, lens[1],
                               tables.old_dist, lens[2], tables.old_hops, lens[3], tables.old_fours, lens[4],
                               tables.new_dist, lens[5], tables.new_hops, lens[6], tables.new_fours, lens[7], &r.n,
                               &r.root, &r.direction, r.ranks, r.waiting, r.telling, r.due, r.states, r.written,
                               &r.hold_time, &r.step_time, &r.clock, r.learn_times),
               OFIB_TABLE_SIZE);
        records(what, &r, &blank);
        same_tables(what, &untouched);
    }
}

// C2: the change of C1 the other way round, a fall.
static void test_fall(void)
{
    static const uint8_t list[] = {1, 2, 0, 0, 1, 2, 1, 0, 0, 1};
    static const ofib_record wanted = {
        .n = 3,
        .root = 1,
        .direction = OFIB_FALL,
        .ranks = {1, 0, 1},
        .waiting = {2, 0, 2},
        .telling = {0, 5, 0},
        .due = {4, 4, 3},
        .hold_time = HOLD,
        .step_time = STEP,
    };
    static const uint8_t order[OFIB_WIDTH] = {1, 0, 2};
    ofib_record r = blank;
    uint8_t routers[OFIB_WIDTH] = {0};
    tables = untouched;
    memcpy(tables.old, planned.new_, sizeof tables.old);
    number("ofib_sheet, C2", ofib_tables_sheet(&tables, 3, HOLD, STEP, list, sizeof list, routers), OFIB_OK);
    bytes("ofib_sheet, C2", routers, order, OFIB_WIDTH);
    number("ofib_plan, C2", ofib_record_plan(&r, 3, HOLD, STEP, &tables, list, sizeof list), OFIB_OK);
    records("ofib_plan, C2", &r, &wanted);
    cells("ofib_plan, C2, new metrics", tables.new_, planned.old, OFIB_CELLS);
    cells("ofib_plan, C2, old distances", tables.old_dist, planned.new_dist, OFIB_CELLS);
    cells("ofib_plan, C2, new distances", tables.new_dist, planned.old_dist, OFIB_CELLS);
    sets("ofib_plan, C2, old next hops", tables.old_hops, planned.new_hops, OFIB_CELLS);
    sets("ofib_plan, C2, new next hops", tables.new_hops, planned.old_hops, OFIB_CELLS);
    sets("ofib_plan, C2, old sets of four", tables.old_fours, planned.new_fours, OFIB_CELLS);
    sets("ofib_plan, C2, new sets of four", tables.new_fours, planned.old_fours, OFIB_CELLS);
}

// The link of 1 and 2 goes down at one end only. All is as where both directions go down, but for the new metrics.
static void test_one_end(void)
{
    const size_t reverse = OFIB_WIDTH * 2 + 1;
    planned.new_[reverse] = planned.old[reverse];
    one_plan("ofib_plan, 1 to 2 alone", change, OFIB_ENTRY, OFIB_OK);
    planned.new_[reverse] = OFIB_UNUSED;
}

// Plan and sheet of C1 with these times.
static void one_pair(const char *what, size_t n, uint16_t hold_time, uint16_t step_time, uint8_t answer)
{
    ofib_record r, wanted = answer == OFIB_OK ? fresh : blank;
    uint8_t routers[OFIB_WIDTH];
    memset(&r, UNTOUCHED, sizeof r);
    memset(routers, UNTOUCHED, sizeof routers);
    if (answer == OFIB_OK) {
        wanted.hold_time = hold_time;
        wanted.step_time = step_time;
    }
    tables = untouched;
    number(what, ofib_record_plan(&r, n, hold_time, step_time, &tables, change, sizeof change), answer);
    records(what, &r, &wanted);
    same_tables(what, answer == OFIB_OK ? &planned : &untouched);
    tables = untouched;
    number(what, ofib_tables_sheet(&tables, n, hold_time, step_time, change, sizeof change, routers), answer);
    bytes(what, routers, answer == OFIB_OK ? in_order : no_order, OFIB_WIDTH);
    same_tables(what, answer == OFIB_OK ? &planned : &untouched);
}

// That there is no step time is seen after a wrong n, and before a wrong size.
static void test_times(void)
{
    ofib_record r = fresh;
    one_pair("ofib_plan, the longest times", 3, 65535, 65535, OFIB_OK);
    one_pair("ofib_plan, the shortest times", 3, 0, 1, OFIB_OK);
    one_pair("ofib_plan, no step time", 3, 65535, 0, OFIB_NO_STEP_TIME);
    one_pair("ofib_plan, no step time and no router", 0, 65535, 0, OFIB_ROUTER_COUNT);
    tables = untouched;
    number("ofib_plan, no step time and no cell",
           ofib_plan(3, 0, 0, tables.old, 0, change, sizeof change, tables.new_, 0, tables.old_dist, 0,
                     tables.old_hops, 0, tables.old_fours, 0, tables.new_dist, 0, tables.new_hops, 0,
                     tables.new_fours, 0, &r.n, &r.root, &r.direction, r.ranks, r.waiting, r.telling, r.due, r.states,
                     r.written, &r.hold_time, &r.step_time, &r.clock, r.learn_times),
           OFIB_NO_STEP_TIME);
    records("ofib_plan, no step time and no cell", &r, &blank);
}

static void test_plan(void)
{
    static const uint8_t unknown[] = {1, 3, 0, 0, 9}, self[] = {1, 1, 0, 0, 9}, zero[] = {1, 2, 0, 0, 0},
                         same[] = {1, 2, 0, 0, 1}, same_then_unknown[] = {1, 2, 0, 0, 1, 1, 3, 0, 0, 9},
                         repeated[] = {1, 2, 0, 0, 9, 1, 2, 0, 0, 9},
                         mixed[] = {1, 2, 0, 0, 9, 0, 2, 0, 0, 1},
                         apart[] = {0, 1, 0, 0, 9, 1, 2, 0, 0, 9, 2, 0, 0, 0, 9};
    static const uint8_t many[OFIB_ENTRY * (OFIB_MOST_CHANGES + 1)];
    static const uint8_t other_order[] = {2, 1, 255, 255, 255, 1, 2, 255, 255, 255};
    one_plan("ofib_plan, C1", change, sizeof change, OFIB_OK);
    one_plan("ofib_plan, C4", other_order, sizeof other_order, OFIB_OK);
    one_plan("ofib_plan, nine bytes", change, sizeof change - 1, OFIB_INCOMPLETE);
    one_plan("ofib_plan, a change too many", many, sizeof many, OFIB_TOO_MANY);
    one_plan("ofib_plan, no change", change, 0, OFIB_NO_CHANGE);
    one_plan("ofib_plan, router 3", unknown, sizeof unknown, OFIB_UNKNOWN_ROUTER);
    one_plan("ofib_plan, from 1 to 1", self, sizeof self, OFIB_SELF_LINK);
    one_plan("ofib_plan, metric 0", zero, sizeof zero, OFIB_BAD_METRIC);
    one_plan("ofib_plan, the same metric", same, sizeof same, OFIB_SAME_METRIC);
    one_plan("ofib_plan, the same metric, router 3", same_then_unknown, sizeof same_then_unknown, OFIB_UNKNOWN_ROUTER);
    one_plan("ofib_plan, a pair twice", repeated, sizeof repeated, OFIB_REPEATED);
    one_plan("ofib_plan, up and down", mixed, sizeof mixed, OFIB_MIXED);
    one_plan("ofib_plan, three links", apart, sizeof apart, OFIB_NO_COMMON_ROUTER);
    test_plan_sizes();
    test_sheet_sizes();
    test_one_end();
    test_fall();
    test_times();
}

// The steps of the file one by one, and after each of them all of them so far at once.
static void test_steps(void)
{
    static const uint8_t answers[] = {0, 0, OFIB_STILL_WAITING, 0, 0, 0, 0, 0, OFIB_IGNORED, OFIB_STILL_WAITING};
    static const ofib_record last = {
        .n = 3,
        .root = 1,
        .direction = OFIB_RISE,
        .ranks = {0, 1, 0},
        .waiting = {0, 4, 0},
        .telling = {2, 0, 2},
        .due = {4, 4, 3},
        .states = {OFIB_DONE, OFIB_ONGOING, OFIB_IDLE},
        .written = {4, 0, 0},
        .hold_time = HOLD,
        .step_time = STEP,
    };
    // Those of the 15 steps that are needed which are still missing, after each step.
    static const uint8_t missing[] = {14, 13, 13, 12, 11, 10, 9, 8, 8, 8};
    const uint8_t *steps = file.bytes + STEPS_AT;
    ofib_record r = fresh;
    for (size_t k = 0; k < sizeof answers; k++) {
        const uint8_t *step = steps + OFIB_STEP * k;
        ofib_record before = r, at_once = fresh, and_a_part = fresh;
        number("ofib_step", ofib_record_step(&r, step[0], step[1], step[2]), answers[k]);
        number("ofib_missing", ofib_record_missing(&r), missing[k]);
        if (answers[k] != OFIB_OK)
            records("ofib_step, refused or ignored", &r, &before);
        ofib_record_run(&at_once, steps, OFIB_STEP * (k + 1));
        records("ofib_run", &at_once, &r);
        ofib_record_run(&and_a_part, steps, OFIB_STEP * k + 2);
        records("ofib_run, two bytes more", &and_a_part, &before);
    }
    records("ofib_step, the last record", &r, &last);
}

// A step that is refused, and leaves the record as it was.
static void one_refused(ofib_record r, uint8_t kind, uint8_t a, uint8_t b, uint8_t answer)
{
    char what[80];
    ofib_record after = r;
    snprintf(what, sizeof what, "ofib_step, kind %d of %d and %d", kind, a, b);
    number(what, ofib_record_step(&after, kind, a, b), answer);
    records(what, &after, &r);
    ofib_record_run(&after, (const uint8_t[]){kind, a, b}, OFIB_STEP);
    records(what, &after, &r);
}

static void test_refused_steps(void)
{
    ofib_record r = fresh;
    one_refused(blank, OFIB_LEARN, 0, 0, OFIB_BAD_RECORD);
    r.states[OFIB_WIDTH - 1] = OFIB_DONE + 1;
    one_refused(r, OFIB_LEARN, 0, 0, OFIB_BAD_RECORD);
    r.states[OFIB_WIDTH - 1] = OFIB_IDLE;
    one_refused(r, 0, 0, 0, OFIB_UNKNOWN_KIND);
    one_refused(r, OFIB_TICK + 1, 0, 0, OFIB_UNKNOWN_KIND);
    one_refused(r, OFIB_LEARN, 3, 0, OFIB_UNKNOWN_ROUTER);
    one_refused(r, OFIB_WRITE, 0, 3, OFIB_UNKNOWN_ROUTER);
    one_refused(r, OFIB_RELEASE, 0, 0, OFIB_WRONG_STATE);
    one_refused(r, OFIB_DELIVER, 0, 1, OFIB_NOT_DONE);
    r.states[0] = OFIB_ONGOING;
    r.states[1] = OFIB_ONGOING;
    one_refused(r, OFIB_FINISH, 1, 0, OFIB_STILL_WAITING);
    one_refused(r, OFIB_WRITE, 0, 1, OFIB_NOT_DUE);
    one_refused(r, OFIB_FINISH, 0, 0, OFIB_UNWRITTEN);
    r.states[0] = OFIB_DONE;
    one_refused(r, OFIB_DELIVER, 0, 2, OFIB_NOT_TOLD);
}

// A step that is answered with OFIB_OK, by itself and as a list.
static void one_ok(ofib_record *r, uint8_t kind, uint8_t a, uint8_t b)
{
    char what[80];
    ofib_record at_once = *r;
    snprintf(what, sizeof what, "ofib_step, kind %d of %d and %d at %lu", kind, a, b, (unsigned long)r->clock);
    number(what, ofib_record_step(r, kind, a, b), OFIB_OK);
    ofib_record_run(&at_once, (const uint8_t[]){kind, a, b}, OFIB_STEP);
    records(what, &at_once, r);
}

// C1 with a hold time of 2 and a step time of 3. Router 1 learns at 1, so it is held until 3, and its due time is 6.
// It waits for routers 0 and 2, of which router 0 learns at 1 too, and gets done before that.
static void test_timers(void)
{
    ofib_record r = fresh;
    r.hold_time = 2;
    r.step_time = 3;
    one_ok(&r, OFIB_TICK, 255, 255);
    one_ok(&r, OFIB_LEARN, 0, 0);
    one_ok(&r, OFIB_LEARN, 1, 0);
    one_ok(&r, OFIB_TICK, 0, 0);
    number("ofib_step, the clock", r.clock, 2);
    number("ofib_step, the learn time", r.learn_times[1], 1);
    one_refused(r, OFIB_RELEASE, 2, 0, OFIB_WRONG_STATE);
    one_refused(r, OFIB_RELEASE, 1, 0, OFIB_TOO_EARLY);
    one_ok(&r, OFIB_TICK, 3, 64);
    one_ok(&r, OFIB_RELEASE, 1, 0);
    one_ok(&r, OFIB_RELEASE, 0, 0);
    one_ok(&r, OFIB_WRITE, 0, 2);
    one_ok(&r, OFIB_FINISH, 0, 0);
    one_ok(&r, OFIB_TICK, 0, 0);
    one_ok(&r, OFIB_TICK, 0, 0);
    one_refused(r, OFIB_WRITE, 1, 2, OFIB_STILL_WAITING);
    one_ok(&r, OFIB_TICK, 0, 0);
    one_refused(r, OFIB_FINISH, 1, 0, OFIB_UNWRITTEN);
    one_ok(&r, OFIB_WRITE, 1, 2);
    number("ofib_step, waiting after a write by the timer", r.waiting[1], 5);
    one_ok(&r, OFIB_DELIVER, 0, 1);
    one_ok(&r, OFIB_FINISH, 1, 0);
    number("ofib_step, waiting after a finish by the timer", r.waiting[1], 4);
    // 9 of the 15 steps, the six ticks not counted.
    number("ofib_missing, ticks", ofib_record_missing(&r), 6);
}

// The last tick, and sums that are above 32 bits.
static void test_clock_end(void)
{
    ofib_record r = fresh;
    r.clock = OFIB_LAST_TIME - 1;
    one_ok(&r, OFIB_TICK, 255, 255);
    number("ofib_step, the end of the clock", r.clock, OFIB_LAST_TIME);
    one_refused(r, OFIB_TICK, 0, 0, OFIB_CLOCK_END);
    one_ok(&r, OFIB_LEARN, 1, 0);
    r.hold_time = 1;
    one_refused(r, OFIB_RELEASE, 1, 0, OFIB_TOO_EARLY);
    r.hold_time = 0;
    one_ok(&r, OFIB_RELEASE, 1, 0);
    r.ranks[1] = 255;
    r.step_time = 65535;
    one_refused(r, OFIB_WRITE, 1, 2, OFIB_STILL_WAITING);
    r.ranks[1] = 0;
    one_ok(&r, OFIB_WRITE, 1, 2);
}

// What fresh records need, and records that no plan gives.
static void test_counts(void)
{
    ofib_record r = fresh;
    number("ofib_needs, C1", ofib_record_needs(&r), 15);
    number("ofib_missing, C1", ofib_record_missing(&r), 15);
    number("ofib_needs, no router", ofib_record_needs(&blank), 0);
    number("ofib_missing, no router", ofib_record_missing(&blank), 0);
    // All done, and all written, also what is not due; routers from n on are not looked at.
    memset(r.states, OFIB_DONE, sizeof r.states);
    memset(r.written, 255, sizeof r.written);
    memset(r.waiting, 0, sizeof r.waiting);
    memset(r.due + 3, 255, sizeof r.due - 3 * sizeof *r.due);
    number("ofib_missing, all done", ofib_record_missing(&r), 0);
    number("ofib_needs, no waiting", ofib_record_needs(&r), 13);
    r.states[2] = 255;
    number("ofib_missing, a state above OFIB_DONE", ofib_record_missing(&r), 0);
    // Every set is full, and there are more routers than entries.
    memset(&r, 255, sizeof r);
    number("ofib_needs, 255 routers", ofib_record_needs(&r), 3 * 255 + 2 * OFIB_CELLS);
    number("ofib_missing, 255 routers", ofib_record_missing(&r), 3 * (255 - OFIB_WIDTH) + OFIB_CELLS);
}

#define BIT(k) ((ofib_set)1 << (k))

// C1 with the routers 61, 62 and 63 of an area of 64, whose other routers have no link: the highest bits of sets.
static const uint8_t last_change[] = {62, 63, 255, 255, 255, 63, 62, 255, 255, 255};
static const ofib_record last_fresh = {
    .n = 64,
    .root = 62,
    .direction = OFIB_RISE,
    .ranks = {[62] = 1},
    .waiting = {[62] = BIT(61) | BIT(63)},
    .telling = {[61] = BIT(62), [63] = BIT(62)},
    .due = {[61] = BIT(63), [62] = BIT(63), [63] = BIT(61) | BIT(62)},
    .hold_time = HOLD,
    .step_time = STEP,
};

static void test_last_plan(void)
{
    const char *what = "plan of routers 61 to 63";
    ofib_record r = blank;
    tables = untouched;
    square(tables.old, 61, 3, old_metrics, OFIB_UNUSED);
    number(what, ofib_record_plan(&r, 64, HOLD, STEP, &tables, last_change, sizeof last_change), OFIB_OK);
    records(what, &r, &last_fresh);
    number("ofib_needs, routers 61 to 63", ofib_record_needs(&r), 3 * 64 + 4 + 2);
    for (size_t k = 0; k < 9; k++) {
        number(what, tables.old_hops[cell_of(61, 3, k)], old_next_hops[k] << 61);
        number(what, tables.old_fours[cell_of(61, 3, k)], old_next_hops[k] << 61);
        number(what, tables.new_hops[cell_of(61, 3, k)], new_next_hops[k] << 61);
        number(what, tables.new_fours[cell_of(61, 3, k)], new_next_hops[k] << 61);
    }
}

// Those that wait for none come in the order of their numbers, and then router 62.
static void test_last_sheet(void)
{
    const char *what = "sheet of routers 61 to 63";
    uint8_t routers[OFIB_WIDTH] = {0};
    tables = untouched;
    square(tables.old, 61, 3, old_metrics, OFIB_UNUSED);
    number(what, ofib_tables_sheet(&tables, 64, HOLD, STEP, last_change, sizeof last_change, routers), OFIB_OK);
    for (size_t k = 0; k < 62; k++)
        number(what, routers[k], k);
    number(what, routers[62], 63);
    number(what, routers[63], 62);
}

// Router 63 gets done and tells router 62, which then waits for router 61 alone.
static void test_last_steps(void)
{
    static const uint8_t steps[][OFIB_STEP] = {
        {OFIB_LEARN, 62, 0},  {OFIB_LEARN, 63, 0},  {OFIB_RELEASE, 63, 0},  {OFIB_WRITE, 63, 61},
        {OFIB_WRITE, 63, 62}, {OFIB_FINISH, 63, 0}, {OFIB_DELIVER, 63, 62},
    };
    const char *what = "steps of router 63";
    ofib_record r = last_fresh;
    for (size_t k = 0; k < sizeof steps / sizeof *steps; k++)
        number(what, ofib_record_step(&r, steps[k][0], steps[k][1], steps[k][2]), OFIB_OK);
    number(what, r.written[63], BIT(61) | BIT(62));
    number(what, r.waiting[62], BIT(61));
    number("ofib_missing, routers 61 to 63", ofib_record_missing(&r), 3 * 64 + 4 + 2 - 7);
    one_refused(r, OFIB_LEARN, 64, 0, OFIB_UNKNOWN_ROUTER);
    one_refused(r, OFIB_WRITE, 63, 64, OFIB_UNKNOWN_ROUTER);
}

// Seven routers: 1 to 5 have a link at 1 to router 0 and one to router 6, and there are no others. So 0 and 6 have the
// five next hops 1 to 5 to each other, as a set 62; of these the set of four has 1 to 4, as a set 30. Any two of 1 to 5
// have the next hops 0 and 6 to each other, as a set 65.
//
// The link of 0 and 5 goes down: a rise, with the root 0, the lower of its ends. Router 5 is left with the next hop 6
// (64) to all, and 1 to 4 with the next hop 6 to it; 0 gets to 5 by 1 to 4 (30). From 0 to 6 and from 6 to 0, the full
// set loses 5 and becomes 30, and the set of four stays.
#define SEVEN 7
static const uint32_t seven_metrics[2][SEVEN * SEVEN] = {{
    NO, 1, 1, 1, 1, 1, NO,
    1, NO, NO, NO, NO, NO, 1,
    1, NO, NO, NO, NO, NO, 1,
    1, NO, NO, NO, NO, NO, 1,
    1, NO, NO, NO, NO, NO, 1,
    1, NO, NO, NO, NO, NO, 1,
    NO, 1, 1, 1, 1, 1, NO,
}, {
    NO, 1, 1, 1, 1, NO, NO,
    1, NO, NO, NO, NO, NO, 1,
    1, NO, NO, NO, NO, NO, 1,
    1, NO, NO, NO, NO, NO, 1,
    1, NO, NO, NO, NO, NO, 1,
    NO, NO, NO, NO, NO, NO, 1,
    NO, 1, 1, 1, 1, 1, NO,
}};
static const uint32_t seven_distances[2][SEVEN * SEVEN] = {{
    0, 1, 1, 1, 1, 1, 2,
    1, 0, 2, 2, 2, 2, 1,
    1, 2, 0, 2, 2, 2, 1,
    1, 2, 2, 0, 2, 2, 1,
    1, 2, 2, 2, 0, 2, 1,
    1, 2, 2, 2, 2, 0, 1,
    2, 1, 1, 1, 1, 1, 0,
}, {
    0, 1, 1, 1, 1, 3, 2,
    1, 0, 2, 2, 2, 2, 1,
    1, 2, 0, 2, 2, 2, 1,
    1, 2, 2, 0, 2, 2, 1,
    1, 2, 2, 2, 0, 2, 1,
    3, 2, 2, 2, 2, 0, 1,
    2, 1, 1, 1, 1, 1, 0,
}};
static const ofib_set seven_full_sets[2][SEVEN * SEVEN] = {{
    0, 2, 4, 8, 16, 32, 62,
    1, 0, 65, 65, 65, 65, 64,
    1, 65, 0, 65, 65, 65, 64,
    1, 65, 65, 0, 65, 65, 64,
    1, 65, 65, 65, 0, 65, 64,
    1, 65, 65, 65, 65, 0, 64,
    62, 2, 4, 8, 16, 32, 0,
}, {
    0, 2, 4, 8, 16, 30, 30,
    1, 0, 65, 65, 65, 64, 64,
    1, 65, 0, 65, 65, 64, 64,
    1, 65, 65, 0, 65, 64, 64,
    1, 65, 65, 65, 0, 64, 64,
    64, 64, 64, 64, 64, 0, 64,
    30, 2, 4, 8, 16, 32, 0,
}};

static const uint8_t seven_change[] = {0, 5, 255, 255, 255, 5, 0, 255, 255, 255};

// Due are the destinations with another set of four: 5 at routers 0 to 4 (32), 0 to 4 at router 5 (31), and nothing at
// router 6. The full set of 6 to the root has all of 1 to 5, so that all of them wait for 6 (64), also 5, which is not
// in the set of four. The root waits for 1 to 5 (62), which have it as their next hop.
static const ofib_record seven_fresh = {
    .n = SEVEN,
    .root = 0,
    .direction = OFIB_RISE,
    .ranks = {2, 1, 1, 1, 1, 1, 0},
    .waiting = {62, 64, 64, 64, 64, 64, 0},
    .telling = {0, 1, 1, 1, 1, 1, 62},
    .due = {32, 32, 32, 32, 32, 31, 0},
    .hold_time = HOLD,
    .step_time = STEP,
};
// Router 6 comes first, for it waits for none. Then each of 1 to 5 could come next, and in the end the root.
static const uint8_t seven_in_order[OFIB_WIDTH] = {6, 1, 2, 3, 4, 5, 0};

static ofib_tables seven;

static void fill_seven(void)
{
    square(seven.old, 0, SEVEN, seven_metrics[0], OFIB_UNUSED);
    square(seven.new_, 0, SEVEN, seven_metrics[1], OFIB_UNUSED);
    square(seven.old_dist, 0, SEVEN, seven_distances[0], OFIB_UNREACHED);
    square(seven.new_dist, 0, SEVEN, seven_distances[1], OFIB_UNREACHED);
    square_of_sets(seven.old_hops, SEVEN, seven_full_sets[0]);
    square_of_sets(seven.old_fours, SEVEN, seven_full_sets[0]);
    square_of_sets(seven.new_hops, SEVEN, seven_full_sets[1]);
    square_of_sets(seven.new_fours, SEVEN, seven_full_sets[1]);
    // From 0 to 6 and from 6 to 0 before the change: the two full sets that have more than four members.
    seven.old_fours[6] = 30;
    seven.old_fours[OFIB_WIDTH * 6] = 30;
}

static void test_seven_plan(void)
{
    const char *what = "plan with five next hops";
    ofib_record r = blank;
    uint8_t routers[OFIB_WIDTH] = {0};
    tables = untouched;
    memcpy(tables.old, seven.old, sizeof tables.old);
    number(what, ofib_record_plan(&r, SEVEN, HOLD, STEP, &tables, seven_change, sizeof seven_change), OFIB_OK);
    records(what, &r, &seven_fresh);
    same_tables(what, &seven);
    // Three of each router, ten messages and ten writes.
    number("ofib_needs, five next hops", ofib_record_needs(&r), 3 * SEVEN + 10 + 10);
    tables = untouched;
    memcpy(tables.old, seven.old, sizeof tables.old);
    what = "sheet with five next hops";
    number(what, ofib_tables_sheet(&tables, SEVEN, HOLD, STEP, seven_change, sizeof seven_change, routers), OFIB_OK);
    bytes(what, routers, seven_in_order, OFIB_WIDTH);
    same_tables(what, &seven);
}

// Router 6 may not write what is not due, and yet router 5 waits until 6 has finished and told it.
static void test_seven_steps(void)
{
    const char *what = "steps with five next hops";
    ofib_record r = seven_fresh;
    r.states[5] = OFIB_ONGOING;
    r.states[6] = OFIB_ONGOING;
    one_refused(r, OFIB_WRITE, 6, 0, OFIB_NOT_DUE);
    one_refused(r, OFIB_WRITE, 5, 0, OFIB_STILL_WAITING);
    number(what, ofib_record_step(&r, OFIB_FINISH, 6, 0), OFIB_OK);
    one_refused(r, OFIB_WRITE, 5, 0, OFIB_STILL_WAITING);
    number(what, ofib_record_step(&r, OFIB_DELIVER, 6, 5), OFIB_OK);
    number(what, ofib_record_step(&r, OFIB_WRITE, 5, 0), OFIB_OK);
    number(what, r.written[5], 1);
}

// A text, in a buffer of each length up to one byte more than it has. The bytes beyond the length are not touched.
static void one_text(const char *what, size_t (*call)(ofib_tables *, const uint8_t *, size_t, uint8_t *, size_t),
                     size_t file_len, const uint8_t *wanted, size_t wanted_len)
{
    static uint8_t out[MOST + 1], beyond[MOST + 1];
    memset(beyond, 170, sizeof beyond);
    for (size_t room = 0; room <= wanted_len + 1; room++) {
        size_t most = room < wanted_len ? room : wanted_len;
        memset(out, 170, sizeof out);
        tables = untouched;
        number(what, call(&tables, file.bytes, file_len, out, room), most);
        bytes(what, out, wanted, most);
        bytes(what, out + room, beyond, sizeof out - room);
    }
}

// One of the two functions that give texts.
typedef size_t text_call(const uint8_t *, size_t, uint32_t *, size_t, uint32_t *, size_t, uint32_t *, size_t,
                         ofib_set *, size_t, ofib_set *, size_t, uint32_t *, size_t, ofib_set *, size_t, ofib_set *,
                         size_t, uint8_t *, size_t);

// Its text where each of the eight tables is too short. Read fills the old metrics, unless they are the short ones.
static void test_text_sizes(const char *what, text_call *call)
{
    static const char refused[] = "refused 8\n";
    static ofib_tables wanted;
    size_t lens[TABLES];
    for (size_t k = 0; k < TABLES; k++) {
        uint8_t out[sizeof refused] = {0};
        wanted = untouched;
        tables = untouched;
        memset(wanted.old, UNTOUCHED, sizeof wanted.old);
        memset(tables.old, UNTOUCHED, sizeof tables.old);
        if (k > 0)
            triangle(wanted.old, old_metrics, OFIB_UNUSED);
        lengths(lens, k, OFIB_CELLS - 1);
        number(what, call(file.bytes, file.len, tables.old, lens[0], tables.new_, lens[1], tables.old_dist, lens[2],
                          tables.old_hops, lens[3], tables.old_fours, lens[4], tables.new_dist, lens[5],
                          tables.new_hops, lens[6], tables.new_fours, lens[7], out, sizeof out),
               10);
        bytes(what, out, (const uint8_t *)refused, 10);
        same_tables(what, &wanted);
    }
}

static void test_texts(void)
{
    static const char too_early[] = "refused 1\n", a_table[] = "refused 8\n", heading[] = "full next-hop sets\n",
                      no_step_time[] = "refused 36\n";
    static uint32_t longer[OFIB_CELLS + 1];
    uint8_t out[sizeof a_table];
    one_text("ofib_rehearse", ofib_tables_rehearse, file.len, rehearsal.bytes, rehearsal.len);
    number("ofib_rehearse, the line between routers and steps",
           strstr((const char *)rehearsal.bytes, " due 3\nneeds 15\nstep 1 ok\n") != NULL, 1);
    one_text("ofib_routes", ofib_tables_routes, file.len, routes.bytes, routes.len);
    bytes("ofib_routes, the first line", routes.bytes, (const uint8_t *)heading, sizeof heading - 1);
    one_text("ofib_rehearse, an empty file", ofib_tables_rehearse, 0, (const uint8_t *)too_early, 10);
    one_text("ofib_routes, an empty file", ofib_tables_routes, 0, (const uint8_t *)too_early, 10);
    file.bytes[TIMES_AT + 3] = 0;
    one_text("ofib_rehearse, no step time", ofib_tables_rehearse, file.len, (const uint8_t *)no_step_time, 11);
    file.bytes[TIMES_AT + 3] = STEP;
    test_text_sizes("ofib_rehearse, a cell less", ofib_rehearse);
    test_text_sizes("ofib_routes, a cell less", ofib_routes);
    memset(out, 0, sizeof out);
    number("ofib_routes, a cell more",
           ofib_routes(file.bytes, file.len, longer, OFIB_CELLS + 1, tables.new_, OFIB_CELLS, tables.old_dist,
                       OFIB_CELLS, tables.old_hops, OFIB_CELLS, tables.old_fours, OFIB_CELLS, tables.new_dist,
                       OFIB_CELLS, tables.new_hops, OFIB_CELLS, tables.new_fours, OFIB_CELLS, out, sizeof out),
           10);
    bytes("ofib_routes, a cell more", out, (const uint8_t *)a_table, 10);
}

int main(int argc, char **argv)
{
    if (argc != 4) {
        fprintf(stderr, "usage: ofib_test FILE REHEARSAL ROUTES\n");
        return 2;
    }
    load(argv[1], &file);
    load(argv[2], &rehearsal);
    load(argv[3], &routes);
    fill_tables();
    fill_seven();
    test_read();
    test_isis();
    test_paths();
    test_plan();
    test_steps();
    test_refused_steps();
    test_timers();
    test_clock_end();
    test_counts();
    test_last_plan();
    test_last_sheet();
    test_last_steps();
    test_seven_plan();
    test_seven_steps();
    test_texts();
    number("OFIB_WIDTH", OFIB_WIDTH, 64);
    number("OFIB_LARGEST", OFIB_LARGEST, 33088);
    return failures != 0;
}
