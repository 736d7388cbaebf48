// The ordered FIB bench for C and C++: the eleven functions of the proved static library, x86-64 Linux.
//
//     tools/build exports                                      # makes target/staticlib/libexports.a
//     cc -I bindings program.c target/staticlib/libexports.a   # it needs memcpy and memset, and nothing else
//
// The words are those of README.md. What each function gives is an equation with a definition, on every input: the
// `ensures` of crates/exports/src/lib.rt. No function asks anything of the numbers that it is handed: a wrong size, a
// wrong number or any bytes at all are answered, by a refusal where need be. But the library cannot see whether a
// pointer is good. This is for the caller to see to:
//
// - A pointer is not null, and is aligned as its type is.
// - A slice is two places, a pointer and its length, which counts elements and not bytes; at least so many elements are
//   there. With the length 0 nothing is read or written there, whatever the pointer points to.
// - An array, a place with brackets, has at least as many elements as they say.
// - What is lent holds values before the call, also where the function only writes (`= {0}`, `static` or calloc).
// - What two places of one call point to does not overlap, unless both are `const`. The proof takes a place that may
//   be written for an exclusive one, so nothing is promised where, say, two tables share a cell.
// - Nothing else writes the places until the function returns. It keeps no pointer, and the library has no variables
//   of its own.
//
// .ci/bindings compares the declarations, and most of the numbers, with the library's; tests/c/ofib_test.c calls every
// function.
#ifndef OFIB_H
#define OFIB_H

#include <stddef.h>
#include <stdint.h>

// The two rules on overlapping and on arrays, as compilers of C know them, which may warn. C++ has no words for them.
#ifdef __cplusplus
#define OFIB_ALONE
#define OFIB_WHOLE
extern "C" {
#else
#define OFIB_ALONE restrict
#define OFIB_WHOLE restrict static
#endif

// ---- Sizes and numbers.

// Routers of an area, and so entries of a table per router and members of a set.
#define OFIB_WIDTH 64
// A set of routers: bit k stands for router k, so it has OFIB_WIDTH bits.
typedef uint64_t ofib_set;
// Cells of a table; that of (i, j) is at OFIB_WIDTH * i + j.
#define OFIB_CELLS (OFIB_WIDTH * OFIB_WIDTH)
// The metric of a link that is not used. Used ones have 1 to 16,777,214 in both directions.
#define OFIB_UNUSED 16777215u
// The distance where there is no walk.
#define OFIB_UNREACHED 4294967295u
// The last time that the clock of a record can show.
#define OFIB_LAST_TIME 4294967295u
// Bytes of a link or a change: from, to, and the metric in three bytes, the high one first.
#define OFIB_ENTRY 5
// Changes of a list, at most.
#define OFIB_MOST_CHANGES (2 * (OFIB_WIDTH - 1))
// Bytes of a step: kind, a, b.
#define OFIB_STEP 3
// Steps of a bench file, at most.
#define OFIB_MOST_STEPS 4096
// Bytes of a bench file, at most: 33,088. A program that reads one lends one byte more, to see that it is too long.
#define OFIB_LARGEST \
    (10 + OFIB_ENTRY * OFIB_WIDTH * (OFIB_WIDTH - 1) + OFIB_ENTRY * OFIB_MOST_CHANGES + OFIB_STEP * OFIB_MOST_STEPS)
// As many bytes have room for the rehearsal of any file, and for its routes.
#define OFIB_REHEARSAL_ROOM (133 * OFIB_WIDTH + 27 + 55 * OFIB_MOST_STEPS + 4)
#define OFIB_ROUTES_ROOM (19 + 148 * OFIB_CELLS)

// The places of the eight numbers that ofib_read gives.
enum {
    OFIB_ROUTERS = 0,    // n
    OFIB_LINKS = 1,      // the number of links
    OFIB_CHANGES = 2,    // the number of changes, OFIB_ENTRY bytes each,
    OFIB_CHANGES_AT = 3, // and where in the file they begin
    OFIB_STEPS = 4,      // the number of steps, OFIB_STEP bytes each,
    OFIB_STEPS_AT = 5,   // and where they begin
    OFIB_HOLD_TIME = 6,  // the two times that ofib_plan takes
    OFIB_STEP_TIME = 7
};

// What the direction of a record can be; 0 with a refusal.
enum { OFIB_RISE = 1, OFIB_FALL = 2 };

// A router's states.
enum { OFIB_IDLE = 0, OFIB_HOLDING = 1, OFIB_ONGOING = 2, OFIB_DONE = 3 };

// The kinds of steps. The first, second and fourth do not read b, and the last reads neither a nor b.
enum {
    OFIB_LEARN = 1,   // router a learns of the change: idle, it holds from now on, and its learn time is noted
    OFIB_RELEASE = 2, // the hold-down of router a is over: it is ongoing
    OFIB_WRITE = 3,   // router a writes its set of four to destination b
    OFIB_FINISH = 4,  // router a has written all that is due, and is done
    OFIB_DELIVER = 5, // the message that router a is done arrives at router b
    OFIB_TICK = 6     // the clock goes up by one
};

// The answers: 0, the number of a refusal, or of a step 255.
enum {
    OFIB_OK = 0,        // nothing is refused
    OFIB_IGNORED = 255, // of a step: a message that its receiver does not listen for
    // Of ofib_read, ofib_paths, ofib_plan, ofib_sheet and ofib_isis.
    OFIB_INCOMPLETE = 1,     // a file, a list from IS-IS or a row ends too early; changes are not OFIB_ENTRY bytes each
    OFIB_TRAILING = 2,       // bytes follow the last step of the file, or the last list from IS-IS
    OFIB_ROUTER_COUNT = 3,   // n is not 1 to OFIB_WIDTH
    OFIB_UNKNOWN_ROUTER = 4, // a router is not below n; of a step too
    OFIB_SELF_LINK = 5,      // a link or a change goes from a router to itself, or a list has its own router
    OFIB_BAD_METRIC = 6,     // a metric is 0, or above OFIB_UNUSED
    OFIB_REPEATED = 7,       // the pair of a link or a change has been listed before
    OFIB_TABLE_SIZE = 8,     // a table's length is not OFIB_CELLS
    OFIB_TOO_MANY = 9,       // more than n * (n - 1) links, OFIB_MOST_CHANGES changes or OFIB_MOST_STEPS steps
    // Of ofib_plan and ofib_sheet: the change.
    OFIB_NO_CHANGE = 10,        // the list is empty
    OFIB_SAME_METRIC = 11,      // no used link gets another metric, comes up or goes down
    OFIB_MIXED = 12,            // of those that do, neither every one rises nor every one falls
    OFIB_NO_COMMON_ROUTER = 13, // no router is an end of every change
    // Of ofib_step.
    OFIB_BAD_RECORD = 20,    // n is not 1 to OFIB_WIDTH, or one of the states is above OFIB_DONE
    OFIB_UNKNOWN_KIND = 21,  // the kind is not 1 to 6
    OFIB_WRONG_STATE = 23,   // router a is not in the state from which the step moves it on
    OFIB_STILL_WAITING = 24, // router a waits for another, and its due time has not come
    OFIB_NOT_DUE = 25,       // destination b is not due at router a, or is written already
    OFIB_UNWRITTEN = 26,     // something due at router a is not written
    OFIB_NOT_DONE = 27,      // router a, which sends the message, is not done
    OFIB_NOT_TOLD = 28,      // router a does not tell router b
    // Of ofib_read.
    OFIB_DEAD_LINK = 30, // a link of the file has the metric OFIB_UNUSED; a change may have it
    // Of ofib_isis.
    OFIB_PAST_LIST = 31,        // an entry runs past its list
    OFIB_LONG_SUB_TLVS = 32,    // the sub-TLVs of an entry are longer than 244 bytes
    OFIB_UNKNOWN_IDENTITY = 33, // the identity of an entry is in no row
    // Of ofib_step: the clock.
    OFIB_TOO_EARLY = 34, // the hold time of router a is not over
    OFIB_CLOCK_END = 35, // the clock is at OFIB_LAST_TIME
    // Of ofib_plan and ofib_sheet.
    OFIB_NO_STEP_TIME = 36 // the step time is 0
};

// ---- The functions.

// Read: a bench file, as bytes. `table` gets the metrics of its links and OFIB_UNUSED elsewhere, and `contents` what
// the file says of itself, each number at its name above.
// Gives OFIB_OK, or OFIB_TABLE_SIZE, which leaves the table as it was, or the first fault of the file: 1, 2, 3, 4, 5,
// 6, 7, 9 or 30, where every cell becomes OFIB_UNUSED. With any refusal `contents` becomes all 0. A step time of 0 is
// taken here, and ofib_plan refuses it.
uint8_t ofib_read(
    const uint8_t *OFIB_ALONE file, size_t file_len,
    uint32_t *OFIB_ALONE table, size_t table_len,
    size_t contents[OFIB_WHOLE 8]);

// An area from IS-IS: `table` gets the metrics of the links in n lists, and OFIB_UNUSED elsewhere, as from ofib_read.
// The lists, that of router 0 first, stand one behind the other, each after its length in two bytes, the high one
// first. They are of extended IS reachability entries (TLV 22 of RFC 5305): the neighbour's identity in seven bytes,
// the metric in three, the length of the sub-TLVs in one, and the sub-TLVs, which are skipped. `identities` has rows
// of eight bytes, an identity and the number of its router. The first row with an identity counts, and a router may
// have several. Of the entries for one router the lowest metric is kept; OFIB_UNUSED is no link here.
// Gives OFIB_OK, or OFIB_TABLE_SIZE, which leaves the table as it was, or 3, or of the first faulty row 1 or 4, or the
// first fault in the lists: 1 at a length, of an entry the first that applies of 31, 32, 33, 5 and 6, and 2 behind the
// last list. With these every cell becomes OFIB_UNUSED.
uint8_t ofib_isis(
    size_t n,
    const uint8_t *OFIB_ALONE identities, size_t identities_len,
    const uint8_t *OFIB_ALONE lists, size_t lists_len,
    uint32_t *OFIB_ALONE table, size_t table_len);

// Next hops are in two tables. The full set of (i, j) has all next hops of router i to j: these are in `hops`. The set
// of four has the four lowest numbers of the full set, or all of them where it has fewer: these are in `fours`, and are
// what a line card holds, so what is written and compared. What is due comes from the sets of four; waiting, telling
// and ranks come from the full sets.

// Paths: of n routers and their metrics, every distance, every full set and every set of four. Cells with a row or a
// column from n on become OFIB_UNREACHED, 0 and 0. Of the metrics, the diagonal and what lies beyond n is not looked
// at. A link is used only if both directions have a metric below OFIB_UNUSED.
// Gives OFIB_OK, or the first of 3, 8 and 6 that applies, and then writes no cell.
uint8_t ofib_paths(
    size_t n,
    const uint32_t *OFIB_ALONE metric, size_t metric_len,
    uint32_t *OFIB_ALONE dist, size_t dist_len,
    ofib_set *OFIB_ALONE hops, size_t hops_len,
    ofib_set *OFIB_ALONE fours, size_t fours_len);

// Times are in ticks of the record's clock. A router is held until its learn time plus the hold time. Its due time is
// its rank times the step time later: from then on it may write and finish though messages have not come. These sums do
// not wrap.

// Plan: judges a change of n routers with the metrics `old`. `list` is the changes, OFIB_ENTRY bytes each. The tables
// get the metrics after the change, and what ofib_paths gives for the metrics before it and after it. The last thirteen
// places get the record: `routers` is n, `root` the root, `direction` OFIB_RISE or OFIB_FALL. In the tables per router,
// entry r belongs to router r, and is 0 from n on: its rank; the sets of those that it waits for and that it tells; its
// due destinations, to which it has another set of four after the change; its state, OFIB_IDLE; and what it has
// written, which is nothing yet. Then come the hold time and the step time as given, the clock, which is 0, and each
// router's learn time, 0 until it learns.
// Gives OFIB_OK, or the first that applies of 3, 36, 8, 6, 1, 9, 10, then of the first faulty change 4, 5, 6 or 7, then
// of all changes together 11, 12, 13. With a refusal no table is written, and the record becomes all 0.
uint8_t ofib_plan(
    size_t n,
    uint16_t hold_time,
    uint16_t step_time,
    const uint32_t *OFIB_ALONE old, size_t old_len,
    const uint8_t *OFIB_ALONE list, size_t list_len,
    uint32_t *OFIB_ALONE new_, size_t new_len,
    uint32_t *OFIB_ALONE old_dist, size_t old_dist_len,
    ofib_set *OFIB_ALONE old_hops, size_t old_hops_len,
    ofib_set *OFIB_ALONE old_fours, size_t old_fours_len,
    uint32_t *OFIB_ALONE new_dist, size_t new_dist_len,
    ofib_set *OFIB_ALONE new_hops, size_t new_hops_len,
    ofib_set *OFIB_ALONE new_fours, size_t new_fours_len,
    uint8_t *OFIB_ALONE routers,
    uint8_t *OFIB_ALONE root,
    uint8_t *OFIB_ALONE direction,
    uint8_t ranks[OFIB_WHOLE OFIB_WIDTH],
    ofib_set waiting[OFIB_WHOLE OFIB_WIDTH],
    ofib_set telling[OFIB_WHOLE OFIB_WIDTH],
    ofib_set due[OFIB_WHOLE OFIB_WIDTH],
    uint8_t states[OFIB_WHOLE OFIB_WIDTH],
    ofib_set written[OFIB_WHOLE OFIB_WIDTH],
    uint16_t *OFIB_ALONE record_hold_time,
    uint16_t *OFIB_ALONE record_step_time,
    uint32_t *OFIB_ALONE clock,
    uint32_t learn_times[OFIB_WHOLE OFIB_WIDTH]);

// The running sheet: an order in which the routers can be upgraded. It takes what ofib_plan takes, fills the same
// tables and refuses the same. `routers` gets the numbers of the n routers, each after all that it waits for, and of
// those that could come next always the lowest; 0 from n on. Every router learns, as many ticks follow as the hold time
// says, and every router is released. Then each in turn writes all that is due, finishes, and has its message delivered
// to each router that it tells: no step is refused or ignored.
// Gives what ofib_plan gives. With a refusal no table is written, and `routers` becomes all 0.
uint8_t ofib_sheet(
    size_t n,
    uint16_t hold_time,
    uint16_t step_time,
    const uint32_t *OFIB_ALONE old, size_t old_len,
    const uint8_t *OFIB_ALONE list, size_t list_len,
    uint32_t *OFIB_ALONE new_, size_t new_len,
    uint32_t *OFIB_ALONE old_dist, size_t old_dist_len,
    ofib_set *OFIB_ALONE old_hops, size_t old_hops_len,
    ofib_set *OFIB_ALONE old_fours, size_t old_fours_len,
    uint32_t *OFIB_ALONE new_dist, size_t new_dist_len,
    ofib_set *OFIB_ALONE new_hops, size_t new_hops_len,
    ofib_set *OFIB_ALONE new_fours, size_t new_fours_len,
    uint8_t routers[OFIB_WHOLE OFIB_WIDTH]);

// Step: one step of a record, of which it reads all but the root and the direction. It changes waiting sets, states,
// written sets, the clock and learn times in place. A tick reads neither a nor b, so these may be any bytes.
// Gives OFIB_OK, OFIB_IGNORED, or the first that applies of 20, 21, 4 and then those of its kind: 23 of learn; 23, 34
// of release; 23, 24, 25 of write; 23, 24, 26 of finish; 27, 28 of deliver; 35 of a tick, which has no 4. Ignored or
// refused, it leaves all as it was.
uint8_t ofib_step(
    uint8_t n,
    const uint8_t ranks[OFIB_WHOLE OFIB_WIDTH],
    ofib_set waiting[OFIB_WHOLE OFIB_WIDTH],
    const ofib_set telling[OFIB_WHOLE OFIB_WIDTH],
    const ofib_set due[OFIB_WHOLE OFIB_WIDTH],
    uint8_t states[OFIB_WHOLE OFIB_WIDTH],
    ofib_set written[OFIB_WHOLE OFIB_WIDTH],
    uint16_t hold_time,
    uint16_t step_time,
    uint32_t *OFIB_ALONE clock,
    uint32_t learn_times[OFIB_WHOLE OFIB_WIDTH],
    uint8_t kind, uint8_t a, uint8_t b);

// All the steps that the bytes stand for, OFIB_STEP bytes each, one after another; a refused one changes nothing, and
// the next one follows. One or two bytes at the end are no step. The thirteen first places are the record, and get the
// last one.
void ofib_run(
    uint8_t *OFIB_ALONE routers,
    uint8_t *OFIB_ALONE root,
    uint8_t *OFIB_ALONE direction,
    uint8_t ranks[OFIB_WHOLE OFIB_WIDTH],
    ofib_set waiting[OFIB_WHOLE OFIB_WIDTH],
    ofib_set telling[OFIB_WHOLE OFIB_WIDTH],
    ofib_set due[OFIB_WHOLE OFIB_WIDTH],
    uint8_t states[OFIB_WHOLE OFIB_WIDTH],
    ofib_set written[OFIB_WHOLE OFIB_WIDTH],
    uint16_t *OFIB_ALONE hold_time,
    uint16_t *OFIB_ALONE step_time,
    uint32_t *OFIB_ALONE clock,
    uint32_t learn_times[OFIB_WHOLE OFIB_WIDTH],
    const uint8_t *OFIB_ALONE bytes, size_t bytes_len);

// How many steps a plan needs, ticks not counted. From the record that ofib_plan gives, every list of steps after which
// all routers are done and wait for none has so many answered OFIB_OK, and no list has more. While a router is not done
// and the clock is at most OFIB_LAST_TIME - 65,535, some step that is no tick is answered OFIB_OK, now or after some
// ticks.
// Gives 3 * n plus the sizes of the waiting and due sets of the routers below n, of any record.
size_t ofib_needs(
    uint8_t n,
    const ofib_set waiting[OFIB_WHOLE OFIB_WIDTH],
    const ofib_set due[OFIB_WHOLE OFIB_WIDTH]);

// How many of these are still missing after some steps: 0 where all routers are done and wait for none. The messages
// that a router has not had when it is done by its timer stay missing.
// Gives the sum, over the routers below n of any record, of the states up to OFIB_DONE, the size of the waiting set and
// the number of destinations that are due and not written. A router that no table has an entry for counts as idle.
size_t ofib_missing(
    uint8_t n,
    const ofib_set waiting[OFIB_WHOLE OFIB_WIDTH],
    const ofib_set due[OFIB_WHOLE OFIB_WIDTH],
    const uint8_t states[OFIB_WHOLE OFIB_WIDTH],
    const ofib_set written[OFIB_WHOLE OFIB_WIDTH]);

// The text of the rehearsal of a file, as the program `rehearse` prints it: put at the start of `out`, as far as that
// has room, with no 0 after it. Where the file, its change or the size of a table is refused, the text is one line,
// `refused k`. Gives the number of bytes put there: `out_len` where the text was cut off or just fits. What the rest
// of `out` holds then is not promised. `old` is left as ofib_read leaves its table; the other seven are filled as by
// ofib_plan, and are as they were where the line is a refusal.
size_t ofib_rehearse(
    const uint8_t *OFIB_ALONE file, size_t file_len,
    uint32_t *OFIB_ALONE old, size_t old_len,
    uint32_t *OFIB_ALONE new_, size_t new_len,
    uint32_t *OFIB_ALONE old_dist, size_t old_dist_len,
    ofib_set *OFIB_ALONE old_hops, size_t old_hops_len,
    ofib_set *OFIB_ALONE old_fours, size_t old_fours_len,
    uint32_t *OFIB_ALONE new_dist, size_t new_dist_len,
    ofib_set *OFIB_ALONE new_hops, size_t new_hops_len,
    ofib_set *OFIB_ALONE new_fours, size_t new_fours_len,
    uint8_t *OFIB_ALONE out, size_t out_len);

// The text of its routes, as the program `routes` prints it: distances and full sets, after a line that says so; the
// same in all else.
size_t ofib_routes(
    const uint8_t *OFIB_ALONE file, size_t file_len,
    uint32_t *OFIB_ALONE old, size_t old_len,
    uint32_t *OFIB_ALONE new_, size_t new_len,
    uint32_t *OFIB_ALONE old_dist, size_t old_dist_len,
    ofib_set *OFIB_ALONE old_hops, size_t old_hops_len,
    ofib_set *OFIB_ALONE old_fours, size_t old_fours_len,
    uint32_t *OFIB_ALONE new_dist, size_t new_dist_len,
    ofib_set *OFIB_ALONE new_hops, size_t new_hops_len,
    ofib_set *OFIB_ALONE new_fours, size_t new_fours_len,
    uint8_t *OFIB_ALONE out, size_t out_len);

// ---- The same with the record and the eight tables as one place each. Their sizes are right, so 8 does not occur.

typedef struct ofib_record {
    uint8_t n;
    uint8_t root;
    uint8_t direction;
    uint8_t ranks[OFIB_WIDTH];
    ofib_set waiting[OFIB_WIDTH];
    ofib_set telling[OFIB_WIDTH];
    ofib_set due[OFIB_WIDTH];
    uint8_t states[OFIB_WIDTH];
    ofib_set written[OFIB_WIDTH];
    uint16_t hold_time;
    uint16_t step_time;
    uint32_t clock;
    uint32_t learn_times[OFIB_WIDTH];
} ofib_record;

typedef struct ofib_tables {
    uint32_t old[OFIB_CELLS];  // metrics before the change
    uint32_t new_[OFIB_CELLS]; // and after it; `new` is a word of C++
    uint32_t old_dist[OFIB_CELLS];
    ofib_set old_hops[OFIB_CELLS];
    ofib_set old_fours[OFIB_CELLS];
    uint32_t new_dist[OFIB_CELLS];
    ofib_set new_hops[OFIB_CELLS];
    ofib_set new_fours[OFIB_CELLS];
} ofib_tables;

// Plan over t->old: fills the other tables and the record.
static inline uint8_t ofib_record_plan(ofib_record *r, size_t n, uint16_t hold_time, uint16_t step_time,
                                       ofib_tables *t, const uint8_t *list, size_t list_len)
{
    return ofib_plan(n, hold_time, step_time, t->old, OFIB_CELLS, list, list_len, t->new_, OFIB_CELLS, t->old_dist,
                     OFIB_CELLS, t->old_hops, OFIB_CELLS, t->old_fours, OFIB_CELLS, t->new_dist, OFIB_CELLS,
                     t->new_hops, OFIB_CELLS, t->new_fours, OFIB_CELLS, &r->n, &r->root, &r->direction, r->ranks,
                     r->waiting, r->telling, r->due, r->states, r->written, &r->hold_time, &r->step_time, &r->clock,
                     r->learn_times);
}

// The running sheet over t->old: fills the other tables, and the routers in their order.
static inline uint8_t ofib_tables_sheet(ofib_tables *t, size_t n, uint16_t hold_time, uint16_t step_time,
                                        const uint8_t *list, size_t list_len, uint8_t routers[OFIB_WIDTH])
{
    return ofib_sheet(n, hold_time, step_time, t->old, OFIB_CELLS, list, list_len, t->new_, OFIB_CELLS, t->old_dist,
                      OFIB_CELLS, t->old_hops, OFIB_CELLS, t->old_fours, OFIB_CELLS, t->new_dist, OFIB_CELLS,
                      t->new_hops, OFIB_CELLS, t->new_fours, OFIB_CELLS, routers);
}

static inline uint8_t ofib_record_step(ofib_record *r, uint8_t kind, uint8_t a, uint8_t b)
{
    return ofib_step(r->n, r->ranks, r->waiting, r->telling, r->due, r->states, r->written, r->hold_time, r->step_time,
                     &r->clock, r->learn_times, kind, a, b);
}

static inline void ofib_record_run(ofib_record *r, const uint8_t *bytes, size_t bytes_len)
{
    ofib_run(&r->n, &r->root, &r->direction, r->ranks, r->waiting, r->telling, r->due, r->states, r->written,
             &r->hold_time, &r->step_time, &r->clock, r->learn_times, bytes, bytes_len);
}

static inline size_t ofib_record_needs(const ofib_record *r)
{
    return ofib_needs(r->n, r->waiting, r->due);
}

static inline size_t ofib_record_missing(const ofib_record *r)
{
    return ofib_missing(r->n, r->waiting, r->due, r->states, r->written);
}

static inline size_t ofib_tables_rehearse(ofib_tables *t, const uint8_t *file, size_t file_len, uint8_t *out,
                                          size_t out_len)
{
    return ofib_rehearse(file, file_len, t->old, OFIB_CELLS, t->new_, OFIB_CELLS, t->old_dist, OFIB_CELLS, t->old_hops,
                         OFIB_CELLS, t->old_fours, OFIB_CELLS, t->new_dist, OFIB_CELLS, t->new_hops, OFIB_CELLS,
                         t->new_fours, OFIB_CELLS, out, out_len);
}

static inline size_t ofib_tables_routes(ofib_tables *t, const uint8_t *file, size_t file_len, uint8_t *out,
                                        size_t out_len)
{
    return ofib_routes(file, file_len, t->old, OFIB_CELLS, t->new_, OFIB_CELLS, t->old_dist, OFIB_CELLS, t->old_hops,
                       OFIB_CELLS, t->old_fours, OFIB_CELLS, t->new_dist, OFIB_CELLS, t->new_hops, OFIB_CELLS,
                       t->new_fours, OFIB_CELLS, out, out_len);
}

#ifdef __cplusplus
}
#endif

#endif
