/* What a call must leave alone (track.h, "What stays"), over lent memory whose unused numbers are all sentinels: more room than
 * N * M * W ranges and numbers after the last whole range, the words of indices from N on, a scope's words that only a tracker uses, counts
 * and ranges of textures with a single state, ownership words that are any nonzero numbers, free entries of the log.
 *
 * Each call that writes a set is made with random arguments. Afterwards every lent number is compared but those that the call may write,
 * and for each call the comparison itself is tried: one number that must stay is changed, which has to be found. */
#include "track.h"

#include <stdbool.h>
#include <stdio.h>
#include <stdlib.h>
#include <string.h>

/* The largest set that is opened; most are smaller, in the same room. */
enum { N = 3, M = 2, W = 4, RANGES = 3 * (N * M * W + 2) + 2, ENTRIES = N * M * W, LOG = 7 * ENTRIES + 3, CALLS = 60000, ROUND = 30 };
enum { UNINITIALIZED = 1, EXCLUSIVE = 20, COMPLEX = 4096, UNKNOWN = 8192, MASK = 10 };

/* Every lent number, so that a comparison of all of them is one loop. */
struct scope { uint32_t table[TRACK_TABLE_LENGTH], ranges[RANGES]; };
struct tracker { uint32_t table[TRACK_TABLE_LENGTH], starts[RANGES], ends[RANGES]; };
static struct lent { struct scope scope, given; struct tracker tracker, join; uint32_t log[LOG]; } lent, before;
enum { LENT = sizeof lent / sizeof(uint32_t) };
static bool may_change[LENT];
static size_t written, left; /* the head of the log */

enum call { MERGE_SINGLE, MERGE_USAGE_SCOPE, SET_SINGLE, SET_FROM_USAGE_SCOPE, SET_FROM_TRACKER, SPARSE, KINDS };
static const char *const names[KINDS] = {
    "merge_single", "merge_usage_scope", "set_single", "set_from_usage_scope", "set_from_tracker", "set_and_remove_from_usage_scope_sparse"
};
static unsigned answers[KINDS][3];

static void expect(bool holds, const char *call, const char *what)
{
    if (holds) return;
    fprintf(stderr, "tests/c/spare.c: %s: %s\n", call, what);
    exit(1);
}

static uint32_t noise(void) /* xorshift: the same numbers in every run */
{
    static uint32_t x = 2463534242u;
    x ^= x << 13;
    x ^= x >> 17;
    x ^= x << 5;
    return x;
}

static uint32_t below(uint32_t n)
{
    return noise() % n;
}

/* Marks owned textures by other nonzero numbers. */
static void remark(uint32_t *table)
{
    for (uint32_t i = 0; i < table[TRACK_N]; i++)
        if (table[TRACK_OWNED + i] != 0) table[TRACK_OWNED + i] = below(3) == 0 ? 1 : 1 + below(UINT32_MAX);
}

/* ---- What a call may write ---- */

static void allow(const uint32_t *from, size_t count)
{
    memset(may_change + (from - (const uint32_t *)&lent), true, count);
}

static void allow_half(uint32_t *table, size_t half, const uint32_t *ranges, uint32_t i)
{
    const size_t block = (size_t)3 * table[TRACK_M] * table[TRACK_W];
    allow(table + half + i, 1);
    allow(table + half + TRACK_COUNTS + 16 * i, 16);
    allow(ranges + i * block, block);
}

/* The words and the ranges of texture i, if the set has such an index. */
static void allow_texture(uint32_t *table, uint32_t *starts, uint32_t *ends, uint32_t i)
{
    if (i >= table[TRACK_N]) return;
    allow(table + TRACK_OWNED + i, 1);
    allow(table + TRACK_MIPS + i, 1);
    allow(table + TRACK_LAYERS + i, 1);
    allow_half(table, TRACK_START, starts, i);
    if (ends != NULL) allow_half(table, TRACK_END, ends, i);
}

static bool owns(const uint32_t *table, uint32_t i)
{
    return i < table[TRACK_N] && table[TRACK_OWNED + i] != 0;
}

static void allow_tracker(const uint32_t *given, const uint32_t *listed, size_t count)
{
    for (size_t k = 0; k < count; k++)
        if (owns(given, listed[k])) allow_texture(lent.tracker.table, lent.tracker.starts, lent.tracker.ends, listed[k]);
}

/* ---- Comparing ---- */

/* The first number that changed and may not; LENT if there is none. */
static size_t first_change(void)
{
    const uint32_t *now = (const uint32_t *)&lent, *then = (const uint32_t *)&before;
    for (size_t x = 0; x < LENT; x++)
        if (now[x] != then[x] && !may_change[x]) return x;
    return LENT;
}

/* One number that must stay is changed, found, and put back. */
static void comparison_sees(const char *call)
{
    size_t x = below(LENT);
    while (may_change[x]) x = below(LENT);
    ((uint32_t *)&lent)[x] ^= 1u << below(32);
    expect(first_change() == x, call, "a number that was changed by hand is found");
    ((uint32_t *)&lent)[x] = ((uint32_t *)&before)[x];
}

/* ---- Sets over sentinels ---- */

/* What opening writes: the first eight words, and for each index below N whether it is owned, its extent and its states. */
static void allow_opening(uint32_t *table, uint32_t n)
{
    static const size_t words[] = { TRACK_OWNED, TRACK_MIPS, TRACK_LAYERS, TRACK_START, TRACK_END };
    allow(table, 8);
    for (size_t k = 0; k < sizeof words / sizeof *words; k++) allow(table + words[k], n);
}

static void open_scope(struct scope *s)
{
    const uint32_t n = 1 + below(N), m = 1 + below(M), w = 1 + below(W);
    allow_opening(s->table, n);
    const track_answer a = track_open_scope(s->table, s->ranges, RANGES, n, m, w, EXCLUSIVE, UNINITIALIZED, COMPLEX, UNKNOWN);
    expect(a.kind == TRACK_DONE, "open_scope", "it is done");
}

static void open_tracker(struct tracker *t)
{
    const uint32_t n = 1 + below(N), m = 1 + below(M), w = 1 + below(W);
    allow_opening(t->table, n);
    const track_answer a = track_open_tracker(t->table, t->starts, RANGES, t->ends, RANGES, n, m, w,
                                              EXCLUSIVE, UNINITIALIZED, COMPLEX, UNKNOWN, MASK);
    expect(a.kind == TRACK_DONE, "open_tracker", "it is done");
}

/* Opens all sets, each for numbers of its own, over memory that holds nothing but noise. */
static void start(void)
{
    for (size_t x = 0; x < LENT; x++) ((uint32_t *)&lent)[x] = noise();
    before = lent;
    memset(may_change, false, sizeof may_change);
    open_scope(&lent.scope);
    open_scope(&lent.given);
    open_tracker(&lent.tracker);
    open_tracker(&lent.join);
    expect(first_change() == LENT, "opening", "every number stays that it may not write");
    comparison_sees("opening");
    lent.scope.table[TRACK_ORDERED] = noise();
    lent.given.table[TRACK_ORDERED] = noise();
}

/* ---- The calls ---- */

static const uint16_t states[] = { 2, 8, 10, 4, 16, 2, 8, 4, 0, 24 };

struct use { uint32_t index, mips, layers, a, b, c, d; uint16_t state; };

/* A use of a texture of a set, mostly in its limits. */
static struct use some_use(const uint32_t *table)
{
    struct use u = { .index = below(16) == 0 ? noise() : below(table[TRACK_N] + 1) };
    u.mips = owns(table, u.index) ? table[TRACK_MIPS + u.index] : 1 + below(table[TRACK_M]);
    u.layers = owns(table, u.index) ? table[TRACK_LAYERS + u.index] : 1 + below(table[TRACK_W]);
    if (below(16) == 0) u.layers++;
    u.a = below(u.mips);
    u.b = u.a + 1 + below(u.mips - u.a);
    u.c = below(u.layers);
    u.d = u.c + 1 + below(u.layers - u.c);
    if (below(4) == 0) u.a = 0, u.b = u.mips, u.c = 0, u.d = u.layers;
    u.state = states[below(sizeof states / sizeof *states)];
    return u;
}

static track_answer merge_single(struct scope *s)
{
    const struct use u = some_use(s->table);
    allow_texture(s->table, s->ranges, NULL, u.index);
    return track_merge_single(s->table, s->ranges, RANGES, u.index, u.mips, u.layers, below(4), u.a, u.b, u.c, u.d, u.state);
}

/* Takes the head over; the entries that were written are the call's. */
static track_answer logged(track_logged_answer got)
{
    if (got.written > written) allow(lent.log + 7 * written, 7 * (got.written - written));
    if (got.answer.kind == TRACK_REFUSED) expect(got.written == written && got.free == left, "a log", "a refusal leaves the head");
    return got.answer;
}

static track_answer set_single(struct tracker *t)
{
    const struct use u = some_use(t->table);
    allow_texture(t->table, t->starts, t->ends, u.index);
    return logged(track_set_single(t->table, t->starts, RANGES, t->ends, RANGES, u.index, u.mips, u.layers, u.a, u.b, u.c, u.d, u.state,
                                   lent.log, LOG, written, left));
}

static const uint32_t all[N] = { 0, 1, 2 };

static track_answer merge_usage_scope(void)
{
    for (uint32_t i = 0; i < N; i++)
        if (owns(lent.given.table, i)) allow_texture(lent.scope.table, lent.scope.ranges, NULL, i);
    return track_merge_usage_scope(lent.scope.table, lent.scope.ranges, RANGES, lent.given.table, lent.given.ranges, RANGES);
}

static track_answer set_from_usage_scope(void)
{
    allow_tracker(lent.given.table, all, N);
    return logged(track_set_from_usage_scope(lent.tracker.table, lent.tracker.starts, RANGES, lent.tracker.ends, RANGES,
                                             lent.given.table, lent.given.ranges, RANGES, lent.log, LOG, written, left));
}

static track_answer set_from_tracker(void)
{
    allow_tracker(lent.join.table, all, N);
    return logged(track_set_from_tracker(lent.tracker.table, lent.tracker.starts, RANGES, lent.tracker.ends, RANGES, lent.join.table,
                                         lent.join.starts, RANGES, lent.join.ends, RANGES, lent.log, LOG, written, left));
}

/* The given table is to be the same with the words of ownership of the listed indices 0: this is taken into `before`. */
static track_answer sparse(void)
{
    uint32_t listed[4];
    const size_t count = below(5);
    for (size_t k = 0; k < count; k++) listed[k] = below(lent.given.table[TRACK_N] + (below(8) == 0));
    allow_tracker(lent.given.table, listed, count);
    track_answer a = logged(track_set_and_remove_from_usage_scope_sparse(
        lent.tracker.table, lent.tracker.starts, RANGES, lent.tracker.ends, RANGES,
        lent.given.table, lent.given.ranges, RANGES, listed, count, lent.log, LOG, written, left));
    for (size_t k = 0; a.kind == TRACK_DONE && k < count; k++) before.given.table[TRACK_OWNED + listed[k]] = 0;
    return a;
}

static track_answer make(enum call call)
{
    switch (call) {
    case MERGE_SINGLE: return merge_single(below(2) == 0 ? &lent.scope : &lent.given);
    case MERGE_USAGE_SCOPE: return merge_usage_scope();
    case SET_SINGLE: return set_single(below(2) == 0 ? &lent.tracker : &lent.join);
    case SET_FROM_USAGE_SCOPE: return set_from_usage_scope();
    case SET_FROM_TRACKER: return set_from_tracker();
    default: return sparse();
    }
}

static void step(void)
{
    const enum call call = (enum call)(below(2) == 0 ? below(KINDS) : 2 * below(2)); /* half of them put single uses in */
    remark(lent.scope.table);
    remark(lent.given.table);
    remark(lent.tracker.table);
    remark(lent.join.table);
    written = below(4);
    left = below(4) == 0 ? below(3) : below(64) == 0 ? ENTRIES : ENTRIES - written;
    memset(may_change, false, sizeof may_change);
    before = lent;
    const track_answer a = make(call);
    if (a.kind == TRACK_REFUSED) memset(may_change, false, sizeof may_change);
    expect(first_change() == LENT, names[call], "every number stays that the call may not write");
    comparison_sees(names[call]);
    answers[call][a.kind]++;
}

int main(void)
{
    for (unsigned k = 0; k < CALLS; k++) {
        if (k % ROUND == 0) start();
        step();
    }
    for (unsigned call = 0; call < KINDS; call++) {
        const bool merges = call <= MERGE_USAGE_SCOPE;
        expect(answers[call][TRACK_DONE] > 50 && answers[call][TRACK_REFUSED] > 50 && (answers[call][TRACK_CONFLICT] > 50) == merges,
               names[call], "it was done, refused and, in a merge, in conflict");
        printf("  %-40s %6u done %6u refused %6u in conflict\n", names[call], answers[call][TRACK_DONE], answers[call][TRACK_REFUSED],
               answers[call][TRACK_CONFLICT]);
    }
    printf("C spare room: %u calls, %u lent numbers each, none changed that is not named\n", (unsigned)CALLS, (unsigned)LENT);
    return 0;
}
