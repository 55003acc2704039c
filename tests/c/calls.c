/* The public calls from C: 01's bench samples B1 to B14, each refusal that a caller can provoke, and slices in every place of an argument
 * list that a calling convention treats differently. Each answer is compared field by field, and after a refusal every lent number. */
#include "track.h"

#include <stdbool.h>
#include <stdio.h>
#include <stdlib.h>
#include <string.h>

_Static_assert(sizeof(track_answer) == 40, "ten numbers");
_Static_assert(sizeof(track_logged_answer) == 56, "an answer and two counts");
_Static_assert(sizeof(track_ranges_answer) == 64, "an answer and three counts");

/* 01's bench: two textures of 2 mips and 4 layers. */
enum { N = 2, M = 2, W = 4, RANGES = 3 * N * M * W, ENTRIES = N * M * W, LOG = 7 * ENTRIES };
enum { UNINITIALIZED = 1, EXCLUSIVE = 20, COMPLEX = 4096, UNKNOWN = 8192, MASK = 10 };

/* Everything that is lent to the calls stands here, so that "everything lent stays" is one comparison. */
struct scope { uint32_t table[TRACK_TABLE_LENGTH], ranges[RANGES]; };
struct tracker { uint32_t table[TRACK_TABLE_LENGTH], starts[RANGES], ends[RANGES]; };
static struct { struct scope scope, other; struct tracker tracker, join; uint32_t log[LOG], ranges[18], out[7]; } lent, before;
static size_t written, left; /* the head of the log */

static unsigned checks, refusals, conflicts;

/* ---- Comparing ---- */

static void expect(bool holds, int line, const char *what)
{
    checks++;
    if (holds) return;
    fprintf(stderr, "tests/c/calls.c:%d: %s\n", line, what);
    exit(1);
}
#define EXPECT(fact) expect((fact), __LINE__, #fact)

static void expect_number(uint32_t got, uint32_t want, int line, const char *field)
{
    checks++;
    if (got == want) return;
    fprintf(stderr, "tests/c/calls.c:%d: %s is %u and not %u\n", line, field, got, want);
    exit(1);
}

static void expect_answer(track_answer got, track_answer want, int line)
{
    expect_number(got.kind, want.kind, line, "kind");
    expect_number(got.number, want.number, line, "number");
    expect_number(got.place, want.place, line, "place");
    expect_number(got.index, want.index, line, "index");
    expect_number(got.mip_start, want.mip_start, line, "mip_start");
    expect_number(got.mip_end, want.mip_end, line, "mip_end");
    expect_number(got.layer_start, want.layer_start, line, "layer_start");
    expect_number(got.layer_end, want.layer_end, line, "layer_end");
    expect_number(got.old_state, want.old_state, line, "old_state");
    expect_number(got.new_state, want.new_state, line, "new_state");
}

static void done(track_answer got, int line)
{
    expect_answer(got, (track_answer){ .kind = TRACK_DONE }, line);
}
#define DONE(call) done((call), __LINE__)

static void refused(track_answer got, uint32_t number, uint32_t place, int line)
{
    expect_answer(got, (track_answer){ .kind = TRACK_REFUSED, .number = number, .place = place }, line);
    expect(memcmp(&lent, &before, sizeof lent) == 0, line, "everything lent stays");
    refusals++;
}
#define REFUSED(number, place, call) (before = lent, refused((call), (number), (place), __LINE__))

static void conflict(track_answer got, track_answer want, int line)
{
    want.kind = TRACK_CONFLICT;
    expect_answer(got, want, line);
    conflicts++;
}
#define CONFLICT(call, ...) conflict((call), (track_answer){ __VA_ARGS__ }, __LINE__)

/* A call with a log: takes the head over, and hands on the answer. */
static track_answer head_of(track_logged_answer got)
{
    written = got.written;
    left = got.free;
    return got.answer;
}

/* A call with a log that is refused hands back the head that it was given. */
static track_answer same_head(track_logged_answer got, size_t w, size_t f, int line)
{
    expect(got.written == w && got.free == f, line, "the head stays");
    return got.answer;
}
#define SAME_HEAD(w, f, call) same_head((call), (w), (f), __LINE__)

/* ---- What a set and the log hold ---- */

static bool single(const uint32_t *table, size_t half, size_t i, uint32_t state)
{
    return table[TRACK_OWNED + i] != 0 && table[TRACK_MIPS + i] == M && table[TRACK_LAYERS + i] == W && table[half + i] == state;
}

/* Mip m of texture i has these ranges, three numbers each. */
static bool mip(const uint32_t *table, size_t half, const uint32_t *ranges, size_t i, size_t m, size_t count, const uint32_t *want)
{
    return single(table, half, i, COMPLEX) && table[half + TRACK_COUNTS + 16 * i + m] == count
        && memcmp(ranges + 3 * W * (i * M + m), want, 3 * count * sizeof *want) == 0;
}
#define MIP(table, half, ranges, m, ...) \
    mip((table), (half), (ranges), 0, (m), sizeof(uint32_t[]){ __VA_ARGS__ } / 12, (const uint32_t[]){ __VA_ARGS__ })
#define SCOPE_MIP(m, ...) EXPECT(MIP(lent.scope.table, TRACK_START, lent.scope.ranges, m, __VA_ARGS__))
#define START_MIP(m, ...) EXPECT(MIP(lent.tracker.table, TRACK_START, lent.tracker.starts, m, __VA_ARGS__))
#define END_MIP(m, ...) EXPECT(MIP(lent.tracker.table, TRACK_END, lent.tracker.ends, m, __VA_ARGS__))

/* The log holds these entries, seven numbers each, and as many fewer are free. */
static bool logged(size_t count, const uint32_t *want)
{
    return written == count && left == ENTRIES - count && memcmp(lent.log, want, 7 * count * sizeof *want) == 0;
}
#define LOGGED(...) EXPECT(logged(sizeof(uint32_t[]){ __VA_ARGS__ } / 28, (const uint32_t[]){ __VA_ARGS__ }))
#define LOGGED_NOTHING EXPECT(written == 0 && left == ENTRIES)

/* ---- The calls, with the bench's numbers ---- */

static track_answer open_scope(struct scope *s, uint32_t exclusive)
{
    return track_open_scope(s->table, s->ranges, RANGES, N, M, W, exclusive, UNINITIALIZED, COMPLEX, UNKNOWN);
}

static track_answer open_tracker(struct tracker *t, uint32_t exclusive)
{
    return track_open_tracker(t->table, t->starts, RANGES, t->ends, RANGES, N, M, W, exclusive, UNINITIALIZED, COMPLEX, UNKNOWN, MASK);
}

/* All four sets opened anew over numbers that mean nothing, and the log empty. */
static void start(void)
{
    memset(&lent, 0xa5, sizeof lent);
    DONE(open_scope(&lent.scope, EXCLUSIVE));
    DONE(open_scope(&lent.other, EXCLUSIVE));
    DONE(open_tracker(&lent.tracker, EXCLUSIVE));
    DONE(open_tracker(&lent.join, EXCLUSIVE));
    written = 0;
    left = ENTRIES;
}

static track_answer merge(struct scope *s, uint32_t i, uint16_t state) /* all of texture i; the four numbers are not read */
{
    return track_merge_single(s->table, s->ranges, RANGES, i, M, W, 0, 9, 8, 7, 6, state);
}

static track_answer merge_part(struct scope *s, uint32_t a, uint32_t b, uint32_t c, uint32_t d, uint16_t state)
{
    return track_merge_single(s->table, s->ranges, RANGES, 0, M, W, 1, a, b, c, d, state);
}

static track_answer merge_scope_at(size_t ranges_length, size_t lent_length)
{
    return track_merge_usage_scope(lent.scope.table, lent.scope.ranges, ranges_length, lent.other.table, lent.other.ranges, lent_length);
}

static track_answer merge_scope(void)
{
    return merge_scope_at(RANGES, RANGES);
}

static track_logged_answer set_at(struct tracker *t, uint32_t i, uint32_t a, uint32_t b, uint32_t c, uint32_t d, uint16_t state,
                                  size_t w, size_t f)
{
    return track_set_single(t->table, t->starts, RANGES, t->ends, RANGES, i, M, W, a, b, c, d, state, lent.log, LOG, w, f);
}

static track_answer set(struct tracker *t, uint32_t a, uint32_t b, uint32_t c, uint32_t d, uint16_t state)
{
    return head_of(set_at(t, 0, a, b, c, d, state, written, left));
}

static track_answer set_all(struct tracker *t, uint16_t state)
{
    return set(t, 0, M, 0, W, state);
}

static track_logged_answer join_at(size_t last_length, size_t log_length, size_t w, size_t f)
{
    return track_set_from_tracker(lent.tracker.table, lent.tracker.starts, RANGES, lent.tracker.ends, RANGES,
                                  lent.join.table, lent.join.starts, RANGES, lent.join.ends, last_length, lent.log, log_length, w, f);
}

static track_logged_answer from_scope_at(size_t lent_length, size_t w, size_t f)
{
    return track_set_from_usage_scope(lent.tracker.table, lent.tracker.starts, RANGES, lent.tracker.ends, RANGES,
                                      lent.other.table, lent.other.ranges, lent_length, lent.log, LOG, w, f);
}

static track_logged_answer sparse_at(const uint32_t *indices, size_t count, size_t w, size_t f)
{
    return track_set_and_remove_from_usage_scope_sparse(
        lent.tracker.table, lent.tracker.starts, RANGES, lent.tracker.ends, RANGES,
        lent.other.table, lent.other.ranges, RANGES, indices, count, lent.log, LOG, w, f);
}

/* ---- 01's samples ---- */

static void scopes(void)
{
    start(); /* B1, B2, B3 */
    DONE(merge(&lent.scope, 0, 8));
    EXPECT(single(lent.scope.table, TRACK_START, 0, 8));
    DONE(merge(&lent.scope, 0, 2));
    EXPECT(single(lent.scope.table, TRACK_START, 0, 10));
    CONFLICT(merge(&lent.scope, 0, 4), .index = 0, .mip_end = 2, .layer_end = 4, .old_state = 10, .new_state = 4);
    EXPECT(single(lent.scope.table, TRACK_START, 0, 10));

    start(); /* B4, B5 */
    DONE(merge_part(&lent.scope, 0, 1, 1, 3, 8));
    SCOPE_MIP(0, 0, 1, UNKNOWN, 1, 3, 8, 3, 4, UNKNOWN);
    SCOPE_MIP(1, 0, 4, UNKNOWN);
    DONE(merge(&lent.scope, 0, 2));
    SCOPE_MIP(0, 0, 1, 2, 1, 3, 10, 3, 4, 2);
    SCOPE_MIP(1, 0, 4, 2);

    start(); /* B6: earlier ranges stay changed */
    DONE(merge_part(&lent.scope, 0, 1, 1, 3, 8));
    CONFLICT(merge(&lent.scope, 0, 4), .index = 0, .mip_end = 1, .layer_start = 1, .layer_end = 3, .old_state = 8, .new_state = 4);
    SCOPE_MIP(0, 0, 1, 4, 1, 3, 8, 3, 4, UNKNOWN);
    SCOPE_MIP(1, 0, 4, UNKNOWN);

    start(); /* a conflict of texture 1 */
    DONE(merge(&lent.scope, 1, 8));
    CONFLICT(merge(&lent.scope, 1, 16), .index = 1, .mip_end = 2, .layer_end = 4, .old_state = 8, .new_state = 16);
}

/* `lent` of track_merge_usage_scope: its pointer is the sixth integer argument, in a register, and its length the seventh, on the stack. */
static void straddling(void)
{
    start(); /* B7 */
    DONE(merge(&lent.scope, 0, 8));
    DONE(merge_part(&lent.other, 0, 1, 1, 3, 2));
    REFUSED(TRACK_NOT_WELL_FORMED, 0, merge_scope_at(RANGES, RANGES - 1));
    REFUSED(TRACK_NOT_WELL_FORMED, 0, merge_scope_at(RANGES - 1, RANGES));
    DONE(merge_scope());
    SCOPE_MIP(0, 0, 1, 8200, 1, 3, 10, 3, 4, 8200);
    SCOPE_MIP(1, 0, 4, 8200);

    start(); /* B8 */
    DONE(merge(&lent.scope, 0, 4));
    DONE(merge_part(&lent.other, 0, 1, 1, 3, 2));
    CONFLICT(merge_scope(), .index = 0, .mip_end = 1, .layer_end = 1, .old_state = 4, .new_state = 8192);
    EXPECT(single(lent.scope.table, TRACK_START, 0, 4));
}

static void trackers(void)
{
    start(); /* B9 */
    DONE(set_all(&lent.tracker, 4));
    LOGGED_NOTHING;
    DONE(set(&lent.tracker, 0, 1, 1, 3, 8));
    LOGGED(0, 0, 1, 1, 3, 4, 8);
    EXPECT(single(lent.tracker.table, TRACK_START, 0, 4));
    END_MIP(0, 0, 1, 4, 1, 3, 8, 3, 4, 4);
    END_MIP(1, 0, 4, 4);

    start(); /* B10: the mask holds 8 and not 4 */
    DONE(set_all(&lent.tracker, 4));
    DONE(set_all(&lent.tracker, 4));
    LOGGED(0, 0, 2, 0, 4, 4, 4);
    start();
    DONE(set_all(&lent.tracker, 8));
    DONE(set_all(&lent.tracker, 8));
    LOGGED_NOTHING;

    start(); /* B11 */
    DONE(set(&lent.tracker, 0, 1, 1, 3, 8));
    DONE(set_all(&lent.tracker, 4));
    LOGGED(0, 0, 1, 1, 3, 8, 4);
    START_MIP(0, 0, 1, 4, 1, 3, 8, 3, 4, 4);
    START_MIP(1, 0, 4, 4);
}

/* Lists and logs that lie on the stack, whole. */
static void sets(void)
{
    start(); /* B12: the other tracker starts as whole 2 and ends as whole 8 */
    DONE(set_all(&lent.join, 2));
    DONE(set_all(&lent.join, 8));
    DONE(head_of(track_empty_log(lent.log, LOG, written, left)));
    DONE(set(&lent.tracker, 0, 1, 1, 3, 8));
    REFUSED(TRACK_NOT_WELL_FORMED, 0, SAME_HEAD(0, ENTRIES, join_at(RANGES - 1, LOG, 0, ENTRIES)));
    REFUSED(TRACK_LOG_TOO_SHORT, 0, SAME_HEAD(0, ENTRIES, join_at(RANGES, LOG - 1, 0, ENTRIES)));
    REFUSED(TRACK_NO_FREE_ENTRY, 0, SAME_HEAD(0, 0, join_at(RANGES, LOG, 0, 0)));
    DONE(head_of(join_at(RANGES, LOG, 0, ENTRIES)));
    LOGGED(0, 0, 1, 1, 3, 8, 2);
    START_MIP(0, 0, 4, 8);
    START_MIP(1, 0, 4, 8);
    EXPECT(single(lent.tracker.table, TRACK_END, 0, 8));

    start(); /* all of a scope */
    DONE(set_all(&lent.tracker, 4));
    DONE(merge(&lent.other, 0, 2));
    DONE(merge(&lent.other, 1, 8));
    REFUSED(TRACK_NOT_WELL_FORMED, 0, SAME_HEAD(0, ENTRIES, from_scope_at(RANGES - 1, 0, ENTRIES)));
    REFUSED(TRACK_NO_FREE_ENTRY, 0, SAME_HEAD(ENTRIES, 0, from_scope_at(RANGES, ENTRIES, 0)));
    DONE(head_of(from_scope_at(RANGES, 0, ENTRIES)));
    LOGGED(0, 0, 2, 0, 4, 4, 2);
    EXPECT(single(lent.tracker.table, TRACK_END, 0, 2) && single(lent.tracker.table, TRACK_START, 1, 8));

    start(); /* the listed ones: an index twice counts once, one that the scope does not own is passed over */
    DONE(set_all(&lent.tracker, 4));
    DONE(merge(&lent.other, 0, 16));
    REFUSED(TRACK_NO_SUCH_INDEX, 2, SAME_HEAD(0, ENTRIES, sparse_at((const uint32_t[]){ 0, 2 }, 2, 0, ENTRIES)));
    REFUSED(TRACK_NO_FREE_ENTRY, 0, SAME_HEAD(0, 0, sparse_at((const uint32_t[]){ 0 }, 1, 0, 0)));
    DONE(head_of(sparse_at((const uint32_t[]){ 1, 0, 2 }, 0, 0, ENTRIES))); /* an empty list, whatever its pointer shows */
    LOGGED_NOTHING;
    DONE(head_of(sparse_at((const uint32_t[]){ 1, 0, 0, 1 }, 4, 0, ENTRIES)));
    LOGGED(0, 0, 2, 0, 4, 4, 16);
    EXPECT(lent.other.table[TRACK_OWNED] == 0 && lent.tracker.table[TRACK_OWNED + 1] == 0);
}

/* The calls on ranges by themselves: room for six, and for two to list, with a number over that makes no range. */
enum { A = 2, B = 8, D = 99 };

static track_answer counts(track_ranges_answer got, size_t position, size_t count, size_t told, int line)
{
    expect(got.position == position, line, "position");
    expect(got.count == count, line, "count");
    expect(got.told == told, line, "told");
    return got.answer;
}
#define COUNTS(position, count, told, call) counts((call), (position), (count), (told), __LINE__)

static void hold(const uint32_t *numbers)
{
    memcpy(lent.ranges, numbers, sizeof lent.ranges);
}
#define HOLD(...) hold((const uint32_t[18]){ __VA_ARGS__ })
#define RANGES_ARE(...) EXPECT(memcmp(lent.ranges, (const uint32_t[18]){ __VA_ARGS__ }, sizeof lent.ranges) == 0)
#define OUT_IS(...) EXPECT(memcmp(lent.out, (const uint32_t[7]){ __VA_ARGS__ }, sizeof lent.out) == 0)

static void ranged(void)
{
    start();
    HOLD(2, 4, A, 6, 8, B, 1, 1, 1, 1, 1, 1, 1, 1, 1, 7, 7, 7); /* B13; the record past the new length stays */
    DONE(COUNTS(1, 3, 5, track_isolate(lent.ranges, 18, 2, 3, 7, D)));
    RANGES_ARE(2, 3, A, 3, 4, A, 4, 6, D, 6, 7, B, 7, 8, B, 7, 7, 7);
    DONE(COUNTS(0, 0, 3, track_coalesce(lent.ranges, 18, 5)));
    RANGES_ARE(2, 4, A, 4, 6, D, 6, 8, B, 0, 0, 0, 0, 0, 0, 7, 7, 7);
    DONE(COUNTS(0, 2, 0, track_iter_filter(lent.ranges, 18, 3, 3, 5, lent.out, 7)));
    OUT_IS(3, 4, A, 4, 5, D, 0xa5a5a5a5);
    RANGES_ARE(2, 4, A, 4, 6, D, 6, 8, B, 0, 0, 0, 0, 0, 0, 7, 7, 7);
    DONE(COUNTS(0, 0, 0, track_iter_filter(lent.ranges, 18, 3, 8, UINT32_MAX, lent.out, 0)));
    REFUSED(TRACK_RANGES_OUT_OF_ORDER, 0, COUNTS(0, 0, 0, track_isolate(lent.ranges, 17, 6, 3, 7, D))); /* 17 numbers are five ranges */
    REFUSED(TRACK_RANGES_OUT_OF_ORDER, 0, COUNTS(0, 0, 0, track_coalesce(lent.ranges, 18, SIZE_MAX)));
    REFUSED(TRACK_RANGES_OUT_OF_ORDER, 0, COUNTS(0, 0, 0, track_coalesce(lent.ranges, 18, 4))); /* the fourth is empty */
    REFUSED(TRACK_RANGES_OUT_OF_ORDER, 0, COUNTS(0, 0, 0, track_iter_filter(lent.ranges, 18, 4, 3, 5, lent.out, 7)));
    REFUSED(TRACK_NO_FREE_ENTRY, 0, COUNTS(0, 0, 0, track_isolate(lent.ranges, 14, 3, 3, 7, D))); /* five are left, four are lent */
    REFUSED(TRACK_NO_FREE_ENTRY, 0, COUNTS(0, 0, 0, track_iter_filter(lent.ranges, 18, 3, 3, 7, lent.out, 7)));
    DONE(COUNTS(1, 3, 5, track_isolate(lent.ranges, 15, 3, 3, 7, D)));

    HOLD(0, 2, A); /* B14 */
    DONE(COUNTS(1, 1, 2, track_isolate(lent.ranges, 18, 1, 5, 7, D)));
    RANGES_ARE(0, 2, A, 5, 7, D);
}

/* Both calls refuse such a start and end before they look at the ranges (of four the last is empty, which is 14) and at the room (15). */
#define ENDS(number, from, to) \
    (REFUSED((number), 0, COUNTS(0, 0, 0, track_isolate(lent.ranges, 18, 3, (from), (to), D))), \
     REFUSED((number), 0, COUNTS(0, 0, 0, track_isolate(lent.ranges, 18, 4, (from), (to), D))), \
     REFUSED((number), 0, COUNTS(0, 0, 0, track_isolate(lent.ranges, 9, 3, (from), (to), D))), \
     REFUSED((number), 0, COUNTS(0, 0, 0, track_iter_filter(lent.ranges, 18, 3, (from), (to), lent.out, 7))), \
     REFUSED((number), 0, COUNTS(0, 0, 0, track_iter_filter(lent.ranges, 18, 4, (from), (to), lent.out, 7))), \
     REFUSED((number), 0, COUNTS(0, 0, 0, track_iter_filter(lent.ranges, 18, 3, (from), (to), lent.out, 0))))

static void range_ends(void)
{
    start();
    HOLD(2, 4, A, 4, 6, D, 6, 8, B);
    ENDS(TRACK_LAYERS_EMPTY, 4, 4);
    ENDS(TRACK_LAYERS_REVERSED, 5, 4);
    ENDS(TRACK_LAYERS_EMPTY, 0, 0);
    ENDS(TRACK_LAYERS_REVERSED, 1, 0);
    ENDS(TRACK_LAYERS_EMPTY, UINT32_MAX, UINT32_MAX);
    ENDS(TRACK_LAYERS_REVERSED, UINT32_MAX, 0);
    REFUSED(TRACK_RANGES_OUT_OF_ORDER, 0, COUNTS(0, 0, 0, track_isolate(lent.ranges, 18, 4, 4, 5, D)));
    REFUSED(TRACK_NO_FREE_ENTRY, 0, COUNTS(0, 0, 0, track_isolate(lent.ranges, 9, 3, 4, 5, D)));
    REFUSED(TRACK_RANGES_OUT_OF_ORDER, 0, COUNTS(0, 0, 0, track_iter_filter(lent.ranges, 18, 4, 4, 5, lent.out, 7)));
    REFUSED(TRACK_NO_FREE_ENTRY, 0, COUNTS(0, 0, 0, track_iter_filter(lent.ranges, 18, 3, 4, 5, lent.out, 0)));
    DONE(COUNTS(0, 1, 0, track_iter_filter(lent.ranges, 18, 3, 4, 5, lent.out, 7)));
    OUT_IS(4, 5, D, 0xa5a5a5a5, 0xa5a5a5a5, 0xa5a5a5a5, 0xa5a5a5a5);
    DONE(COUNTS(1, 1, 4, track_isolate(lent.ranges, 18, 3, 4, 5, D)));
}

/* ---- Refusals, by their numbers: the edge that passes, and the one that does not ---- */

static void opening(void)
{
    static uint32_t many[TRACK_RANGES_LENGTH(65, 1, 1)];
    uint32_t *t = lent.scope.table;
    start();
    DONE(track_open_scope(t, many, 192, 64, 1, 1, EXCLUSIVE, UNINITIALIZED, COMPLEX, UNKNOWN));
    REFUSED(TRACK_NUMBERS_OUT_OF_LIMITS, 0, track_open_scope(t, many, 195, 65, 1, 1, EXCLUSIVE, UNINITIALIZED, COMPLEX, UNKNOWN));
    REFUSED(TRACK_NUMBERS_OUT_OF_LIMITS, 0, track_open_scope(t, many, 192, 0, 1, 1, EXCLUSIVE, UNINITIALIZED, COMPLEX, UNKNOWN));
    REFUSED(TRACK_FLAGS_BREAK_RULE, 0, track_open_scope(t, many, 192, 64, 1, 1, EXCLUSIVE, UNINITIALIZED, COMPLEX, 16));
    REFUSED(TRACK_FLAGS_BREAK_RULE, 0, open_tracker(&lent.tracker, EXCLUSIVE + COMPLEX));
    REFUSED(TRACK_FLAGS_BREAK_RULE, 0, open_tracker(&lent.tracker, EXCLUSIVE + 65536)); /* 17 bits */
    REFUSED(TRACK_SHORT_ROOM, 0, track_open_scope(t, many, 191, 64, 1, 1, EXCLUSIVE, UNINITIALIZED, COMPLEX, UNKNOWN));
    REFUSED(TRACK_SHORT_ROOM, 0, track_open_tracker(lent.tracker.table, lent.tracker.starts, RANGES, lent.tracker.ends, RANGES - 1,
                                                    N, M, W, EXCLUSIVE, UNINITIALIZED, COMPLEX, UNKNOWN, MASK));
    REFUSED(TRACK_SHORT_ROOM, 0, track_open_tracker(lent.tracker.table, lent.tracker.starts, RANGES - 1, lent.tracker.ends, RANGES,
                                                    N, M, W, EXCLUSIVE, UNINITIALIZED, COMPLEX, UNKNOWN, MASK));
}

static void lent_things(void)
{
    start(); /* 4: the table of a scope and of a tracker, damaged */
    DONE(merge(&lent.scope, 1, 8));
    DONE(set_all(&lent.tracker, 4));
    EXPECT(track_scope_is_well_formed(lent.scope.table, lent.scope.ranges, RANGES) == 1);
    EXPECT(track_scope_is_well_formed(lent.scope.table, lent.scope.ranges, RANGES - 1) == 0);
    EXPECT(track_tracker_is_well_formed(lent.tracker.table, lent.tracker.starts, RANGES, lent.tracker.ends, RANGES) == 1);
    EXPECT(track_tracker_is_well_formed(lent.tracker.table, lent.tracker.starts, RANGES, lent.tracker.ends, RANGES - 1) == 0);
    lent.scope.table[TRACK_START + 1] = 0;
    EXPECT(track_scope_is_well_formed(lent.scope.table, lent.scope.ranges, RANGES) == 0);
    REFUSED(TRACK_NOT_WELL_FORMED, 0, merge(&lent.scope, 0, 8));
    lent.tracker.table[TRACK_END] = 12;
    EXPECT(track_tracker_is_well_formed(lent.tracker.table, lent.tracker.starts, RANGES, lent.tracker.ends, RANGES) == 0);
    REFUSED(TRACK_NOT_WELL_FORMED, 0, SAME_HEAD(3, 4, set_at(&lent.tracker, 0, 0, 1, 0, 1, 8, 3, 4)));
    lent.tracker.table[TRACK_END] = 4;

    /* 5: heads that tell more than was lent, also where a sum would wrap */
    REFUSED(TRACK_LOG_TOO_SHORT, 0, SAME_HEAD(1, ENTRIES, set_at(&lent.tracker, 0, 0, 1, 0, 1, 8, 1, ENTRIES)));
    REFUSED(TRACK_LOG_TOO_SHORT, 0, SAME_HEAD(SIZE_MAX, 2, set_at(&lent.tracker, 0, 0, 1, 0, 1, 8, SIZE_MAX, 2)));
    REFUSED(TRACK_LOG_TOO_SHORT, 0, SAME_HEAD(ENTRIES, 1, track_empty_log(lent.log, LOG, ENTRIES, 1)));
    DONE(head_of(track_empty_log(lent.log, LOG, ENTRIES - 1, 1)));
    EXPECT(written == 0 && left == ENTRIES);

    start(); /* 6 */
    DONE(open_scope(&lent.other, EXCLUSIVE + 32));
    DONE(open_tracker(&lent.join, EXCLUSIVE + 32));
    REFUSED(TRACK_FLAGS_DIFFER, 0, merge_scope());
    REFUSED(TRACK_FLAGS_DIFFER, 0, SAME_HEAD(0, 0, join_at(RANGES, LOG, 0, 0)));
    REFUSED(TRACK_FLAGS_DIFFER, 0, SAME_HEAD(0, 0, from_scope_at(RANGES, 0, 0)));
}

/* A selector that a scope and a tracker refuse alike. */
#define SELECTOR(number, a, b, c, d) \
    (REFUSED((number), 0, merge_part(&lent.scope, (a), (b), (c), (d), 8)), \
     REFUSED((number), 0, SAME_HEAD(0, 0, set_at(&lent.tracker, 0, (a), (b), (c), (d), 8, 0, 0))))

/* Mips before layers, no length before reversed, and all of that before an end past the extent. */
static void selectors(void)
{
    const uint32_t most = UINT32_MAX;
    start();
    DONE(merge(&lent.scope, 0, 8));
    SELECTOR(TRACK_MIPS_EMPTY, 1, 1, 0, 4);
    SELECTOR(TRACK_MIPS_EMPTY, 5, 5, 0, 4);
    SELECTOR(TRACK_MIPS_EMPTY, 1, 1, 2, 2);
    SELECTOR(TRACK_MIPS_EMPTY, most, most, 3, 2);
    SELECTOR(TRACK_MIPS_REVERSED, 1, 0, 0, 4);
    SELECTOR(TRACK_MIPS_REVERSED, 5, 3, 0, 5);
    SELECTOR(TRACK_MIPS_REVERSED, 1, 0, 2, 2);
    SELECTOR(TRACK_MIPS_REVERSED, most, 0, 3, 2);
    SELECTOR(TRACK_LAYERS_EMPTY, 0, 1, 2, 2);
    SELECTOR(TRACK_LAYERS_EMPTY, 0, 1, 9, 9);
    SELECTOR(TRACK_LAYERS_EMPTY, 0, 3, 2, 2);
    SELECTOR(TRACK_LAYERS_EMPTY, 0, most, most, most);
    SELECTOR(TRACK_LAYERS_REVERSED, 0, 1, 3, 2);
    SELECTOR(TRACK_LAYERS_REVERSED, 0, 1, 9, 5);
    SELECTOR(TRACK_LAYERS_REVERSED, 0, 3, 3, 2);
    SELECTOR(TRACK_LAYERS_REVERSED, 0, most, most, 0);
    SELECTOR(TRACK_SELECTOR_PAST_EXTENT, 0, 1, 0, 5);
    SELECTOR(TRACK_SELECTOR_PAST_EXTENT, 0, 3, 0, 4);
    SELECTOR(TRACK_SELECTOR_PAST_EXTENT, 2, 3, 4, 5);
    DONE(merge_part(&lent.scope, 1, 2, 3, 4, 8));
    DONE(set(&lent.tracker, 1, 2, 3, 4, 8));

    /* between 9 and 12 */
    REFUSED(TRACK_EXTENT_DIFFERS, 0, track_merge_single(lent.scope.table, lent.scope.ranges, RANGES, 0, 1, W, 1, 1, 1, 0, 4, 8));
    REFUSED(TRACK_MIPS_EMPTY, 0, merge_part(&lent.scope, 1, 1, 0, 4, 0));
    REFUSED(TRACK_LAYERS_REVERSED, 0, merge_part(&lent.scope, 0, 1, 3, 2, UNKNOWN));
}

static void uses(void)
{
    struct scope *s = &lent.scope;
    start();
    DONE(merge(s, 1, 8));
    REFUSED(TRACK_NO_SUCH_INDEX, 2, merge(s, 2, 8));
    REFUSED(TRACK_NO_SUCH_INDEX, UINT32_MAX, merge(s, UINT32_MAX, 8));
    REFUSED(TRACK_EXTENT_OUT_OF_LIMITS, 1, track_merge_single(s->table, s->ranges, RANGES, 1, M + 1, W, 0, 0, 0, 0, 0, 8));
    REFUSED(TRACK_EXTENT_OUT_OF_LIMITS, 1, track_merge_single(s->table, s->ranges, RANGES, 1, M, 0, 0, 0, 0, 0, 0, 8));
    REFUSED(TRACK_EXTENT_DIFFERS, 1, track_merge_single(s->table, s->ranges, RANGES, 1, M, W - 1, 0, 0, 0, 0, 0, 8));
    REFUSED(TRACK_STATE_RESERVED, 0, merge(s, 0, 0));
    REFUSED(TRACK_STATE_RESERVED, 0, merge(s, 0, 8 + UNKNOWN));
    REFUSED(TRACK_STATE_RESERVED, 0, merge(s, 0, COMPLEX));
    REFUSED(TRACK_STATE_INCOMPATIBLE, 0, merge(s, 0, 24));
    DONE(merge_part(s, 0, 1, 0, 4, 16));

    /* the same of a tracker */
    REFUSED(TRACK_NO_SUCH_INDEX, 2, SAME_HEAD(0, 0, set_at(&lent.tracker, 2, 0, 1, 0, 1, 8, 0, 0)));
    REFUSED(TRACK_STATE_RESERVED, 0, SAME_HEAD(0, 0, set_at(&lent.tracker, 0, 0, 1, 0, 4, UNKNOWN, 0, 0)));
    REFUSED(TRACK_STATE_INCOMPATIBLE, 0, SAME_HEAD(0, 0, set_at(&lent.tracker, 0, 0, 1, 0, 4, 24, 0, 0)));

    start(); /* 9 of a scope's texture in a tracker */
    DONE(set_all(&lent.tracker, 4));
    DONE(track_merge_single(lent.other.table, lent.other.ranges, RANGES, 0, 1, W, 0, 0, 0, 0, 0, 8));
    REFUSED(TRACK_EXTENT_DIFFERS, 0, SAME_HEAD(0, 0, from_scope_at(RANGES, 0, 0)));

    start(); /* 9 of texture 0 and 8 of texture 1: a set is checked ascending, a list in its order */
    DONE(set_all(&lent.tracker, 4));
    DONE(track_open_scope(lent.other.table, lent.other.ranges, RANGES, 2, 1, 8, EXCLUSIVE, UNINITIALIZED, COMPLEX, UNKNOWN));
    DONE(track_merge_single(lent.other.table, lent.other.ranges, RANGES, 0, 1, W, 0, 0, 0, 0, 0, 8));
    DONE(track_merge_single(lent.other.table, lent.other.ranges, RANGES, 1, 1, 8, 0, 0, 0, 0, 0, 8));
    REFUSED(TRACK_EXTENT_DIFFERS, 0, SAME_HEAD(0, 0, from_scope_at(RANGES, 0, 0)));
    REFUSED(TRACK_EXTENT_OUT_OF_LIMITS, 1, SAME_HEAD(0, 0, sparse_at((const uint32_t[]){ 1, 0 }, 2, 0, 0)));

    start(); /* 15: the last free entry is used, one more is refused */
    DONE(set_all(&lent.tracker, 4));
    DONE(head_of(set_at(&lent.tracker, 0, 0, 1, 1, 3, 8, 0, 1)));
    EXPECT(written == 1 && left == 0);
    REFUSED(TRACK_NO_FREE_ENTRY, 0, SAME_HEAD(1, 0, set_at(&lent.tracker, 0, 0, 1, 0, 1, 8, 1, 0)));
}

int main(void)
{
    scopes();
    straddling();
    trackers();
    sets();
    ranged();
    range_ends();
    opening();
    lent_things();
    selectors();
    uses();
    printf("C boundary: B1 to B14, %u refusals that changed nothing, %u conflicts; %u comparisons hold\n", refusals, conflicts, checks);
    return 0;
}
