/* texture_tracker.h beside track.h: random calls are made through both, on memory of their own, and every answer and every number of the
 * memory is compared; then plans, the readers, the words, and what the typed header refuses by itself. */
#include "texture_tracker.h"

#include <stdbool.h>
#include <stdio.h>
#include <stdlib.h>
#include <string.h>

/* The sets of both sides; where the parts of a set lie in its memory is written here a second time. */
enum { N = 3, M = 2, W = 4, TABLE = 2376, RANGES = 3 * N * M * W, ENTRIES = N * M * W, LOG = 7 * ENTRIES, CALLS = 60000, ROUND = 30 };
enum { RECORDED = 5 }; /* entries of each log that is merged */
enum { EXCLUSIVE = 20, COMPLEX = 4096, UNKNOWN = 8192, MASK = 10 };
static struct sides {
    TT_SCOPE_MEMORY(scope[2], N, M, W);
    TT_TRACKER_MEMORY(tracker[2], N, M, W);
    TT_LOG_MEMORY(log, ENTRIES);
    TT_LOG_MEMORY(recorded[2], RECORDED);
} typed, plain;
static tt_scope scope[2];
static tt_tracker tracker[2];
static tt_log transitions, recorded[2];
static const tt_size size = { .textures = N, .mips = M, .layers = W };
static const tt_flags flags = { .exclusive = EXCLUSIVE, .uninitialized_bit = 1, .complex_bit = COMPLEX, .unknown_bit = UNKNOWN };

enum call { MERGE_SINGLE, MERGE_USAGE_SCOPE, SET_SINGLE, SET_FROM_USAGE_SCOPE, SET_FROM_TRACKER, SPARSE, EMPTY, MERGE_LOGS, KINDS };
static unsigned answers[KINDS][3], rests[2], checks;

static void expect(bool holds, int line, const char *what)
{
    checks++;
    if (holds) return;
    fprintf(stderr, "tests/c/typed.c:%d: %s\n", line, what);
    exit(1);
}
#define EXPECT(fact) expect((fact), __LINE__, #fact)

static uint32_t below(uint32_t n) /* xorshift: the same numbers in every run */
{
    static uint32_t x = 88172645u;
    x ^= x << 13;
    x ^= x >> 17;
    x ^= x << 5;
    return x % n;
}

/* ---- The same call on both sides ---- */

static void start(void)
{
    memset(&typed, 0xa5, sizeof typed);
    plain = typed;
    for (size_t k = 0; k < 2; k++) {
        EXPECT(tt_done(tt_open_scope(&scope[k], typed.scope[k], sizeof typed.scope[k], size, flags)));
        EXPECT(tt_done(tt_open_tracker(&tracker[k], typed.tracker[k], sizeof typed.tracker[k], size, flags, MASK)));
        uint32_t *s = plain.scope[k], *t = plain.tracker[k];
        EXPECT(tt_done(track_open_scope(s, s + TABLE, RANGES, N, M, W, EXCLUSIVE, 1, COMPLEX, UNKNOWN)));
        EXPECT(tt_done(track_open_tracker(t, t + TABLE, RANGES, t + TABLE + RANGES, RANGES, N, M, W,
                                          EXCLUSIVE, 1, COMPLEX, UNKNOWN, MASK)));
        EXPECT(tt_done(tt_open_log(&recorded[k], typed.recorded[k], sizeof typed.recorded[k])));
        plain.recorded[k][0] = 0;
        plain.recorded[k][1] = RECORDED;
    }
    EXPECT(tt_done(tt_open_log(&transitions, typed.log, sizeof typed.log)));
    plain.log[0] = 0;
    plain.log[1] = ENTRIES;
}

/* The plain side's head lies before its entries too. */
static track_answer take(track_logged_answer got)
{
    plain.log[0] = (uint32_t)got.written;
    plain.log[1] = (uint32_t)got.free;
    return got.answer;
}

static void same(enum call call, track_answer typed_answer, track_answer plain_answer)
{
    EXPECT(memcmp(&typed_answer, &plain_answer, sizeof typed_answer) == 0);
    EXPECT(memcmp(&typed, &plain, sizeof typed) == 0);
    EXPECT(tt_log_written(transitions) == plain.log[0] && tt_log_free(transitions) == plain.log[1]);
    answers[call][typed_answer.kind]++;
}

/* One use of a texture; some of them are refused. */
static void single(enum call call, uint32_t k)
{
    static const uint16_t states[] = { 2, 8, 10, 4, 16, 2, 8, 4, 8, 24 };
    const uint16_t state = states[below(10)];
    const tt_texture t = { .index = below(N + 1), .mips = below(12) == 0 ? 1 : M, .layers = below(12) == 0 ? 3 : W };
    tt_selector p = { .mips = tt_mip(below(M)), .layers = { .start = below(W), .end = 1 + below(W) } };
    if (below(4) == 0) p = tt_all(t);
    const uint32_t a = p.mips.start, b = p.mips.end, c = p.layers.start, d = p.layers.end;
    uint32_t *m = call == MERGE_SINGLE ? plain.scope[k] : plain.tracker[k], *e = m + TABLE + RANGES, *l = plain.log;
    if (call == MERGE_SINGLE) {
        same(call, tt_merge_single(scope[k], t, p, state),
             track_merge_single(m, m + TABLE, RANGES, t.index, t.mips, t.layers, 1, a, b, c, d, state));
    } else {
        same(call, tt_set_single(tracker[k], transitions, t, p, state),
             take(track_set_single(m, m + TABLE, RANGES, e, RANGES, t.index, t.mips, t.layers, a, b, c, d, state,
                                   l + 2, LOG, l[0], l[1])));
    }
}

static void over_sets(enum call call, uint32_t k)
{
    uint32_t *s = plain.scope[k], *g = plain.scope[1 - k], *t = plain.tracker[k], *u = plain.tracker[1 - k], *l = plain.log;
    uint32_t *e = t + TABLE + RANGES, *f = u + TABLE + RANGES;
    const uint32_t listed[] = { below(N), below(N), below(N + (below(4) == 0)) };
    switch (call) {
    case MERGE_USAGE_SCOPE:
        same(call, tt_merge_usage_scope(scope[k], scope[1 - k]), track_merge_usage_scope(s, s + TABLE, RANGES, g, g + TABLE, RANGES));
        break;
    case SET_FROM_USAGE_SCOPE:
        same(call, tt_set_from_usage_scope(tracker[k], transitions, scope[1 - k]),
             take(track_set_from_usage_scope(t, t + TABLE, RANGES, e, RANGES, g, g + TABLE, RANGES, l + 2, LOG, l[0], l[1])));
        break;
    case SET_FROM_TRACKER:
        same(call, tt_set_from_tracker(tracker[k], transitions, tracker[1 - k]),
             take(track_set_from_tracker(t, t + TABLE, RANGES, e, RANGES, u, u + TABLE, RANGES, f, RANGES, l + 2, LOG, l[0], l[1])));
        break;
    case SPARSE:
        same(call, tt_set_and_remove_from_usage_scope_sparse(tracker[k], transitions, scope[1 - k], TT_INDICES(listed)),
             take(track_set_and_remove_from_usage_scope_sparse(t, t + TABLE, RANGES, e, RANGES, g, g + TABLE, RANGES, listed, 3,
                                                               l + 2, LOG, l[0], l[1])));
        break;
    default:
        if (below(8) == 0) typed.log[1] = plain.log[1] = ENTRIES + 1; /* damaged: refused from here to the next round */
        same(call, tt_empty_log(transitions), take(track_empty_log(l + 2, LOG, l[0], l[1])));
    }
}

/* Writes a log by hand, on both sides: any numbers, by ascending texture but for one log in six. */
static void record(size_t k)
{
    const uint32_t written = below(RECORDED + 1), turned = below(6);
    uint32_t index = turned == 0 ? 9 : 0;
    for (uint32_t at = 2; at < 2 + 7 * RECORDED; at++) typed.recorded[k][at] = below(UINT32_MAX);
    for (uint32_t at = 0; at < written; at++) {
        index = turned == 0 ? index - below(2) : index + below(3);
        typed.recorded[k][2 + 7 * at] = index;
    }
    typed.recorded[k][0] = written;
    typed.recorded[k][1] = RECORDED - written;
    memcpy(plain.recorded[k], typed.recorded[k], sizeof typed.recorded[k]);
}

/* The rest is that of the plain call, entry by entry, and lies in the written entries of one log. */
static void same_rest(tt_rest rest, track_merged_answer got)
{
    const size_t k = got.rest_first != 0 ? 0 : 1;
    const uint32_t *log = typed.recorded[k] + 2, *end = log + 7 * typed.recorded[k][0];
    EXPECT(rest.numbers == log + got.rest_offset && 7 * rest.count == got.rest_length);
    EXPECT(log <= rest.numbers && rest.numbers <= end && rest.numbers + 7 * rest.count == end);
    for (size_t at = 0; at < rest.count; at++) {
        const tt_transition t = tt_rest_entry(rest, at);
        const uint32_t numbers[] = { t.index, t.part.mips.start, t.part.mips.end, t.part.layers.start, t.part.layers.end,
                                     t.old_state, t.new_state };
        EXPECT(memcmp(numbers, plain.recorded[k] + 2 + got.rest_offset + 7 * at, sizeof numbers) == 0);
    }
    EXPECT(tt_rest_entry(rest, rest.count).new_state == 0 && tt_rest_entry(rest, SIZE_MAX).index == 0);
    rests[k] += got.answer.kind == TRACK_DONE && rest.count > 0;
}

static void merge_logs(void)
{
    uint32_t *a = plain.recorded[0], *b = plain.recorded[1], *l = plain.log;
    tt_rest rest;
    record(0);
    record(1);
    const track_merged_answer got = track_merge_logs(a + 2, 7 * a[0], b + 2, 7 * b[0], l + 2, LOG, l[0], l[1]);
    const track_logged_answer head = { .answer = got.answer, .written = got.written, .free = got.free };
    same(MERGE_LOGS, tt_merge_logs(recorded[0], recorded[1], transitions, &rest), take(head));
    same_rest(rest, got);
}

/* ---- Reading back ---- */

/* Walks a mip range by range: the ranges are those of the memory, and they cover the layers. */
static void walk(const uint32_t *memory, size_t half, size_t ranges, tt_range (*read)(size_t, tt_place), size_t k, tt_place place)
{
    const uint32_t held = memory[half + place.index], layers = memory[TRACK_LAYERS + place.index];
    const uint32_t *numbers = memory + ranges + 3 * W * (M * place.index + place.mip), whole[] = { 0, layers, held };
    if (held != COMPLEX) numbers = whole;
    for (place.layer = 0; place.layer < layers; numbers += 3) {
        const tt_range range = read(k, place);
        EXPECT(range.layers.start == numbers[0] && range.layers.end == numbers[1] && range.state == numbers[2]);
        EXPECT(range.layers.start == place.layer && range.layers.end > place.layer && range.state != 0);
        place.layer = range.layers.end;
    }
    EXPECT(place.layer == layers && read(k, place).state == 0);
}

static tt_range in_scope(size_t k, tt_place place) { return tt_scope_range(scope[k], place); }
static tt_range in_start(size_t k, tt_place place) { return tt_start_range(tracker[k], place); }
static tt_range in_end(size_t k, tt_place place) { return tt_end_range(tracker[k], place); }

static void read_back(void)
{
    for (size_t k = 0; k < 2; k++) {
        EXPECT(tt_scope_is_well_formed(scope[k]) == 1 && tt_tracker_is_well_formed(tracker[k]) == 1);
        for (tt_place place = { .index = 0 }; place.index < N; place.index++) {
            const tt_texture in = tt_scope_texture(scope[k], place.index), of = tt_tracker_texture(tracker[k], place.index);
            EXPECT((in.mips == 0) == (typed.scope[k][TRACK_OWNED + place.index] == 0));
            EXPECT((of.mips == 0) == (typed.tracker[k][TRACK_OWNED + place.index] == 0));
            for (place.mip = 0; place.mip < in.mips; place.mip++) walk(typed.scope[k], TRACK_START, TABLE, in_scope, k, place);
            for (place.mip = 0; place.mip < of.mips; place.mip++) {
                walk(typed.tracker[k], TRACK_START, TABLE, in_start, k, place);
                walk(typed.tracker[k], TRACK_END, TABLE + RANGES, in_end, k, place);
            }
        }
    }
    for (size_t k = 0; k < plain.log[0] && plain.log[0] <= ENTRIES; k++) {
        const tt_transition t = tt_log_entry(transitions, k);
        const uint32_t numbers[] = { t.index, t.part.mips.start, t.part.mips.end, t.part.layers.start, t.part.layers.end,
                                     t.old_state, t.new_state };
        EXPECT(memcmp(numbers, plain.log + 2 + 7 * k, sizeof numbers) == 0);
    }
}

/* Whatever stands in the memory, a reader stays inside it: the set has a block of its own, for a checker of addresses to watch. */
static void read_damaged(void)
{
    static const uint32_t odd[] = { 0, 1, 2, 4, 15, 16, 63, 64, 255, 256, 257, 1u << 31, UINT32_MAX - 1, UINT32_MAX };
    enum { ODD = sizeof odd / sizeof *odd };
    uint32_t *memory = malloc(tt_tracker_bytes(size));
    tt_tracker damaged;
    if (memory == NULL || !tt_done(tt_open_tracker(&damaged, memory, tt_tracker_bytes(size), size, flags, MASK))) exit(1);
    for (unsigned k = 0; k < 100000; k++) {
        const tt_place place = { .index = odd[below(ODD)], .mip = odd[below(ODD)], .layer = odd[below(ODD)] };
        const uint32_t i = place.index % 64;
        memory[below(3)] = odd[below(ODD)];
        memory[TRACK_OWNED + i] = 1;
        memory[TRACK_MIPS + i] = odd[below(ODD)];
        memory[TRACK_LAYERS + i] = odd[below(ODD)];
        memory[TRACK_START + i] = memory[TRACK_END + i] = COMPLEX;
        memory[TRACK_START + TRACK_COUNTS + 16 * i + below(16)] = memory[TRACK_END + TRACK_COUNTS + 16 * i + below(16)] = odd[below(ODD)];
        (void)tt_start_state(damaged, place);
        (void)tt_end_state(damaged, place);
    }
    free(memory);
}

/* What reads as nothing: an index past N, a mip past the texture's, a mip with a count past W. */
static void read_nothing(void)
{
    const tt_texture t = { .index = 0, .mips = 1, .layers = W };
    const tt_selector one = { .mips = tt_mip(0), .layers = tt_layer(0) };
    start();
    EXPECT(typed.scope[0][TRACK_OWNED + N] != 0 && tt_scope_texture(scope[0], N).mips == 0);
    EXPECT(tt_done(tt_merge_single(scope[0], t, tt_all(t), 8)));
    EXPECT(tt_scope_state(scope[0], (tt_place){ .index = 0, .mip = 0, .layer = W - 1 }) == 8);
    EXPECT(tt_scope_state(scope[0], (tt_place){ .index = 0, .mip = 1, .layer = 0 }) == 0);
    EXPECT(tt_done(tt_merge_single(scope[0], t, one, 2)));
    EXPECT(tt_scope_state(scope[0], (tt_place){ .index = 0, .mip = 0, .layer = 0 }) == 10);
    typed.scope[0][TRACK_START + TRACK_COUNTS] = W + 1;
    EXPECT(tt_scope_state(scope[0], (tt_place){ .index = 0, .mip = 0, .layer = 0 }) == 0);
}

/* ---- What the header answers by itself ---- */

static bool refused(track_answer answer, uint32_t number)
{
    const track_answer want = { .kind = TRACK_REFUSED, .number = number };
    return memcmp(&answer, &want, sizeof want) == 0;
}

static void own_refusals(void)
{
    const tt_texture t = { .index = 0, .mips = M, .layers = W };
    const tt_scope no_scope = { NULL, 0 };
    const tt_tracker no_tracker = { NULL, 0 };
    const tt_log no_log = { NULL, 0 };
    start();
    EXPECT(refused(tt_merge_single(scope[0], t, tt_all(t), 65536 + 8), TT_STATE_PAST_16_BITS));
    EXPECT(refused(tt_merge_single(scope[0], t, tt_all(t), 65535), TRACK_STATE_RESERVED)); /* the library's: 16 bits go through */
    EXPECT(refused(tt_set_single(tracker[0], transitions, t, tt_all(t), UINT32_MAX), TT_STATE_PAST_16_BITS));
    EXPECT(refused(tt_merge_usage_scope(scope[0], scope[0]), TT_SAME_SET_TWICE));
    EXPECT(refused(tt_set_from_tracker(tracker[0], transitions, tracker[0]), TT_SAME_SET_TWICE));
    EXPECT(refused(tt_merge_single(no_scope, t, tt_all(t), 8), TRACK_NOT_WELL_FORMED));
    EXPECT(refused(tt_merge_usage_scope(scope[0], no_scope), TRACK_NOT_WELL_FORMED));
    EXPECT(refused(tt_merge_usage_scope(no_scope, scope[0]), TRACK_NOT_WELL_FORMED));
    EXPECT(refused(tt_set_single(no_tracker, transitions, t, tt_all(t), 8), TRACK_NOT_WELL_FORMED));
    EXPECT(refused(tt_set_single(tracker[0], no_log, t, tt_all(t), 8), TRACK_LOG_TOO_SHORT));
    EXPECT(refused(tt_set_from_usage_scope(tracker[0], transitions, no_scope), TRACK_NOT_WELL_FORMED));
    EXPECT(refused(tt_set_from_usage_scope(tracker[0], no_log, scope[0]), TRACK_LOG_TOO_SHORT));
    EXPECT(refused(tt_set_from_tracker(tracker[0], transitions, no_tracker), TRACK_NOT_WELL_FORMED));
    EXPECT(refused(tt_set_from_tracker(tracker[0], no_log, tracker[1]), TRACK_LOG_TOO_SHORT));
    EXPECT(refused(tt_set_and_remove_from_usage_scope_sparse(tracker[0], transitions, no_scope, tt_indices_of(NULL, 0)),
                   TRACK_NOT_WELL_FORMED));
    EXPECT(refused(tt_set_and_remove_from_usage_scope_sparse(tracker[0], no_log, scope[0], tt_indices_of(NULL, 0)), TRACK_LOG_TOO_SHORT));
    EXPECT(tt_done(tt_set_and_remove_from_usage_scope_sparse(tracker[0], transitions, scope[0], tt_indices_of(NULL, 0))));
    EXPECT(refused(tt_empty_log(no_log), TRACK_LOG_TOO_SHORT) && tt_log_written(no_log) == 0 && tt_log_free(no_log) == 0);
    EXPECT(tt_scope_is_well_formed(no_scope) == 0 && tt_tracker_is_well_formed(no_tracker) == 0);
    EXPECT(tt_scope_state(no_scope, (tt_place){ .index = 0 }) == 0 && tt_end_state(no_tracker, (tt_place){ .index = 0 }) == 0);
    EXPECT(tt_log_entry(no_log, 0).new_state == 0 && tt_log_entry(transitions, 0).new_state == 0);
    EXPECT(memcmp(typed.log + 1, (uint32_t[]){ ENTRIES }, 4) == 0);
}

static bool not_merged(tt_log first, tt_log second, tt_log third, uint32_t number)
{
    tt_rest rest = { typed.log, 1 };
    const struct sides before = typed;
    const track_answer answer = tt_merge_logs(first, second, third, &rest);
    return refused(answer, number) && rest.count == 0 && memcmp(&before, &typed, sizeof typed) == 0;
}

/* Logs that are not opened, that are damaged, and one that is both written and read. The first and the second may be the same. */
static void own_refusals_of_logs(void)
{
    const tt_log no_log = { NULL, 0 };
    tt_rest rest;
    start();
    EXPECT(not_merged(no_log, recorded[1], transitions, TRACK_LOG_TOO_SHORT));
    EXPECT(not_merged(recorded[0], no_log, transitions, TRACK_LOG_TOO_SHORT));
    EXPECT(not_merged(recorded[0], recorded[1], no_log, TRACK_LOG_TOO_SHORT));
    EXPECT(not_merged(transitions, recorded[1], transitions, TT_SAME_LOG_TWICE));
    EXPECT(not_merged(recorded[0], transitions, transitions, TT_SAME_LOG_TWICE));
    EXPECT(tt_done(tt_merge_logs(recorded[0], recorded[0], transitions, &rest)) && rest.count == 0);
    for (size_t k = 0; k < 2; k++) {
        for (size_t at = 0; at < 2; at++) {
            const uint32_t held = typed.recorded[k][at];
            typed.recorded[k][at] = held + 1;
            EXPECT(not_merged(recorded[0], recorded[1], transitions, TRACK_LOG_TOO_SHORT));
            typed.recorded[k][at] = UINT32_MAX;
            EXPECT(not_merged(recorded[0], recorded[1], transitions, TRACK_LOG_TOO_SHORT));
            typed.recorded[k][at] = held;
        }
    }
    typed.log[0]++;
    EXPECT(not_merged(recorded[0], recorded[1], transitions, TRACK_LOG_TOO_SHORT)); /* the library's */
}

/* ---- Plans ---- */

enum { PLANNED = 40, PLAN_BYTES = 18 * PLANNED };
_Static_assert(sizeof(tt_plan_item) == 16 && sizeof(tt_use) == 32, "as the library has them");

/* A use that fits a file's widths, and one with a number that is one too wide, if `wide` says which. */
static tt_use some_use(uint32_t wide)
{
    tt_use use = { .texture = { .index = below(UINT32_MAX), .mips = below(256), .layers = below(65536) } };
    use.part.mips.start = wide == 2 ? 256 : below(256);
    use.part.mips.end = wide == 3 ? UINT32_MAX : 255 - below(2);
    use.part.layers.start = wide == 4 ? 65536 : below(65536);
    use.part.layers.end = wide == 5 ? 65536 : 65535 - below(2);
    use.state = wide == 6 ? 65536 : below(65536);
    if (wide == 0) use.texture.mips = 256;
    if (wide == 1) use.texture.layers = 65536;
    return use;
}

/* A number that a file has no room for is not packed, and the item stays. */
static void packing(void)
{
    for (unsigned k = 0; k < 1000; k++) {
        const tt_use use = some_use(9);
        const tt_plan_item group = tt_group_closed();
        tt_plan_item item = tt_group_opened(), held = item;
        EXPECT(item.kind == 1 && group.kind == 3 && item.bytes[0] == 0 && group.bytes[14] == 0);
        for (uint32_t wide = 0; wide < 7; wide++) EXPECT(!tt_pack_use(some_use(wide), &item) && memcmp(&item, &held, 16) == 0);
        EXPECT(tt_pack_use(use, &item) && item.kind == 2);
        held = item;
        const tt_use back = tt_unpack_use(item);
        EXPECT(memcmp(&back, &use, sizeof use) == 0);
        item.kind = (uint8_t)(2 * below(2) + 1);
        EXPECT(tt_unpack_use(item).texture.index == 0 && tt_unpack_use(item).state == 0);
    }
}

/* Random items, groups mostly balanced, as through track.h: written, read back, and listed. */
static void plans(void)
{
    static tt_plan_item items[PLANNED], items_back[PLANNED], items_plain[PLANNED];
    static uint8_t file[PLAN_BYTES], file_plain[PLAN_BYTES];
    static tt_use uses[PLANNED];
    static uint32_t numbers[8 * PLANNED];
    unsigned refused_plans = 0;
    for (unsigned k = 0; k < 5000; k++) {
        const size_t count = below(PLANNED), room = below(4) == 0 ? below(PLAN_BYTES) : PLAN_BYTES;
        size_t open = 0, written, listed;
        tt_plan plan;
        for (size_t at = 0; at < count; at++) {
            const uint32_t turn = at + open < count ? below(4) : 3;
            items[at] = turn == 0 && at + open + 2 <= count ? tt_group_opened() : tt_group_closed();
            open += items[at].kind == 1;
            if (items[at].kind == 3 && (turn < 3 || open == 0)) EXPECT(tt_pack_use(some_use(9), &items[at]));
            open -= items[at].kind == 3;
        }
        const track_counted_answer want = track_write_plan(&items[0].kind, 16 * count, file_plain, room);
        const track_answer got = tt_write_plan(tt_plan_of(items, count), file, room, &written);
        EXPECT(memcmp(&got, &want.answer, sizeof got) == 0 && written == want.count && memcmp(file, file_plain, PLAN_BYTES) == 0);
        refused_plans += !tt_done(got);
        const size_t items_room = 16 * below(PLANNED) + below(16);
        const track_counted_answer read = track_read_plan(file_plain, written, &items_plain[0].kind, items_room);
        const track_answer again = tt_read_plan(&plan, file, written, items_back, items_room);
        EXPECT(memcmp(&again, &read.answer, sizeof again) == 0 && plan.count == read.count && plan.items == items_back);
        EXPECT(memcmp(items_back, items_plain, sizeof items_back) == 0);
        EXPECT(!tt_done(again) || written == 0 || memcmp(items_back, items, 16 * count) == 0);
        const track_counted_answer as_numbers = track_plan_uses(&items[0].kind, 16 * count, numbers, items_room / 4);
        const track_answer as_uses = tt_plan_uses(tt_plan_of(items, count), uses, items_room / 4 * 4 + below(4), &listed);
        EXPECT(memcmp(&as_uses, &as_numbers.answer, sizeof as_uses) == 0 && listed == as_numbers.count);
        EXPECT(memcmp(uses, numbers, 32 * listed) == 0);
    }
    EXPECT(refused_plans > 50 && refused_plans < 4000);
}

/* NULL where a length is 0, in all three calls; and what room is enough. */
static void empty_plans(void)
{
    static const uint8_t use[] = { 2, 15, 0, 1, 2, 3, 4, 5, 6, 7, 8, 9, 10, 11, 12, 13, 14, 15 };
    size_t count = 9;
    tt_plan plan;
    tt_plan_item item;
    EXPECT(tt_done(tt_read_plan(&plan, NULL, 0, NULL, 0)) && plan.count == 0);
    EXPECT(tt_done(tt_write_plan(plan, NULL, 0, &count)) && count == 0);
    EXPECT(tt_done(tt_plan_uses(tt_plan_of(NULL, 0), NULL, 0, &count)) && count == 0);
    EXPECT(refused(tt_read_plan(&plan, use, sizeof use, NULL, 0), TRACK_NO_FREE_ENTRY) && plan.count == 0);
    EXPECT(tt_done(tt_read_plan(&plan, use, sizeof use, &item, sizeof item)) && plan.count == 1);
    EXPECT(refused(tt_write_plan(plan, NULL, 0, &count), TRACK_NO_FREE_ENTRY) && count == 0);
    EXPECT(refused(tt_plan_uses(plan, NULL, 0, &count), TRACK_NO_FREE_ENTRY) && count == 0);
    EXPECT(refused(tt_read_plan(&plan, use, sizeof use - 1, &item, sizeof item), TRACK_FIELD_CUT_SHORT) && plan.count == 0);
    EXPECT(tt_items_bytes(18) == 16 * 12 && tt_file_bytes(3) == 54 && tt_uses_bytes(2) == 64 && tt_items_bytes(2) == 0);
}

/* Past the largest number there is none: what tt_mip and tt_layer make of it is empty. */
static void largest(void)
{
    const tt_texture t = { .index = 0, .mips = M, .layers = W };
    const tt_selector mip = { .mips = tt_mip(UINT32_MAX), .layers = tt_layer(0) };
    const tt_selector layer = { .mips = tt_mip(0), .layers = tt_layer(UINT32_MAX) };
    start();
    EXPECT(refused(tt_merge_single(scope[0], t, mip, 8), TRACK_MIPS_EMPTY));
    EXPECT(refused(tt_set_single(tracker[0], transitions, t, layer, 8), TRACK_LAYERS_EMPTY));
}

/* A refused opening leaves a handle that every call refuses; one byte less than is needed is too short. */
static void openings(void)
{
    uint32_t ranges_only[TABLE - 1];
    tt_scope s;
    tt_tracker t;
    tt_log l;
    tt_size large = { .textures = 65, .mips = M, .layers = W };
    start();
    EXPECT(tt_scope_bytes(size) == sizeof typed.scope[0] && tt_tracker_bytes(size) == sizeof typed.tracker[0]);
    EXPECT(tt_log_bytes(ENTRIES) == sizeof typed.log);
    EXPECT(refused(tt_open_scope(&s, typed.scope[0], tt_scope_bytes(size) - 1, size, flags), TRACK_SHORT_ROOM) && s.memory == NULL);
    EXPECT(refused(tt_open_scope(&s, ranges_only, sizeof ranges_only, size, flags), TRACK_SHORT_ROOM));
    EXPECT(refused(tt_open_scope(&s, NULL, SIZE_MAX, size, flags), TRACK_SHORT_ROOM));
    EXPECT(refused(tt_open_scope(&s, typed.scope[0], sizeof typed.scope[0], large, flags), TRACK_NUMBERS_OUT_OF_LIMITS));
    EXPECT(refused(tt_open_tracker(&t, typed.tracker[0], tt_tracker_bytes(size) - 1, size, flags, MASK), TRACK_SHORT_ROOM));
    EXPECT(refused(tt_open_tracker(&t, ranges_only, sizeof ranges_only, size, flags, MASK), TRACK_SHORT_ROOM) && t.memory == NULL);
    EXPECT(refused(tt_open_tracker(&t, typed.tracker[0], sizeof typed.tracker[0], size, flags, 65536), TT_STATE_PAST_16_BITS));
    EXPECT(refused(tt_open_log(&l, typed.log, 7), TRACK_LOG_TOO_SHORT) && l.memory == NULL);
    EXPECT(tt_done(tt_open_log(&l, typed.log, 8)) && tt_log_free(l) == 0);
    EXPECT(tt_done(tt_open_log(&l, typed.log, 4 * (2 + 7) + 27)) && tt_log_free(l) == 1);
    large.layers = large.mips = large.textures = UINT32_MAX;
    EXPECT(tt_scope_bytes(large) == 4 * (TABLE + (size_t)3 * 64 * 16 * 256));
}

static void words(void)
{
    char text[TT_STATE_NAME_SIZE], less[12];
    uint32_t every = 0;
    for (unsigned bit = 0; bit < 15; bit++) every |= 1u << bit;
    EXPECT(strcmp(tt_state_name(TRACK_USE_COPY_SRC | TRACK_USE_RESOURCE, text, sizeof text), "COPY_SRC|RESOURCE") == 0);
    EXPECT(strcmp(tt_state_name(TRACK_USE_UNKNOWN | 0x8000, text, sizeof text), "UNKNOWN|32768") == 0);
    EXPECT(strcmp(tt_state_name(0, text, sizeof text), "none") == 0);
    EXPECT(strcmp(tt_state_name(TRACK_USE_COPY_SRC | TRACK_USE_RESOURCE, less, sizeof less), "COPY_SRC|RE") == 0);
    EXPECT(strlen(tt_state_name(UINT32_MAX, text, sizeof text)) < TT_STATE_NAME_SIZE - 1);
    EXPECT(tt_state_name(8, NULL, 0) == NULL);
    EXPECT((TRACK_USE_EXCLUSIVE | TRACK_USE_ORDERED | every) == every);
    EXPECT(TRACK_USE_EXCLUSIVE == (TRACK_USE_PRESENT | TRACK_USE_COPY_DST | TRACK_USE_COLOR_TARGET | TRACK_USE_DEPTH_STENCIL_WRITE
                                   | TRACK_USE_STORAGE_WRITE_ONLY | TRACK_USE_STORAGE_READ_WRITE | TRACK_USE_STORAGE_ATOMIC));
    EXPECT(TRACK_USE_ORDERED == (TRACK_USE_COPY_SRC | TRACK_USE_RESOURCE | TRACK_USE_COLOR_TARGET | TRACK_USE_DEPTH_STENCIL_READ
                                 | TRACK_USE_DEPTH_STENCIL_WRITE | TRACK_USE_STORAGE_READ_ONLY));
    for (uint32_t number = 1; number <= TT_SAME_LOG_TWICE; number++) {
        const bool listed = (number <= 25 && number != 10) || number == 31; /* 10 is reserved */
        const bool known = listed || number >= TT_STATE_PAST_16_BITS;
        EXPECT((strcmp(tt_refusal_words(number), tt_refusal_words(0)) != 0) == known);
    }
    EXPECT(strcmp(tt_refusal_words(TRACK_LOG_OUT_OF_ORDER), "a log descends or stops inside an entry") == 0);
    EXPECT(strcmp(tt_refusal_words(TRACK_GROUPS_TOO_DEEP), "in a plan, groups stand more than eight deep") == 0);
    EXPECT(strcmp(tt_refusal_words(TRACK_MIPS_EMPTY), "the mips are empty: they end where they start") == 0);
    EXPECT(strcmp(tt_refusal_words(TRACK_MIPS_REVERSED), "the mips are reversed: they end before they start") == 0);
    EXPECT(strcmp(tt_refusal_words(TRACK_LAYERS_EMPTY), "the layers are empty: they end where they start") == 0);
    EXPECT(strcmp(tt_refusal_words(TRACK_LAYERS_REVERSED), "the layers are reversed: they end before they start") == 0);
}

int main(void)
{
    for (unsigned k = 0; k < CALLS; k++) {
        const enum call call = (enum call)(below(2) == 0 ? below(KINDS) : 2 * below(2)); /* half of them put single uses in */
        if (k % ROUND == 0) start();
        if (call == MERGE_SINGLE || call == SET_SINGLE) single(call, below(2));
        else if (call == MERGE_LOGS) merge_logs();
        else over_sets(call, below(2));
        if (k % 8 == 0) read_back();
    }
    for (unsigned call = 0; call < KINDS; call++) EXPECT(answers[call][TRACK_DONE] > 50 && answers[call][TRACK_REFUSED] > 50);
    EXPECT(answers[MERGE_SINGLE][TRACK_CONFLICT] > 50 && answers[MERGE_USAGE_SCOPE][TRACK_CONFLICT] > 50);
    EXPECT(rests[0] > 50 && rests[1] > 50);
    read_damaged();
    read_nothing();
    own_refusals();
    own_refusals_of_logs();
    packing();
    plans();
    empty_plans();
    largest();
    openings();
    words();
    printf("C typed header: %u calls as through track.h; %u comparisons hold\n", (unsigned)CALLS, checks);
    return 0;
}
