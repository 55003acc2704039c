/* How deep the calls go into the stack. No theorem bounds it, so it is measured: each call runs on a stack of its own that was painted
 * before, and the deepest byte that it wrote is looked for. Calls have random arguments, on textures with many ranges. */
#define _POSIX_C_SOURCE 200809L
#include "track.h"

#include <pthread.h>
#include <stdbool.h>
#include <stdio.h>
#include <stdlib.h>
#include <string.h>

enum { N = 8, M = 16, W = 256, ENTRIES = N * M * W, RANGES = 3 * ENTRIES, LOG = 7 * ENTRIES };
enum { DEPTH = 1 << 16, PAINT = 0xA5, CALLS = 2000, LIMIT = 4096 };

struct scope { uint32_t table[TRACK_TABLE_LENGTH], ranges[RANGES]; };
struct tracker { uint32_t table[TRACK_TABLE_LENGTH], starts[RANGES], ends[RANGES]; };
static struct scope scope, given;
static struct tracker tracker, join;
static uint32_t entries[LOG], first[7 * N], second[7 * N], listed[N], run[3 * W], filtered[3 * W];
/* A plan as deep as one may be: eight groups, a use in each, from the outermost to the innermost. */
enum { GROUPS = 8, FIELDS = 3 + 18, PLAN = GROUPS * FIELDS, ITEMS = 3 * GROUPS };
static uint8_t plan[PLAN], items[16 * ITEMS], again[PLAN];
static uint32_t uses[8 * GROUPS];
/* Uses whose file is so long that a group of it could be too long: it is measured before it is written. */
enum { LONG = 1 + 65538 / 18 };
static uint8_t long_items[16 * LONG], long_file[18 * LONG];
/* The use of a texture that the next call is given. */
static struct { uint32_t index, mip, mip_end, layer, layer_end; uint16_t state; } use;

static uint32_t below(uint32_t n)
{
    static uint32_t x = 1;
    x = x * 1664525u + 1013904223u;
    return (x >> 8) % n;
}

/* ---- The calls, and nothing else that would use the stack ---- */
static void nothing(void) {}
static void open_scope(void) { track_open_scope(scope.table, scope.ranges, RANGES, N, M, W, 20, 1, 4096, 8192); }
static void open_tracker(void)
{
    track_open_tracker(tracker.table, tracker.starts, RANGES, tracker.ends, RANGES, N, M, W, 20, 1, 4096, 8192, 10);
}
static void test_scope(void) { track_scope_is_well_formed(scope.table, scope.ranges, RANGES); }
static void test_tracker(void) { track_tracker_is_well_formed(tracker.table, tracker.starts, RANGES, tracker.ends, RANGES); }
static void merge_single(void)
{
    track_merge_single(scope.table, scope.ranges, RANGES, use.index, M, W, 1, use.mip, use.mip_end, use.layer, use.layer_end, use.state);
}
static void merge_usage_scope(void) { track_merge_usage_scope(scope.table, scope.ranges, RANGES, given.table, given.ranges, RANGES); }
static void set_single(void)
{
    track_set_single(tracker.table, tracker.starts, RANGES, tracker.ends, RANGES, use.index, M, W, use.mip, use.mip_end, use.layer,
                     use.layer_end, use.state, entries, LOG, 0, ENTRIES / 2);
}
static void set_from_usage_scope(void)
{
    track_set_from_usage_scope(tracker.table, tracker.starts, RANGES, tracker.ends, RANGES, given.table, given.ranges, RANGES,
                               entries, LOG, 0, ENTRIES / 2);
}
static void set_from_tracker(void)
{
    track_set_from_tracker(tracker.table, tracker.starts, RANGES, tracker.ends, RANGES, join.table, join.starts, RANGES, join.ends, RANGES,
                           entries, LOG, 0, ENTRIES / 2);
}
static void sparse(void)
{
    track_set_and_remove_from_usage_scope_sparse(tracker.table, tracker.starts, RANGES, tracker.ends, RANGES, given.table, given.ranges,
                                                 RANGES, listed, N, entries, LOG, 0, ENTRIES / 2);
}
static void empty_log(void) { track_empty_log(entries, LOG, 3, ENTRIES - 3); }
static void merge_logs(void) { track_merge_logs(first, 7 * N, second, 7 * N, entries, LOG, 3, ENTRIES - 3); }
static void isolate(void) { track_isolate(run, 3 * W, 3, 3, 11, 8192); }
static void coalesce(void) { track_coalesce(run, 3 * W, 3); }
static void iter_filter(void) { track_iter_filter(run, 3 * W, 3, 3, 11, filtered, 3 * W); }
static void read_plan(void) { track_read_plan(plan, PLAN, items, sizeof items); }
static void write_plan(void) { track_write_plan(items, sizeof items, again, sizeof again); }
static void write_long_plan(void) { track_write_plan(long_items, sizeof long_items, long_file, sizeof long_file); }
static void plan_uses(void) { track_plan_uses(items, sizeof items, uses, sizeof uses / sizeof *uses); }

struct call { const char *name; void (*make)(void); size_t deepest; };
static struct call calls[] = {
    {"open_scope", open_scope, 0}, {"open_tracker", open_tracker, 0}, {"scope_is_well_formed", test_scope, 0},
    {"tracker_is_well_formed", test_tracker, 0}, {"merge_single", merge_single, 0}, {"merge_usage_scope", merge_usage_scope, 0},
    {"set_single", set_single, 0}, {"set_from_usage_scope", set_from_usage_scope, 0}, {"set_from_tracker", set_from_tracker, 0},
    {"set_and_remove_from_usage_scope_sparse", sparse, 0}, {"empty_log", empty_log, 0}, {"merge_logs", merge_logs, 0},
    {"isolate", isolate, 0}, {"coalesce", coalesce, 0}, {"iter_filter", iter_filter, 0},
    {"read_plan", read_plan, 0}, {"write_plan", write_plan, 0}, {"write_plan of a long file", write_long_plan, 0},
    {"plan_uses", plan_uses, 0}
};
/* The last four, on plans, are the same each time: they are made once, and the others in turns that chance decides. */
enum { KINDS = sizeof calls / sizeof *calls, TURNS = KINDS - 4 };

/* ---- What they are given ---- */
/* A scope whose textures are in one state each, of all of it: what it is merged into may have many ranges. */
static void give_single(void)
{
    track_open_scope(given.table, given.ranges, RANGES, N, M, W, 20, 1, 4096, 8192);
    for (uint32_t i = 0; i < N; i++) track_merge_single(given.table, given.ranges, RANGES, i, M, W, 0, 0, M, 0, W, 8);
}

static void prepare(void)
{
    static const uint16_t states[] = {2, 4, 8, 10, 16, 32, 64};
    static const uint32_t three[] = {0, 4, 2, 4, 8, 2, 10, 12, 8};
    use.index = below(N);
    use.mip = below(M);
    use.mip_end = use.mip + 1 + below(M - use.mip);
    use.layer = below(W);
    use.layer_end = use.layer + 1 + below(W - use.layer);
    use.state = states[below(sizeof states / sizeof *states)];
    for (uint32_t i = 0; i < N; i++) {
        listed[i] = below(N);
        first[7 * i] = 2 * i + below(3); /* ascending */
        second[7 * i] = 2 * i + below(3);
    }
    if (below(8) == 0) given = scope;
    if (below(8) == 0) give_single();
    if (below(8) == 0) join = tracker;
    memcpy(run, three, sizeof three);
}

/* The plan is the same in every call. Read and written again it is the same bytes: so the readers have been to the innermost group. */
static bool plan_made(void)
{
    for (size_t k = 0; k < GROUPS; k++) {
        plan[FIELDS * k] = TRACK_TAG_GROUP;
        plan[FIELDS * k + 1] = (uint8_t)(PLAN - FIELDS * k - 3);
        plan[FIELDS * k + 3] = TRACK_TAG_USE;
        plan[FIELDS * k + 4] = 15;
    }
    for (size_t k = 0; k < LONG; k++) long_items[16 * k] = TRACK_ITEM_USE;
    read_plan();
    write_plan();
    write_long_plan();
    return memcmp(plan, again, PLAN) == 0 && long_file[18 * (LONG - 1)] == TRACK_TAG_USE;
}

/* ---- Measuring ---- */
static void *make(void *call)
{
    ((struct call *)call)->make();
    return NULL;
}

static size_t depth_of(struct call *call)
{
    static unsigned char *stack;
    pthread_attr_t attributes;
    pthread_t thread;
    size_t clean = 0;
    if (stack == NULL && posix_memalign((void **)&stack, 4096, DEPTH) != 0) exit(1);
    memset(stack, PAINT, DEPTH);
    if (pthread_attr_init(&attributes) != 0 || pthread_attr_setstack(&attributes, stack, DEPTH) != 0) exit(1);
    if (pthread_create(&thread, &attributes, make, call) != 0 || pthread_join(thread, NULL) != 0) exit(1);
    pthread_attr_destroy(&attributes);
    while (clean < DEPTH && stack[clean] == PAINT) clean++;
    return DEPTH - clean;
}

int main(void)
{
    struct call idle = {"nothing", nothing, 0};
    struct call *deepest = calls;
    bool shallow = true;
    if (!plan_made()) return 1;
    /* Once without measuring: the first call of memset is also the dynamic linker's, which looks for it on the same stack. */
    for (int k = 0; k < TURNS; k++) {
        prepare();
        calls[k].make();
    }
    depth_of(&idle);
    const size_t thread = depth_of(&idle); /* what the thread itself takes */
    for (int lap = 0; lap < CALLS; lap++) {
        struct call *call = &calls[lap < TURNS ? (uint32_t)lap : 2 + below(TURNS - 2)];
        prepare();
        const size_t depth = depth_of(call) - thread;
        if (depth > call->deepest) call->deepest = depth;
    }
    for (int k = TURNS; k < KINDS; k++) calls[k].deepest = depth_of(&calls[k]) - thread;
    for (int k = 0; k < KINDS; k++) {
        if (calls[k].deepest > deepest->deepest) deepest = &calls[k];
        if (calls[k].deepest > 0 && calls[k].deepest <= LIMIT) continue; /* a call that used nothing was not made */
        fprintf(stderr, "tests/c/stack.c: %s goes %zu bytes deep, where 1 to %d are expected\n", calls[k].name, calls[k].deepest, LIMIT);
        shallow = false;
    }
    printf("C stack: %d calls, the deepest is %s with %zu bytes; reading a plan eight groups deep takes %zu\n", CALLS, deepest->name,
           deepest->deepest, calls[TURNS].deepest);
    return shallow ? 0 : 1;
}
