/* The texture state tracker of wgpu-core, proved in Rattle, for C and C++. Link libtexture_tracker.a (x86-64 Linux).
 *
 * A scope gathers how the textures of one pass are used and finds conflicts. A tracker knows the state of each texture as commands leave
 * it and logs the transitions that a driver must be told of. Every call returns an answer: done, refused with a reason, or a conflict of
 * two uses. A refused call has changed nothing.
 *
 *     static TT_SCOPE_MEMORY(memory, 1, 4, 8);                                          // 1 texture of 4 mips and 8 layers
 *     const tt_size size = { .textures = 1, .mips = 4, .layers = 8 };
 *     const tt_texture beans = { .index = 0, .mips = 4, .layers = 8 };
 *     const tt_selector camera_5 = { .mips = tt_mip(0), .layers = tt_layer(5) };
 *     tt_scope pass;
 *     track_answer answer = tt_open_scope(&pass, memory, sizeof memory, size, tt_wgpu_flags());
 *     if (tt_done(answer)) answer = tt_merge_single(pass, beans, tt_all(beans), TRACK_USE_RESOURCE);
 *     if (tt_done(answer)) answer = tt_merge_single(pass, beans, camera_5, TRACK_USE_COPY_DST);
 *     // answer.kind is TRACK_CONFLICT, answer.layer_start 5, answer.old_state TRACK_USE_RESOURCE
 *
 * A pass in conflict must not run: open its scope again, and do not hand it to a tracker, since part of the rejected use may be in it.
 *
 * A first use is taken as what the texture already is, and nothing is logged. In a device's tracker set each new texture to
 * TRACK_USE_UNINITIALIZED first, all of it; otherwise the driver is not told of its first uses.
 *
 * A plan of uses is read from a file and written to one (tt_read_plan, tt_write_plan); what tt_plan_uses lists of it can be merged, use by
 * use.
 *
 * This header only forms the calls of track.h, which has the answers, the refusals and the layout of the memory; the library decides. Three
 * refusals are this header's own (enum tt_refusal). The calls on ranges by themselves are in track.h alone.
 *
 * What the calls require of their caller: memory is as long as it is said to be and serves one set, log or plan only, and nobody else
 * writes it while a call runs. Calls on different memory may run at the same time.
 */
#ifndef TEXTURE_TRACKER_H
#define TEXTURE_TRACKER_H

#include "track.h"

/* An answer that is not looked at is a warning. */
#if defined(__GNUC__)
#define TT_CALL static inline __attribute__((warn_unused_result))
#else
#define TT_CALL static inline
#endif

/* A struct whose fields are initialised by name: gcc warns, in C, of any that is not, of `{ 0 }` too. */
#define TT_BY_NAME
#if defined(__has_attribute) && !defined(__cplusplus)
#if __has_attribute(designated_init)
#undef TT_BY_NAME
#define TT_BY_NAME __attribute__((designated_init))
#endif
#endif

/* ---- wgpu's texture uses ----------------------------------------------------------------------------------------------------- */

/* A state is one or more uses, 16 bits. The tracker knows none of these by itself: a set is opened with the flags that tell it what it must
 * know, and takes any others as well. */
#define TRACK_USE_UNINITIALIZED (1u << 0)
#define TRACK_USE_PRESENT (1u << 1)
#define TRACK_USE_COPY_SRC (1u << 2)
#define TRACK_USE_COPY_DST (1u << 3)
#define TRACK_USE_RESOURCE (1u << 4)
#define TRACK_USE_COLOR_TARGET (1u << 5)
#define TRACK_USE_DEPTH_STENCIL_READ (1u << 6)
#define TRACK_USE_DEPTH_STENCIL_WRITE (1u << 7)
#define TRACK_USE_STORAGE_READ_ONLY (1u << 8)
#define TRACK_USE_STORAGE_WRITE_ONLY (1u << 9)
#define TRACK_USE_STORAGE_READ_WRITE (1u << 10)
#define TRACK_USE_STORAGE_ATOMIC (1u << 11)
#define TRACK_USE_TRANSIENT (1u << 12)
#define TRACK_USE_COMPLEX (1u << 13) /* no use: marks a texture whose subresources differ */
#define TRACK_USE_UNKNOWN (1u << 14) /* no use: nothing is known of a subresource */

/* The uses that write: PRESENT, COPY_DST, COLOR_TARGET, DEPTH_STENCIL_WRITE, STORAGE_WRITE_ONLY, _READ_WRITE and _ATOMIC. */
#define TRACK_USE_EXCLUSIVE 0x0eaau
/* The uses that hardware commonly keeps in order by itself: COPY_SRC, RESOURCE, COLOR_TARGET, DEPTH_STENCIL_READ, DEPTH_STENCIL_WRITE and
 * STORAGE_READ_ONLY. wgpu asks the device for them. */
#define TRACK_USE_ORDERED 0x01f4u

/* ---- Values ------------------------------------------------------------------------------------------------------------------ */

/* What a set is opened for: at most 64 textures, each of at most 16 mips and 256 layers. */
typedef struct TT_BY_NAME tt_size { uint32_t textures, mips, layers; } tt_size;

/* What a set must know of the uses. exclusive is the mask of those that suffer no other beside them; the others are one bit each. */
typedef struct TT_BY_NAME tt_flags { uint32_t exclusive, uninitialized_bit, complex_bit, unknown_bit; } tt_flags;

/* A texture: where it stands in every set, and how many mips and layers it has. */
typedef struct TT_BY_NAME tt_texture { uint32_t index, mips, layers; } tt_texture;

/* Mips, or layers, from start up to, not including, end: two types, so that one is not taken for the other. */
typedef struct tt_mips { uint32_t start, end; } tt_mips;
typedef struct tt_layers { uint32_t start, end; } tt_layers;

/* Some mips and some layers of a texture. */
typedef struct tt_selector { tt_mips mips; tt_layers layers; } tt_selector;

/* A list of textures. */
typedef struct TT_BY_NAME tt_indices { const uint32_t *indices; size_t count; } tt_indices;

/* One subresource of a set. */
typedef struct TT_BY_NAME tt_place { uint32_t index, mip, layer; } tt_place;

/* Neighbouring layers of a mip in one state. State 0: there is no such subresource, or the set does not own the texture. */
typedef struct tt_range { tt_layers layers; uint32_t state; } tt_range;

/* An entry of a log. */
typedef struct tt_transition { uint32_t index; tt_selector part; uint32_t old_state, new_state; } tt_transition;

/* A use of a part of a texture: what tt_merge_single takes, as a plan has it. */
typedef struct tt_use { tt_texture texture; tt_selector part; uint32_t state; } tt_use;

/* An item of a plan, by its kind: TRACK_ITEM_OPENED, TRACK_ITEM_USE or TRACK_ITEM_CLOSED. bytes is the use as a file has it; tt_pack_use
 * and tt_unpack_use know how. */
typedef struct tt_plan_item { uint8_t kind, bytes[TRACK_ITEM_LENGTH - 1]; } tt_plan_item;

/* A plan: so many items, in memory that it borrows. One that is zero is the empty plan. */
typedef struct TT_BY_NAME tt_plan { const tt_plan_item *items; size_t count; } tt_plan;

/* A scope, a tracker and a log: handles of borrowed memory. A copy of a handle stands for the same set or log, the head of the log
 * included. A handle that is zero, or whose opening was refused, is refused by every call. */
typedef struct tt_scope { uint32_t *memory; size_t length; } tt_scope;
typedef struct tt_tracker { uint32_t *memory; size_t length; } tt_tracker;
typedef struct tt_log { uint32_t *memory; size_t length; } tt_log;

/* What a merge of two logs leaves of one of them: so many entries, seven numbers each, in the memory of that log. */
typedef struct tt_rest { const uint32_t *numbers; size_t count; } tt_rest;

/* track_answer.number, beside enum track_refusal: what this header refuses before the library is called. */
enum tt_refusal {
    TT_STATE_PAST_16_BITS = 1001, /* the state, or a tracker's ordered mask, is above 65,535 */
    TT_SAME_SET_TWICE = 1002,     /* a set is passed in as the other one as well */
    TT_SAME_LOG_TWICE = 1003      /* a log is passed in to be written and to be read */
};

static inline tt_flags tt_wgpu_flags(void)
{
    tt_flags flags;
    flags.exclusive = TRACK_USE_EXCLUSIVE;
    flags.uninitialized_bit = TRACK_USE_UNINITIALIZED;
    flags.complex_bit = TRACK_USE_COMPLEX;
    flags.unknown_bit = TRACK_USE_UNKNOWN;
    return flags;
}

/* One mip, and one layer. Past the largest number there is none: of that it is empty, which a call refuses (16, 18). */
static inline tt_mips tt_mip(uint32_t mip)
{
    tt_mips mips;
    mips.start = mip;
    mips.end = mip == UINT32_MAX ? mip : mip + 1;
    return mips;
}

static inline tt_layers tt_layer(uint32_t layer)
{
    tt_layers layers;
    layers.start = layer;
    layers.end = layer == UINT32_MAX ? layer : layer + 1;
    return layers;
}

/* All mips and layers of a texture. One mip of all layers is { .mips = tt_mip(1), .layers = tt_all(texture).layers }; one layer of all
 * mips is { .mips = tt_all(texture).mips, .layers = tt_layer(5) }. */
static inline tt_selector tt_all(tt_texture texture)
{
    tt_selector all;
    all.mips.start = 0;
    all.mips.end = texture.mips;
    all.layers.start = 0;
    all.layers.end = texture.layers;
    return all;
}

/* A list of so many indices; of an array, TT_INDICES(array), which does not compile with a pointer. */
static inline tt_indices tt_indices_of(const uint32_t *indices, size_t count)
{
    tt_indices listed;
    listed.indices = indices;
    listed.count = count;
    return listed;
}

#if defined(__GNUC__) && !defined(__cplusplus)
#define TT_IS_POINTER(array) __builtin_types_compatible_p(__typeof__(array), __typeof__(&(array)[0]))
#else
#define TT_IS_POINTER(array) 0
#endif
#define TT_COUNT(array) (sizeof(array) / sizeof *(array) / sizeof(char[TT_IS_POINTER(array) ? -1 : 1]))
#define TT_INDICES(array) tt_indices_of((array), TT_COUNT(array))

/* A plan of so many items; of an array, TT_PLAN(array). */
static inline tt_plan tt_plan_of(const tt_plan_item *items, size_t count)
{
    tt_plan plan;
    plan.items = items;
    plan.count = count;
    return plan;
}
#define TT_PLAN(array) tt_plan_of((array), TT_COUNT(array))

TT_CALL int tt_done(track_answer answer)
{
    return answer.kind == TRACK_DONE;
}

/* ---- Memory ------------------------------------------------------------------------------------------------------------------ */

/* Each declares an array: `static TT_SCOPE_MEMORY(memory, 2, 4, 8);`, which is passed in as `memory, sizeof memory`. A call of a tracker
 * needs at most as many entries of the log as it has subresources, textures * mips * layers, at 28 bytes each. */
#define TT_SCOPE_MEMORY(name, textures, mips, layers) \
    uint32_t name[TRACK_TABLE_LENGTH + TRACK_RANGES_LENGTH(textures, mips, layers)]
#define TT_TRACKER_MEMORY(name, textures, mips, layers) \
    uint32_t name[TRACK_TABLE_LENGTH + 2 * TRACK_RANGES_LENGTH(textures, mips, layers)]
#define TT_LOG_MEMORY(name, entries) \
    uint32_t name[TT_LOG_HEAD + TRACK_LOG_LENGTH(entries)]
/* The same for what a plan is read from and written to: room for the items of any file of so many bytes, and for the file and the uses of
 * any so many items. Each has one more, since an array has at least one element. */
#define TT_ITEMS_MEMORY(name, bytes) tt_plan_item name[1 + TRACK_ITEMS_LENGTH(bytes) / TRACK_ITEM_LENGTH]
#define TT_FILE_MEMORY(name, items) uint8_t name[1 + TRACK_FILE_LENGTH(items)]
#define TT_USES_MEMORY(name, items) tt_use name[1 + (size_t)(items)]

/* A log's memory begins with its head: entries written, entries free. */
#define TT_LOG_HEAD 2

/* Numbers past their limit count as the limit: opening is refused there, whatever the memory. */
static inline size_t tt_subresources(tt_size size)
{
    const size_t textures = size.textures < TRACK_MAX_TEXTURES ? size.textures : TRACK_MAX_TEXTURES;
    const size_t mips = size.mips < TRACK_MAX_MIPS ? size.mips : TRACK_MAX_MIPS;
    const size_t layers = size.layers < TRACK_MAX_LAYERS ? size.layers : TRACK_MAX_LAYERS;
    return textures * mips * layers;
}

/* How many bytes a set or a log needs, for malloc. */
static inline size_t tt_scope_bytes(tt_size size)
{
    return sizeof(uint32_t) * (TRACK_TABLE_LENGTH + TRACK_RANGE_LENGTH * tt_subresources(size));
}

static inline size_t tt_tracker_bytes(tt_size size)
{
    return sizeof(uint32_t) * (TRACK_TABLE_LENGTH + 2 * TRACK_RANGE_LENGTH * tt_subresources(size));
}

static inline size_t tt_log_bytes(uint32_t entries)
{
    return sizeof(uint32_t) * (TT_LOG_HEAD + TRACK_LOG_LENGTH(entries));
}

/* How many bytes the items of a file of so many bytes need at most, and the file and the uses of so many items. */
static inline size_t tt_items_bytes(size_t file_bytes)
{
    return TRACK_ITEMS_LENGTH(file_bytes);
}

static inline size_t tt_file_bytes(size_t items)
{
    return TRACK_FILE_LENGTH(items);
}

static inline size_t tt_uses_bytes(size_t items)
{
    return sizeof(uint32_t) * TRACK_PLAN_USES_LENGTH(items);
}

/* ---- Where a handle's parts lie: for this header only ------------------------------------------------------------------------ */

static inline track_answer tt_refused(uint32_t number)
{
    track_answer answer = { TRACK_REFUSED, 0, 0, 0, 0, 0, 0, 0, 0, 0 };
    answer.number = number;
    return answer;
}

static inline uint32_t *tt_ranges(tt_scope scope)
{
    return scope.memory + TRACK_TABLE_LENGTH;
}

static inline size_t tt_ranges_length(tt_scope scope)
{
    return scope.length - TRACK_TABLE_LENGTH;
}

/* A tracker's starts and ends lie one after the other, each as long. */
static inline size_t tt_half_length(tt_tracker tracker)
{
    return (tracker.length - TRACK_TABLE_LENGTH) / 2;
}

static inline uint32_t *tt_starts(tt_tracker tracker)
{
    return tracker.memory + TRACK_TABLE_LENGTH;
}

static inline uint32_t *tt_ends(tt_tracker tracker)
{
    return tt_starts(tracker) + tt_half_length(tracker);
}

static inline uint32_t *tt_entries(tt_log log)
{
    return log.memory + TT_LOG_HEAD;
}

static inline size_t tt_entries_length(tt_log log)
{
    return log.length - TT_LOG_HEAD;
}

/* Whether the entries that a log tells of are in its memory. */
static inline int tt_log_holds(tt_log log)
{
    if (log.memory == NULL) return 0;
    return (size_t)log.memory[0] + log.memory[1] <= tt_entries_length(log) / TRACK_LOG_ENTRY_LENGTH;
}

static inline tt_transition tt_entry_in(const uint32_t *numbers)
{
    tt_transition entry;
    entry.index = numbers[0];
    entry.part.mips.start = numbers[1];
    entry.part.mips.end = numbers[2];
    entry.part.layers.start = numbers[3];
    entry.part.layers.end = numbers[4];
    entry.old_state = numbers[5];
    entry.new_state = numbers[6];
    return entry;
}

static inline track_answer tt_head_taken(tt_log log, track_logged_answer logged)
{
    log.memory[0] = (uint32_t)logged.written;
    log.memory[1] = (uint32_t)logged.free;
    return logged.answer;
}

/* ---- Opening ----------------------------------------------------------------------------------------------------------------- */

/* Opens a scope that owns no texture yet in so many bytes of memory, which need not be cleared first. Open it again in the same memory
 * before each pass: that empties it. Refuses 1, 2, 3. */
TT_CALL track_answer tt_open_scope(tt_scope *scope, uint32_t *memory, size_t bytes, tt_size size, tt_flags flags)
{
    tt_scope opened;
    track_answer answer;
    opened.memory = memory;
    opened.length = bytes / sizeof *memory;
    scope->memory = NULL;
    scope->length = 0;
    if (memory == NULL || opened.length < TRACK_TABLE_LENGTH) return tt_refused(TRACK_SHORT_ROOM);
    answer = track_open_scope(memory, tt_ranges(opened), tt_ranges_length(opened), size.textures, size.mips, size.layers,
                              flags.exclusive, flags.uninitialized_bit, flags.complex_bit, flags.unknown_bit);
    if (answer.kind == TRACK_DONE) *scope = opened;
    return answer;
}

/* The same for a tracker. ordered is the mask of ordered states: a transition from a state to itself is left out if the mask holds that
 * state. Refuses 1, 2, 3, 1001. */
TT_CALL track_answer tt_open_tracker(tt_tracker *tracker, uint32_t *memory, size_t bytes, tt_size size, tt_flags flags, uint32_t ordered)
{
    tt_tracker opened;
    track_answer answer;
    opened.memory = memory;
    opened.length = bytes / sizeof *memory;
    tracker->memory = NULL;
    tracker->length = 0;
    if (ordered > UINT16_MAX) return tt_refused(TT_STATE_PAST_16_BITS);
    if (memory == NULL || opened.length < TRACK_TABLE_LENGTH) return tt_refused(TRACK_SHORT_ROOM);
    answer = track_open_tracker(memory, tt_starts(opened), tt_half_length(opened), tt_ends(opened), tt_half_length(opened),
                                size.textures, size.mips, size.layers,
                                flags.exclusive, flags.uninitialized_bit, flags.complex_bit, flags.unknown_bit, (uint16_t)ordered);
    if (answer.kind == TRACK_DONE) *tracker = opened;
    return answer;
}

/* Opens a log whose entries are all free. Refuses 5, if the memory is too short for its head. */
TT_CALL track_answer tt_open_log(tt_log *log, uint32_t *memory, size_t bytes)
{
    const size_t length = bytes / sizeof *memory;
    size_t entries;
    track_logged_answer logged;
    log->memory = NULL;
    log->length = 0;
    if (memory == NULL || length < TT_LOG_HEAD) return tt_refused(TRACK_LOG_TOO_SHORT);
    entries = (length - TT_LOG_HEAD) / TRACK_LOG_ENTRY_LENGTH;
    if (entries > UINT32_MAX) entries = UINT32_MAX; /* the head is two numbers of 32 bits; more room is ignored */
    log->memory = memory;
    log->length = TT_LOG_HEAD + TRACK_LOG_LENGTH(entries);
    logged = track_empty_log(tt_entries(*log), tt_entries_length(*log), 0, entries);
    return tt_head_taken(*log, logged);
}

/* ---- Merging into a scope ---------------------------------------------------------------------------------------------------- */

/* One use of a part of a texture. Refuses 4, 7 to 9, 16 to 19, 11 to 13, 1001. */
TT_CALL track_answer tt_merge_single(tt_scope scope, tt_texture texture, tt_selector part, uint32_t state)
{
    if (scope.memory == NULL) return tt_refused(TRACK_NOT_WELL_FORMED);
    if (state > UINT16_MAX) return tt_refused(TT_STATE_PAST_16_BITS);
    return track_merge_single(scope.memory, tt_ranges(scope), tt_ranges_length(scope), texture.index, texture.mips, texture.layers,
                              1, part.mips.start, part.mips.end, part.layers.start, part.layers.end, (uint16_t)state);
}

/* All textures of another scope, by ascending index, up to the first conflict. Refuses 4, 6 to 9, 1002. */
TT_CALL track_answer tt_merge_usage_scope(tt_scope scope, tt_scope given)
{
    if (scope.memory == NULL || given.memory == NULL) return tt_refused(TRACK_NOT_WELL_FORMED);
    if (scope.memory == given.memory) return tt_refused(TT_SAME_SET_TWICE);
    return track_merge_usage_scope(scope.memory, tt_ranges(scope), tt_ranges_length(scope),
                                   given.memory, tt_ranges(given), tt_ranges_length(given));
}

/* ---- The calls of a tracker: each logs the transitions that its uses make necessary, and none returns a conflict ------------- */

/* One use of a part of a texture. Refuses 4, 5, 7 to 9, 16 to 19, 11 to 13, 15, 1001. */
TT_CALL track_answer tt_set_single(tt_tracker tracker, tt_log log, tt_texture texture, tt_selector part, uint32_t state)
{
    if (tracker.memory == NULL) return tt_refused(TRACK_NOT_WELL_FORMED);
    if (log.memory == NULL) return tt_refused(TRACK_LOG_TOO_SHORT);
    if (state > UINT16_MAX) return tt_refused(TT_STATE_PAST_16_BITS);
    return tt_head_taken(log, track_set_single(
        tracker.memory, tt_starts(tracker), tt_half_length(tracker), tt_ends(tracker), tt_half_length(tracker),
        texture.index, texture.mips, texture.layers,
        part.mips.start, part.mips.end, part.layers.start, part.layers.end, (uint16_t)state,
        tt_entries(log), tt_entries_length(log), log.memory[0], log.memory[1]));
}

/* All textures of a scope, by ascending index. Refuses 4 to 9, 15. */
TT_CALL track_answer tt_set_from_usage_scope(tt_tracker tracker, tt_log log, tt_scope given)
{
    if (tracker.memory == NULL || given.memory == NULL) return tt_refused(TRACK_NOT_WELL_FORMED);
    if (log.memory == NULL) return tt_refused(TRACK_LOG_TOO_SHORT);
    return tt_head_taken(log, track_set_from_usage_scope(
        tracker.memory, tt_starts(tracker), tt_half_length(tracker), tt_ends(tracker), tt_half_length(tracker),
        given.memory, tt_ranges(given), tt_ranges_length(given),
        tt_entries(log), tt_entries_length(log), log.memory[0], log.memory[1]));
}

/* All textures of another tracker, by ascending index: transitions go to the other's start, and its end is what they leave. Refuses 4 to
 * 9, 15, 1002. */
TT_CALL track_answer tt_set_from_tracker(tt_tracker tracker, tt_log log, tt_tracker given)
{
    if (tracker.memory == NULL || given.memory == NULL) return tt_refused(TRACK_NOT_WELL_FORMED);
    if (log.memory == NULL) return tt_refused(TRACK_LOG_TOO_SHORT);
    if (tracker.memory == given.memory) return tt_refused(TT_SAME_SET_TWICE);
    return tt_head_taken(log, track_set_from_tracker(
        tracker.memory, tt_starts(tracker), tt_half_length(tracker), tt_ends(tracker), tt_half_length(tracker),
        given.memory, tt_starts(given), tt_half_length(given), tt_ends(given), tt_half_length(given),
        tt_entries(log), tt_entries_length(log), log.memory[0], log.memory[1]));
}

/* The listed textures of a scope, in the list's order; the scope (given) then owns them no more. Textures that it does not own are passed
 * over, and one listed twice counts once. Refuses 4 to 9, 15. */
TT_CALL track_answer tt_set_and_remove_from_usage_scope_sparse(tt_tracker tracker, tt_log log, tt_scope given, tt_indices listed)
{
    static const uint32_t none = 0; /* the library takes no NULL */
    if (tracker.memory == NULL || given.memory == NULL) return tt_refused(TRACK_NOT_WELL_FORMED);
    if (log.memory == NULL) return tt_refused(TRACK_LOG_TOO_SHORT);
    return tt_head_taken(log, track_set_and_remove_from_usage_scope_sparse(
        tracker.memory, tt_starts(tracker), tt_half_length(tracker), tt_ends(tracker), tt_half_length(tracker),
        given.memory, tt_ranges(given), tt_ranges_length(given),
        listed.count == 0 ? &none : listed.indices, listed.count,
        tt_entries(log), tt_entries_length(log), log.memory[0], log.memory[1]));
}

/* ---- The log ----------------------------------------------------------------------------------------------------------------- */

/* Empties a log, once the driver has its transitions. Refuses 5. */
TT_CALL track_answer tt_empty_log(tt_log log)
{
    if (log.memory == NULL) return tt_refused(TRACK_LOG_TOO_SHORT);
    return tt_head_taken(log, track_empty_log(tt_entries(log), tt_entries_length(log), log.memory[0], log.memory[1]));
}

/* Merges two logs into a third, after what is written there, until one of the two is used up: the lower texture goes first, and of equal
 * ones the first log's entry. The rest of the other log is not copied: it is to be read before that log changes. On a refusal it is empty.
 * A log whose textures descend, as those of several calls or of a sparse one may, is 31. Refuses 5, 31, 15, 1003. */
TT_CALL track_answer tt_merge_logs(tt_log first, tt_log second, tt_log third, tt_rest *rest)
{
    track_merged_answer merged;
    track_logged_answer logged;
    rest->numbers = NULL;
    rest->count = 0;
    if (!tt_log_holds(first) || !tt_log_holds(second) || third.memory == NULL) return tt_refused(TRACK_LOG_TOO_SHORT);
    if (third.memory == first.memory || third.memory == second.memory) return tt_refused(TT_SAME_LOG_TWICE);
    merged = track_merge_logs(tt_entries(first), TRACK_LOG_LENGTH(first.memory[0]), tt_entries(second), TRACK_LOG_LENGTH(second.memory[0]),
                              tt_entries(third), tt_entries_length(third), third.memory[0], third.memory[1]);
    rest->numbers = tt_entries(merged.rest_first != 0 ? first : second) + merged.rest_offset;
    rest->count = merged.rest_length / TRACK_LOG_ENTRY_LENGTH;
    logged.answer = merged.answer;
    logged.written = merged.written;
    logged.free = merged.free;
    return tt_head_taken(third, logged);
}

static inline size_t tt_log_written(tt_log log)
{
    return log.memory == NULL ? 0 : log.memory[0];
}

static inline size_t tt_log_free(tt_log log)
{
    return log.memory == NULL ? 0 : log.memory[1];
}

/* Entry k of those written, the oldest first; all zeros if there are not so many. Those of one call go by ascending texture (of the sparse
 * call in the order of its list), then mip, then layer. */
static inline tt_transition tt_log_entry(tt_log log, size_t k)
{
    tt_transition entry = { 0, { { 0, 0 }, { 0, 0 } }, 0, 0 };
    if (k < tt_log_written(log) && k < tt_entries_length(log) / TRACK_LOG_ENTRY_LENGTH)
        entry = tt_entry_in(tt_entries(log) + TRACK_LOG_ENTRY_LENGTH * k);
    return entry;
}

/* The same of a rest. */
static inline tt_transition tt_rest_entry(tt_rest rest, size_t k)
{
    tt_transition entry = { 0, { { 0, 0 }, { 0, 0 } }, 0, 0 };
    if (k < rest.count) entry = tt_entry_in(rest.numbers + TRACK_LOG_ENTRY_LENGTH * k);
    return entry;
}

/* ---- Plans: the bytes are judged, not the uses in them, which merging does --------------------------------------------------- */

/* A pointer may be NULL where its length is 0. */

/* An item with a kind alone: for this header only. */
static inline tt_plan_item tt_item_of(unsigned kind)
{
    tt_plan_item item;
    size_t k;
    item.kind = (uint8_t)kind;
    for (k = 0; k < sizeof item.bytes; k++) item.bytes[k] = 0;
    return item;
}

/* The items that a group begins and ends with. */
static inline tt_plan_item tt_group_opened(void)
{
    return tt_item_of(TRACK_ITEM_OPENED);
}

static inline tt_plan_item tt_group_closed(void)
{
    return tt_item_of(TRACK_ITEM_CLOSED);
}

/* Numbers in so many bytes, low byte first: for this header only. */
static inline void tt_put_bytes(uint8_t *bytes, size_t count, uint32_t number)
{
    size_t k;
    for (k = 0; k < count; k++) bytes[k] = (uint8_t)(number >> 8 * k);
}

static inline uint32_t tt_bytes_at(const uint8_t *bytes, size_t count)
{
    uint32_t number = 0;
    size_t k;
    for (k = 0; k < count; k++) number |= (uint32_t)bytes[k] << 8 * k;
    return number;
}

/* Makes an item of a use. A file has one byte for mips and two for layers and the state: where a number has no room there, this returns 0
 * and the item stays. */
TT_CALL int tt_pack_use(tt_use use, tt_plan_item *item)
{
    const tt_selector part = use.part;
    if (use.texture.mips > UINT8_MAX || part.mips.start > UINT8_MAX || part.mips.end > UINT8_MAX) return 0;
    if (use.texture.layers > UINT16_MAX || part.layers.start > UINT16_MAX || part.layers.end > UINT16_MAX) return 0;
    if (use.state > UINT16_MAX) return 0;
    item->kind = TRACK_ITEM_USE;
    tt_put_bytes(item->bytes, 4, use.texture.index);
    tt_put_bytes(item->bytes + 4, 1, use.texture.mips);
    tt_put_bytes(item->bytes + 5, 2, use.texture.layers);
    tt_put_bytes(item->bytes + 7, 1, part.mips.start);
    tt_put_bytes(item->bytes + 8, 1, part.mips.end);
    tt_put_bytes(item->bytes + 9, 2, part.layers.start);
    tt_put_bytes(item->bytes + 11, 2, part.layers.end);
    tt_put_bytes(item->bytes + 13, 2, use.state);
    return 1;
}

/* The use of an item; all zeros if the item is none. */
static inline tt_use tt_unpack_use(tt_plan_item item)
{
    tt_use use;
    if (item.kind != TRACK_ITEM_USE) item = tt_item_of(0);
    use.texture.index = tt_bytes_at(item.bytes, 4);
    use.texture.mips = tt_bytes_at(item.bytes + 4, 1);
    use.texture.layers = tt_bytes_at(item.bytes + 5, 2);
    use.part.mips.start = tt_bytes_at(item.bytes + 7, 1);
    use.part.mips.end = tt_bytes_at(item.bytes + 8, 1);
    use.part.layers.start = tt_bytes_at(item.bytes + 9, 2);
    use.part.layers.end = tt_bytes_at(item.bytes + 11, 2);
    use.state = tt_bytes_at(item.bytes + 13, 2);
    return use;
}

/* Reads a file into so many bytes of items, which the plan then borrows; on a refusal it is the empty plan. tt_items_bytes(file_bytes) of
 * them are always enough. Refuses 20 to 23, 15. */
TT_CALL track_answer tt_read_plan(tt_plan *plan, const uint8_t *file, size_t file_bytes, tt_plan_item *items, size_t items_bytes)
{
    uint8_t none = 0; /* the library takes no NULL */
    const track_counted_answer got = track_read_plan(file_bytes == 0 ? &none : file, file_bytes,
                                                     items_bytes == 0 ? &none : (uint8_t *)items, items_bytes);
    *plan = tt_plan_of(items, got.count);
    return got.answer;
}

/* Writes a plan to so many bytes of a file; written becomes how many it took, 0 on a refusal. tt_file_bytes(plan.count) of them are always
 * enough. Refuses 24, 23, 25, 15. */
TT_CALL track_answer tt_write_plan(tt_plan plan, uint8_t *file, size_t file_bytes, size_t *written)
{
    uint8_t none = 0;
    const track_counted_answer got = track_write_plan(plan.count == 0 ? &none : (const uint8_t *)plan.items,
                                                      TRACK_ITEM_LENGTH * plan.count, file_bytes == 0 ? &none : file, file_bytes);
    *written = got.count;
    return got.answer;
}

/* Lists the uses of a plan, in its order, in so many bytes of uses; listed becomes how many there are, 0 on a refusal.
 * tt_uses_bytes(plan.count) of them are always enough. Refuses 15. */
TT_CALL track_answer tt_plan_uses(tt_plan plan, tt_use *uses, size_t uses_bytes, size_t *listed)
{
    const uint8_t none = 0;
    uint32_t no_number = 0;
    const track_counted_answer got = track_plan_uses(plan.count == 0 ? &none : (const uint8_t *)plan.items,
                                                     TRACK_ITEM_LENGTH * plan.count,
                                                     uses_bytes == 0 ? &no_number : (uint32_t *)uses, uses_bytes / sizeof(uint32_t));
    *listed = got.count;
    return got.answer;
}

/* ---- Reading a set: any numbers may stand in its memory ---------------------------------------------------------------------- */

/* The test that every call makes first, of each set: 1 if it is well formed, otherwise 0. */
TT_CALL uint32_t tt_scope_is_well_formed(tt_scope scope)
{
    return scope.memory == NULL ? 0 : track_scope_is_well_formed(scope.memory, tt_ranges(scope), tt_ranges_length(scope));
}

TT_CALL uint32_t tt_tracker_is_well_formed(tt_tracker tracker)
{
    if (tracker.memory == NULL) return 0;
    return track_tracker_is_well_formed(tracker.memory, tt_starts(tracker), tt_half_length(tracker),
                                        tt_ends(tracker), tt_half_length(tracker));
}

/* A texture as a table has it; 0 mips and 0 layers if it is not owned. */
static inline tt_texture tt_texture_in(const uint32_t *table, uint32_t index)
{
    tt_texture texture;
    texture.index = index;
    texture.mips = 0;
    texture.layers = 0;
    if (table != NULL && index < TRACK_MAX_TEXTURES && index < table[TRACK_N] && table[TRACK_OWNED + index] != 0) {
        texture.mips = table[TRACK_MIPS + index];
        texture.layers = table[TRACK_LAYERS + index];
    }
    return texture;
}

static inline tt_texture tt_scope_texture(tt_scope scope, uint32_t index)
{
    return tt_texture_in(scope.memory, index);
}

static inline tt_texture tt_tracker_texture(tt_tracker tracker, uint32_t index)
{
    return tt_texture_in(tracker.memory, index);
}

/* words is where the half begins in the table. */
static inline tt_range tt_range_in(const uint32_t *table, size_t words, const uint32_t *ranges, size_t length, tt_place place)
{
    const tt_texture texture = tt_texture_in(table, place.index);
    tt_range found = { { 0, 0 }, 0 };
    size_t m, w, first, count, k;
    if (place.mip >= texture.mips || place.layer >= texture.layers) return found;
    if (table[words + place.index] != table[TRACK_COMPLEX]) { /* one state holds for all of the texture */
        found.layers.end = texture.layers;
        found.state = table[words + place.index];
        return found;
    }
    m = table[TRACK_M];
    w = table[TRACK_W];
    if (m > TRACK_MAX_MIPS || w > TRACK_MAX_LAYERS || place.mip >= m) return found;
    first = TRACK_RANGE_LENGTH * w * (place.index * m + place.mip);
    count = table[words + TRACK_COUNTS + TRACK_MAX_MIPS * place.index + place.mip];
    if (count > w || first + TRACK_RANGE_LENGTH * count > length) return found;
    for (k = 0; k < count; k++) {
        const uint32_t *range = ranges + first + TRACK_RANGE_LENGTH * k;
        if (range[0] <= place.layer && place.layer < range[1]) {
            found.layers.start = range[0];
            found.layers.end = range[1];
            found.state = range[2];
            break;
        }
    }
    return found;
}

/* The layers around a place that are in one state with it. The next ones begin at layers.end, where the state is 0 past the last. */
static inline tt_range tt_scope_range(tt_scope scope, tt_place place)
{
    const tt_range none = { { 0, 0 }, 0 };
    if (scope.memory == NULL) return none;
    return tt_range_in(scope.memory, TRACK_START, tt_ranges(scope), tt_ranges_length(scope), place);
}

/* Of a tracker at its start: the state that it was first used in, which a join must bring about. */
static inline tt_range tt_start_range(tt_tracker tracker, tt_place place)
{
    const tt_range none = { { 0, 0 }, 0 };
    if (tracker.memory == NULL) return none;
    return tt_range_in(tracker.memory, TRACK_START, tt_starts(tracker), tt_half_length(tracker), place);
}

/* Of a tracker at its end: the state that commands leave it in. */
static inline tt_range tt_end_range(tt_tracker tracker, tt_place place)
{
    const tt_range none = { { 0, 0 }, 0 };
    if (tracker.memory == NULL) return none;
    return tt_range_in(tracker.memory, TRACK_END, tt_ends(tracker), tt_half_length(tracker), place);
}

/* The state of a subresource; 0 if there is no such one, or the set does not own the texture. */
static inline uint32_t tt_scope_state(tt_scope scope, tt_place place)
{
    return tt_scope_range(scope, place).state;
}

static inline uint32_t tt_start_state(tt_tracker tracker, tt_place place)
{
    return tt_start_range(tracker, place).state;
}

static inline uint32_t tt_end_state(tt_tracker tracker, tt_place place)
{
    return tt_end_range(tracker, place).state;
}

/* ---- Words ------------------------------------------------------------------------------------------------------------------- */

/* What a refusal means, by track_answer.number. */
static inline const char *tt_refusal_words(uint32_t number)
{
    switch (number) {
    case TRACK_NUMBERS_OUT_OF_LIMITS: return "a set has 1 to 64 textures, 1 to 16 mips and 1 to 256 layers";
    case TRACK_FLAGS_BREAK_RULE: return "the usage flags break their rule";
    case TRACK_SHORT_ROOM: return "the memory is too short for the set";
    case TRACK_NOT_WELL_FORMED: return "a set is not well formed: not opened, or damaged";
    case TRACK_LOG_TOO_SHORT: return "the log is not opened, or tells of more entries than its memory holds";
    case TRACK_FLAGS_DIFFER: return "the two sets were opened with different usage flags";
    case TRACK_NO_SUCH_INDEX: return "the set has no such index";
    case TRACK_EXTENT_OUT_OF_LIMITS: return "the texture has no mips or layers, or more than the set was opened for";
    case TRACK_EXTENT_DIFFERS: return "the set owns the texture with other mips or layers";
    case TRACK_MIPS_EMPTY: return "the mips are empty: they end where they start";
    case TRACK_MIPS_REVERSED: return "the mips are reversed: they end before they start";
    case TRACK_LAYERS_EMPTY: return "the layers are empty: they end where they start";
    case TRACK_LAYERS_REVERSED: return "the layers are reversed: they end before they start";
    case TRACK_SELECTOR_PAST_EXTENT: return "the selector ends past the texture's mips or layers";
    case TRACK_STATE_RESERVED: return "the state is zero, or has the unknown or the complex bit";
    case TRACK_STATE_INCOMPATIBLE: return "the state has an exclusive use beside another use";
    case TRACK_RANGES_OUT_OF_ORDER: return "the ranges are empty, out of order or overlap";
    case TRACK_LOG_OUT_OF_ORDER: return "a log descends or stops inside an entry";
    case TRACK_FIELD_CUT_SHORT: return "in a plan file, a field is cut short or goes past its group or the file";
    case TRACK_UNKNOWN_TAG: return "in a plan file, a field has an unknown tag: 1 is a group, 2 is a use";
    case TRACK_USE_OF_WRONG_SIZE: return "in a plan file, a use does not have 15 bytes";
    case TRACK_GROUPS_TOO_DEEP: return "in a plan, groups stand more than eight deep";
    case TRACK_PLAN_UNBALANCED: return "in a plan, a group that is not open is closed, one is left open, or an item has an unknown kind";
    case TRACK_GROUP_TOO_LONG: return "in a plan, a group holds more than 65,535 bytes";
    case TRACK_NO_FREE_ENTRY: return "the call needs more log entries, or room for a plan, than are free";
    case TT_STATE_PAST_16_BITS: return "the state has more than 16 bits";
    case TT_SAME_SET_TWICE: return "the set is passed in as the other one as well";
    case TT_SAME_LOG_TWICE: return "the log is passed in to be written and to be read";
    default: return "no refusal has this number";
    }
}

/* The name of wgpu's use that is bit 0 to 15 of a state. Bit 15 has none and is written as its number. */
static inline const char *tt_use_name(unsigned bit)
{
    static const char *const names[16] = {
        "UNINITIALIZED", "PRESENT", "COPY_SRC", "COPY_DST", "RESOURCE", "COLOR_TARGET", "DEPTH_STENCIL_READ", "DEPTH_STENCIL_WRITE",
        "STORAGE_READ_ONLY", "STORAGE_WRITE_ONLY", "STORAGE_READ_WRITE", "STORAGE_ATOMIC", "TRANSIENT", "COMPLEX", "UNKNOWN", "32768"
    };
    return names[bit % 16];
}

/* Adds a name after `at` characters of text, with a bar before it unless it is the first; returns how many there are then. */
static inline size_t tt_add_name(char *text, size_t bytes, size_t at, const char *name)
{
    if (at > 0 && at + 1 < bytes) text[at++] = '|';
    while (*name != '\0' && at + 1 < bytes) text[at++] = *name++;
    return at;
}

/* Writes the names of wgpu's uses in a state and returns the text: "COPY_SRC|RESOURCE", "none" for 0. What has no room is cut;
 * TT_STATE_NAME_SIZE bytes are enough for any state. */
#define TT_STATE_NAME_SIZE 256
static inline const char *tt_state_name(uint32_t state, char *text, size_t bytes)
{
    size_t at = 0;
    unsigned bit;
    for (bit = 0; bit < 16; bit++)
        if ((state >> bit & 1) != 0) at = tt_add_name(text, bytes, at, tt_use_name(bit));
    if (at == 0) at = tt_add_name(text, bytes, at, "none");
    if (bytes > 0) text[at] = '\0';
    return text;
}

#endif
