/* The texture state tracker of wgpu-core, proved in Rattle, for C and C++: the plain boundary, as the library has it. Link
 * libtexture_tracker.a (x86-64 Linux; `tools/library` writes it to target/lib). Of the C library it needs memset alone, and it keeps
 * nothing of its own between calls. texture_tracker.h has the same calls in a form that is hard to get wrong: begin there.
 *
 * A scope gathers how the textures of one pass are used and finds conflicts; a tracker knows the state of each texture as commands leave
 * it and logs the transitions that a driver must be told of. Both are plain numbers in memory that each call borrows from its caller.
 * Beside them, a plan of uses is read from a file's bytes and written to them.
 *
 * Every call returns an answer for every input, whatever numbers the borrowed memory holds, and a refusal changes nothing. This is
 * proved. What a call requires of its caller, since it cannot check it:
 *   - no pointer is NULL, even where its length is 0, and each is good for as many of its elements as the length beside it says; a table
 *     is TRACK_TABLE_LENGTH of them. The call that opens a set reads none of its numbers: the memory need not be cleared first;
 *   - what a call writes (no const) overlaps nothing else that the same call borrows;
 *   - nobody else writes what a call borrows while it runs. Calls on different memory may run at the same time.
 */
#ifndef TRACK_H
#define TRACK_H

#include <stddef.h>
#include <stdint.h>

#ifdef __cplusplus
extern "C" {
#endif

/* ---- Version ----------------------------------------------------------------------------------------------------------------- */

#define TRACK_VERSION_MAJOR 0
#define TRACK_VERSION_MINOR 2
#define TRACK_VERSION_PATCH 0
#define TRACK_VERSION (TRACK_VERSION_MAJOR * 10000 + TRACK_VERSION_MINOR * 100 + TRACK_VERSION_PATCH)

/* ---- Limits of a set --------------------------------------------------------------------------------------------------------- */

#define TRACK_MAX_TEXTURES 64 /* N: textures of a set, 1 to 64 */
#define TRACK_MAX_MIPS 16     /* M: mips of a texture, 1 to 16 */
#define TRACK_MAX_LAYERS 256  /* W: layers of a texture, 1 to 256 */

/* ---- Borrowed memory, in uint32_t -------------------------------------------------------------------------------------------- */

/* A table. Callers may read it. If they write into it and the set is then not well formed, it is refused (4). */
#define TRACK_TABLE_LENGTH 2376
#define TRACK_N 0             /* table[TRACK_N]: N, and so on: the numbers and the flags that the set was opened with */
#define TRACK_M 1
#define TRACK_W 2
#define TRACK_EXCLUSIVE 3
#define TRACK_UNINITIALIZED 4
#define TRACK_COMPLEX 5
#define TRACK_UNKNOWN 6
#define TRACK_ORDERED 7       /* a tracker's mask of ordered states; a scope does not use it */
#define TRACK_OWNED 8         /* table[TRACK_OWNED + i]: 0 if the set does not own texture i; the next two are of owned textures only */
#define TRACK_MIPS 72         /* table[TRACK_MIPS + i]: its mips */
#define TRACK_LAYERS 136      /* table[TRACK_LAYERS + i]: its layers */
#define TRACK_START 200       /* half h = TRACK_START: a scope's states, or a tracker's states at the start */
#define TRACK_END 1288        /* half h = TRACK_END: a tracker's states at the end; a scope does not use it */
/* table[h + i]: the state, if one state holds for all of texture i; the COMPLEX flag, if each mip has ranges of its own */
#define TRACK_COUNTS 64       /* table[h + TRACK_COUNTS + 16 * i + m]: how many ranges mip m has in that case */

/* Ranges: a scope has one run of them, a tracker two, starts and ends. Each is three numbers: first layer, layer past the last, state.
 * Those of mip m of texture i begin at 3 * W * (i * M + m). */
#define TRACK_RANGE_LENGTH 3
#define TRACK_RANGES_LENGTH(n, m, w) ((size_t)TRACK_RANGE_LENGTH * (n) * (m) * (w))

/* A log. An entry is seven numbers: texture, first mip, mip past the last, first layer, layer past the last, old state, new state.
 * Its head is two counts of entries, written and free; the caller passes both in and takes both over from the answer. A call writes its
 * entries after the written ones: by ascending texture (the sparse call in the order of its list), then mip, then layer. No call of a
 * tracker needs more entries than it has subresources, N * M * W, and no merge of two logs more than both hold. */
#define TRACK_LOG_ENTRY_LENGTH 7
#define TRACK_LOG_LENGTH(entries) ((size_t)TRACK_LOG_ENTRY_LENGTH * (entries))

/* A plan, in bytes: uses, some of them in groups. Numbers of more than one byte have the low byte first.
 * As a file it is a run of fields, and the empty file is the empty plan. A field is a tag of one byte, a length of two, and so many bytes:
 * a group, which holds fields, or a use, whose 15 bytes are index (4), mips (1), layers (2), mip start (1), mip end (1), layer start (2),
 * layer end (2) and state (2). A use may stand outside groups, and groups at most TRACK_MAX_GROUPS deep.
 * As a list it is items of 16 bytes: a kind, and the 15 bytes of the use; those of an opened or closed group are written as 0 and not read.
 * A rest of fewer than 16 bytes is no item: it is neither read nor written.
 * Its uses as numbers are eight each, in the order of the 15 bytes. */
#define TRACK_TAG_GROUP 1
#define TRACK_TAG_USE 2
#define TRACK_MAX_GROUPS 8           /* a group that stands alone is one deep */
#define TRACK_ITEM_OPENED 1          /* the kinds of an item: from here on a group, up to the closed item that belongs to it */
#define TRACK_ITEM_USE 2
#define TRACK_ITEM_CLOSED 3
#define TRACK_ITEM_LENGTH 16
#define TRACK_PLAN_USE_LENGTH 8
/* Room that is always enough: for the items of a file of so many bytes, and for the file and the uses of so many items. */
#define TRACK_ITEMS_LENGTH(bytes) ((size_t)TRACK_ITEM_LENGTH * 2 * ((bytes) / 3))
#define TRACK_FILE_LENGTH(items) ((size_t)18 * (items))
#define TRACK_PLAN_USES_LENGTH(items) ((size_t)TRACK_PLAN_USE_LENGTH * (items))

/* What stays. A refusal changes nothing, and what is borrowed as const stays. A call that is done or in conflict writes only the
 * words and the ranges of the textures that it names: the one index that it is given, those that the given set owns, or those that are
 * listed and owned. Every other number stays: ranges past N * M * W and numbers after the last whole range; the words of indices from N
 * on; a scope's words that only a tracker uses; and the words and ranges of each texture that is not named, its unused ones and the very
 * number that marks it as owned among them.
 * Inside a named texture only what is unused is free, and a call may leave anything there: which nonzero number marks it as owned; the
 * counts and ranges of a half that has one state for all of it; counts and ranges of mips that it does not have; ranges past a count.
 * The table that the sparse call takes textures from (given) becomes the same with the words of ownership of the listed indices 0.
 * In a log every number stays but those of the entries that the call writes, and of a plan what lies past the items, bytes or uses that the
 * answer counts. Opening writes the first eight words of the table and, of each index below N, whether it is owned, its mips, its layers
 * and its states. */

/* ---- Answers ----------------------------------------------------------------------------------------------------------------- */

/* track_answer.kind */
enum track_kind {
    TRACK_DONE = 0,
    TRACK_REFUSED = 1, /* number and place say why; nothing has changed */
    TRACK_CONFLICT = 2 /* two uses exclude each other; what was merged before them stays merged */
};

/* track_answer.number, where kind is TRACK_REFUSED. Checks are made from the first of this list to the last: it is in the order of the
 * checks, not of the numbers. Calls over a set check 7 to 9 texture by texture, ascending; the sparse call in the order of its list.
 * Reading a plan checks 20 to 23 field by field; writing one checks each of 24, 23 and 25 over the whole list. place is the index of the
 * texture for 7, 8 and 9, otherwise 0. */
enum track_refusal {
    TRACK_NUMBERS_OUT_OF_LIMITS = 1, /* opening: N, M or W is outside its limits */
    TRACK_FLAGS_BREAK_RULE = 2,      /* opening: EXCLUSIVE has more than 16 bits, or UNINITIALIZED, COMPLEX, UNKNOWN are not one bit of 16
                                        each, all different, with COMPLEX and UNKNOWN outside EXCLUSIVE */
    TRACK_SHORT_ROOM = 3,            /* opening: room for fewer than N * M * W ranges; of a tracker, in starts or in ends */
    TRACK_NOT_WELL_FORMED = 4,       /* a set is not well formed: not opened, damaged, or with shorter ranges */
    TRACK_LOG_TOO_SHORT = 5,         /* written and free together are more entries than the log has room for */
    TRACK_FLAGS_DIFFER = 6,          /* the two sets were opened with different flags */
    TRACK_NO_SUCH_INDEX = 7,         /* the index is not below N */
    TRACK_EXTENT_OUT_OF_LIMITS = 8,  /* mips are not 1 to M, or layers not 1 to W */
    TRACK_EXTENT_DIFFERS = 9,        /* the set owns the texture with other mips or layers */
    /* 10 is reserved and never returned: TRACK_SELECTOR_EMPTY of earlier versions is split into 16 to 19. */
    TRACK_MIPS_EMPTY = 16,           /* mips end where they start */
    TRACK_MIPS_REVERSED = 17,        /* mips end before they start */
    TRACK_LAYERS_EMPTY = 18,         /* layers, or those from start up to end in a call on ranges, end where they start */
    TRACK_LAYERS_REVERSED = 19,      /* layers, or those from start up to end in a call on ranges, end before they start */
    TRACK_SELECTOR_PAST_EXTENT = 11, /* an end is past the texture's mips or layers */
    TRACK_STATE_RESERVED = 12,       /* the state is zero, or has UNKNOWN or COMPLEX */
    TRACK_STATE_INCOMPATIBLE = 13,   /* the state has a bit of EXCLUSIVE and is not one bit */
    TRACK_RANGES_OUT_OF_ORDER = 14,  /* calls on ranges: more than there is room for, or one is empty, out of order or overlaps */
    TRACK_LOG_OUT_OF_ORDER = 31,     /* a log that is merged descends, or stops inside an entry */
    TRACK_FIELD_CUT_SHORT = 20,      /* reading: a tag and length are cut short, or a length goes past its group or the file */
    TRACK_UNKNOWN_TAG = 21,          /* reading: a tag is neither of a group nor of a use */
    TRACK_USE_OF_WRONG_SIZE = 22,    /* reading: a use has other than 15 bytes */
    TRACK_PLAN_UNBALANCED = 24,      /* writing: an item has another kind, a group is closed that is not open, or one stays open */
    TRACK_GROUPS_TOO_DEEP = 23,      /* reading and writing: groups stand more than TRACK_MAX_GROUPS deep */
    TRACK_GROUP_TOO_LONG = 25,       /* writing: a group holds more than 65,535 bytes, its own tag and length not counted */
    TRACK_NO_FREE_ENTRY = 15         /* the result needs more entries, or of a plan more room, than are free */
};

/* What a call returns. Fields that do not belong to its kind are 0. */
typedef struct track_answer {
    uint32_t kind;        /* enum track_kind */
    uint32_t number;      /* refused: enum track_refusal */
    uint32_t place;       /* refused: the texture for 7, 8 and 9 */
    uint32_t index;       /* conflict: the texture, */
    uint32_t mip_start;   /*   its mips from mip_start up to, not including, mip_end, */
    uint32_t mip_end;
    uint32_t layer_start; /*   its layers from layer_start up to, not including, layer_end, */
    uint32_t layer_end;
    uint32_t old_state;   /*   the state that all of them had */
    uint32_t new_state;   /*   and the one that was given */
} track_answer;

/* What a conflict names begins at the first subresource in conflict; others past it may be in conflict as well. Of a texture that is held
 * in one state it is the part that was given (of a scope with ranges, one of them); of one with ranges of its own it is a range of one mip.
 * A pass in conflict must not run: open its scope again, and do not hand it to a tracker, since part of the rejected use may be in it. */

/* What a call with a log returns: the answer, and the head of the log after it, which a refusal leaves as it was given. */
typedef struct track_logged_answer {
    track_answer answer;
    size_t written;
    size_t free;
} track_logged_answer;

/* What a merge of two logs returns: the answer, the head of the third log after it, and the rest, what is left of one of the two: the
 * rest_length numbers from number rest_offset on. A refusal leaves the head as it was given; its rest is the empty end of the second. */
typedef struct track_merged_answer {
    track_answer answer;
    size_t written;
    size_t free;
    uint32_t rest_first; /* 1: the rest is the first log's; 0: the second's */
    size_t rest_offset;
    size_t rest_length;
} track_merged_answer;

/* What a call on ranges returns. Counts that do not belong to the call, and those of a refusal, are 0. */
typedef struct track_ranges_answer {
    track_answer answer;
    size_t position; /* track_isolate: where the run begins, in ranges */
    size_t count;    /* track_isolate: how many ranges the run has; track_iter_filter: how many were listed */
    size_t told;     /* track_isolate, track_coalesce: how many ranges are in use now */
} track_ranges_answer;

/* What a call on plans returns: the answer, and how many items, bytes or uses it wrote; 0 on a refusal. */
typedef struct track_counted_answer {
    track_answer answer;
    size_t count;
} track_counted_answer;

/* ---- Opening a set ----------------------------------------------------------------------------------------------------------- */

/* A state is 16 bits. exclusive is the mask of those that suffer no other beside them; uninitialized, complex and unknown are one bit
 * each. Opened, a set owns no texture: open a scope again in the same memory before each pass, which empties it. Refuses 1, 2, 3. */
track_answer track_open_scope(uint32_t table[TRACK_TABLE_LENGTH], const uint32_t *ranges, size_t ranges_length,
                              uint32_t n, uint32_t m, uint32_t w,
                              uint32_t exclusive, uint32_t uninitialized_bit, uint32_t complex_bit, uint32_t unknown_bit);

/* mask holds the ordered states: a transition from a state to itself is left out if mask holds that state. Refuses 1, 2, 3. */
track_answer track_open_tracker(uint32_t table[TRACK_TABLE_LENGTH], const uint32_t *starts, size_t starts_length,
                                const uint32_t *ends, size_t ends_length,
                                uint32_t n, uint32_t m, uint32_t w,
                                uint32_t exclusive, uint32_t uninitialized_bit, uint32_t complex_bit, uint32_t unknown_bit, uint16_t mask);

/* ---- The test of a set, which every call below makes first, of each set (4): 1 if it is well formed, otherwise 0 ------------- */

uint32_t track_scope_is_well_formed(const uint32_t table[TRACK_TABLE_LENGTH], const uint32_t *ranges, size_t ranges_length);

uint32_t track_tracker_is_well_formed(const uint32_t table[TRACK_TABLE_LENGTH], const uint32_t *starts, size_t starts_length,
                                      const uint32_t *ends, size_t ends_length);

/* ---- Merging into a scope ---------------------------------------------------------------------------------------------------- */

/* One use of texture index, which has so many mips and layers. part 0: all of it, and the four numbers after part are not read; otherwise
 * the mips from mip_start up to mip_end and the layers from layer_start up to layer_end. Refuses 4, 7 to 9, 16 to 19, 11 to 13. */
track_answer track_merge_single(uint32_t table[TRACK_TABLE_LENGTH], uint32_t *ranges, size_t ranges_length,
                                uint32_t index, uint32_t mips, uint32_t layers, uint32_t part,
                                uint32_t mip_start, uint32_t mip_end, uint32_t layer_start, uint32_t layer_end, uint16_t state);

/* All textures of another scope (given, with its ranges in given_ranges), by ascending index, up to the first conflict. Refuses 4, 6
 * to 9. */
track_answer track_merge_usage_scope(uint32_t table[TRACK_TABLE_LENGTH], uint32_t *ranges, size_t ranges_length,
                                     const uint32_t given[TRACK_TABLE_LENGTH], const uint32_t *given_ranges, size_t given_ranges_length);

/* ---- The calls of a tracker: each logs the transitions that its uses make necessary, and none returns a conflict ------------- */

/* A first use is taken as what the texture already is, and nothing is logged. In a device's tracker set each new texture to UNINITIALIZED
 * first, all of it; otherwise the driver is not told of its first uses. */

/* One use of texture index. Refuses 4, 5, 7 to 9, 16 to 19, 11 to 13, 15. */
track_logged_answer track_set_single(uint32_t table[TRACK_TABLE_LENGTH], uint32_t *starts, size_t starts_length,
                                     uint32_t *ends, size_t ends_length,
                                     uint32_t index, uint32_t mips, uint32_t layers,
                                     uint32_t mip_start, uint32_t mip_end, uint32_t layer_start, uint32_t layer_end, uint16_t state,
                                     uint32_t *log, size_t log_length, size_t written, size_t free);

/* All textures of a scope (given, with its ranges in given_ranges). Refuses 4 to 9, 15. */
track_logged_answer track_set_from_usage_scope(uint32_t table[TRACK_TABLE_LENGTH], uint32_t *starts, size_t starts_length,
                                               uint32_t *ends, size_t ends_length,
                                               const uint32_t given[TRACK_TABLE_LENGTH],
                                               const uint32_t *given_ranges, size_t given_ranges_length,
                                               uint32_t *log, size_t log_length, size_t written, size_t free);

/* All textures of another tracker (given, with its starts in given_starts and its ends in given_ends): transitions go to the other's
 * start, and its end is what they leave. Refuses 4 to 9, 15. */
track_logged_answer track_set_from_tracker(uint32_t table[TRACK_TABLE_LENGTH], uint32_t *starts, size_t starts_length,
                                           uint32_t *ends, size_t ends_length,
                                           const uint32_t given[TRACK_TABLE_LENGTH],
                                           const uint32_t *given_starts, size_t given_starts_length,
                                           const uint32_t *given_ends, size_t given_ends_length,
                                           uint32_t *log, size_t log_length, size_t written, size_t free);

/* The listed textures of a scope, in the list's order; the scope (given) then owns them no more. Textures that it does not own are passed
 * over, and one listed twice counts once. Refuses 4 to 9, 15. */
track_logged_answer track_set_and_remove_from_usage_scope_sparse(
    uint32_t table[TRACK_TABLE_LENGTH], uint32_t *starts, size_t starts_length, uint32_t *ends, size_t ends_length,
    uint32_t given[TRACK_TABLE_LENGTH], const uint32_t *given_ranges, size_t given_ranges_length,
    const uint32_t *indices, size_t indices_length,
    uint32_t *log, size_t log_length, size_t written, size_t free);

/* ---- The log ----------------------------------------------------------------------------------------------------------------- */

/* Empties the log: free gains what was written, written becomes 0, and the entries stay. Refuses 5. */
track_logged_answer track_empty_log(const uint32_t *log, size_t log_length, size_t written, size_t free);

/* Merges two logs into a third, whose head is written and free, until one of the two is used up. Of the two only the written numbers are
 * passed in, each in ascending texture (31): the log of several calls, or of a sparse one, may descend. The lower texture goes first, and
 * of equal ones the first log's entry. The rest of the other log is not copied: read it where it stands. Where one log is empty, nothing
 * is merged and the rest is the other, whole; where both are, it is the empty end of the second. So what is merged and the rest together
 * hold every entry of both once. first and second may be the same numbers. Older entries of the third are not looked at. Refuses 5 (of
 * the third), 31, 15. */
track_merged_answer track_merge_logs(const uint32_t *first, size_t first_length, const uint32_t *second, size_t second_length,
                                     uint32_t *third, size_t third_length, size_t written, size_t free);

/* ---- Ranges by themselves: the first `told` are in use; starts and ends are any 32-bit numbers, and states are not looked at --- */

/* Makes what lies from start up to end a run of ranges of its own, gaps filled with default_state. Refuses 18, 19, 14, and 15 if there
 * is no room for the ranges that it leaves. */
track_ranges_answer track_isolate(uint32_t *ranges, size_t ranges_length, size_t told, uint32_t start, uint32_t end,
                                  uint32_t default_state);

/* Joins ranges that touch and have one state; those that it frees become zeros. Refuses 14. */
track_ranges_answer track_coalesce(uint32_t *ranges, size_t ranges_length, size_t told);

/* Lists the overlaps with what lies from start up to end, clipped, in out. Refuses 18, 19, 14, and 15 if they are more than out
 * holds. */
track_ranges_answer track_iter_filter(const uint32_t *ranges, size_t ranges_length, size_t told, uint32_t start, uint32_t end,
                                      uint32_t *out, size_t out_length);

/* ---- Plans: the bytes are judged, not the uses in them, which merging does ---------------------------------------------------- */

/* Reads a file into items: a group as an opened item, what it holds, and a closed one. Refuses 20 to 23, at the first field that is wrong,
 * and 15 once all of the file is accepted. */
track_counted_answer track_read_plan(const uint8_t *file, size_t file_length, uint8_t *items, size_t items_length);

/* Writes items as a file: of what was read, the same bytes. Refuses 24, 23, 25, 15. */
track_counted_answer track_write_plan(const uint8_t *items, size_t items_length, uint8_t *file, size_t file_length);

/* Lists the uses among items, in their order, eight numbers each. Items of any other kind are passed over. Refuses 15. */
track_counted_answer track_plan_uses(const uint8_t *items, size_t items_length, uint32_t *uses, size_t uses_length);

#ifdef __cplusplus
}
#endif

#endif
