/* One frame of an optical sorter with twelve cameras, written from the documents alone: README.md, docs/CALLS.md, docs/RULES.md and the
 * comments of texture_tracker.h and track.h. What is expected was written down before the first run. */
#include "texture_tracker.h"
#include <stdio.h>

enum { CAMERAS = 12, MIPS = 3, TEXTURES = 2, LATE = 7, NOBODY = CAMERAS };
enum { PICTURES = 0, VERDICTS = 1 };
enum { COPY_IN, MAKE_MIP_1, MAKE_MIP_2, CLASSIFY, COPY_OUT, PASSES };

#define NEW TRACK_USE_UNINITIALIZED
#define COPIED_TO TRACK_USE_COPY_DST
#define READ TRACK_USE_RESOURCE
#define DRAWN_TO TRACK_USE_COLOR_TARGET
#define WRITTEN TRACK_USE_STORAGE_WRITE_ONLY
#define COPIED_FROM TRACK_USE_COPY_SRC

static const tt_size size = { .textures = TEXTURES, .mips = MIPS, .layers = CAMERAS };
static const tt_texture pictures = { .index = PICTURES, .mips = MIPS, .layers = CAMERAS };
static const tt_texture verdicts = { .index = VERDICTS, .mips = 1, .layers = 1 };

static TT_TRACKER_MEMORY(tracker_memory, TEXTURES, MIPS, CAMERAS);
static TT_SCOPE_MEMORY(scope_memory, TEXTURES, MIPS, CAMERAS);
static TT_LOG_MEMORY(log_memory, TEXTURES * MIPS * CAMERAS);

/* ---- Expected ---------------------------------------------------------------------------------------------------------------- */

/* A transition that is told: in which pass, of which texture, mip and layers (the last not included), from which state to which. */
typedef struct told { int pass; uint32_t texture, mip, from_layer, to_layer, old_state, new_state; } told;

/* The textures are new. The classifier's read of mips 0 and 1 is not told: they are in RESOURCE already, which the ordered mask holds. */
static const told first[] = {
    { COPY_IN, PICTURES, 0, 0, 12, NEW, COPIED_TO },
    { MAKE_MIP_1, PICTURES, 0, 0, 12, COPIED_TO, READ },
    { MAKE_MIP_1, PICTURES, 1, 0, 12, NEW, DRAWN_TO },
    { MAKE_MIP_2, PICTURES, 1, 0, 12, DRAWN_TO, READ },
    { MAKE_MIP_2, PICTURES, 2, 0, 12, NEW, DRAWN_TO },
    { CLASSIFY, PICTURES, 2, 0, 12, DRAWN_TO, READ },
    { CLASSIFY, VERDICTS, 0, 0, 1, NEW, WRITTEN },
    { COPY_OUT, VERDICTS, 0, 0, 1, WRITTEN, COPIED_FROM },
};

/* The second frame begins where the first ended: pictures read, verdicts copied from. */
static const told second[] = {
    { COPY_IN, PICTURES, 0, 0, 12, READ, COPIED_TO },
    { MAKE_MIP_1, PICTURES, 0, 0, 12, COPIED_TO, READ },
    { MAKE_MIP_1, PICTURES, 1, 0, 12, READ, DRAWN_TO },
    { MAKE_MIP_2, PICTURES, 1, 0, 12, DRAWN_TO, READ },
    { MAKE_MIP_2, PICTURES, 2, 0, 12, READ, DRAWN_TO },
    { CLASSIFY, PICTURES, 2, 0, 12, DRAWN_TO, READ },
    { CLASSIFY, VERDICTS, 0, 0, 1, COPIED_FROM, WRITTEN },
    { COPY_OUT, VERDICTS, 0, 0, 1, WRITTEN, COPIED_FROM },
};

/* The third, with camera 7 late: nothing is told of its layer of mip 0, which stays read. Then comes the conflict. */
static const told third[] = {
    { COPY_IN, PICTURES, 0, 0, 7, READ, COPIED_TO },
    { COPY_IN, PICTURES, 0, 8, 12, READ, COPIED_TO },
    { MAKE_MIP_1, PICTURES, 0, 0, 7, COPIED_TO, READ },
    { MAKE_MIP_1, PICTURES, 0, 8, 12, COPIED_TO, READ },
    { MAKE_MIP_1, PICTURES, 1, 0, 12, READ, DRAWN_TO },
    { MAKE_MIP_2, PICTURES, 1, 0, 12, DRAWN_TO, READ },
    { MAKE_MIP_2, PICTURES, 2, 0, 12, READ, DRAWN_TO },
};

/* ---- The frame --------------------------------------------------------------------------------------------------------------- */

static tt_tracker device;
static tt_scope scope;
static tt_log pending;

static told collected[64];
static size_t collected_count;

static tt_selector one_mip(uint32_t mip)
{
    const tt_selector part = { .mips = tt_mip(mip), .layers = tt_all(pictures).layers };
    return part;
}

static track_answer copy_of(uint32_t camera)
{
    const tt_selector part = { .mips = tt_mip(0), .layers = tt_layer(camera) };
    return tt_merge_single(scope, pictures, part, TRACK_USE_COPY_DST);
}

/* Puts the uses of a pass into the scope, up to the first that is not taken. late is the camera whose copy still goes on in CLASSIFY. */
static track_answer gather(int pass, uint32_t late)
{
    track_answer answer = tt_open_scope(&scope, scope_memory, sizeof scope_memory, size, tt_wgpu_flags());
    if (pass == COPY_IN)
        for (uint32_t camera = 0; camera < CAMERAS && tt_done(answer); camera++)
            if (camera != late) answer = copy_of(camera);
    if (pass == MAKE_MIP_1 || pass == MAKE_MIP_2) {
        const uint32_t mip = pass == MAKE_MIP_1 ? 1 : 2;
        if (tt_done(answer)) answer = tt_merge_single(scope, pictures, one_mip(mip - 1), TRACK_USE_RESOURCE);
        if (tt_done(answer)) answer = tt_merge_single(scope, pictures, one_mip(mip), TRACK_USE_COLOR_TARGET);
    }
    if (pass == CLASSIFY) {
        if (tt_done(answer)) answer = tt_merge_single(scope, pictures, tt_all(pictures), TRACK_USE_RESOURCE);
        if (tt_done(answer)) answer = tt_merge_single(scope, verdicts, tt_all(verdicts), TRACK_USE_STORAGE_WRITE_ONLY);
        if (tt_done(answer) && late != NOBODY) answer = copy_of(late);
    }
    if (pass == COPY_OUT && tt_done(answer)) answer = tt_merge_single(scope, verdicts, tt_all(verdicts), TRACK_USE_COPY_SRC);
    return answer;
}

/* Takes what the driver is told after a pass, and empties the log. */
static track_answer tell(int pass)
{
    for (size_t k = 0; k < tt_log_written(pending) && collected_count < sizeof collected / sizeof *collected; k++) {
        const tt_transition t = tt_log_entry(pending, k);
        /* No transition of this frame goes over several mips: one that did would show as mip 99. */
        const uint32_t mip = t.part.mips.end == t.part.mips.start + 1 ? t.part.mips.start : 99;
        const told entry = { pass, t.index, mip, t.part.layers.start, t.part.layers.end, t.old_state, t.new_state };
        collected[collected_count++] = entry;
    }
    return tt_empty_log(pending);
}

/* One frame, up to its end or to the first call that is not done, whose answer it returns. */
static track_answer frame(uint32_t late)
{
    track_answer answer = { .kind = TRACK_DONE };
    collected_count = 0;
    for (int pass = 0; pass < PASSES && tt_done(answer); pass++) {
        answer = gather(pass, late);
        if (tt_done(answer)) answer = tt_set_from_usage_scope(device, pending, scope);
        if (tt_done(answer)) answer = tell(pass);
    }
    return answer;
}

/* ---- Checking ---------------------------------------------------------------------------------------------------------------- */

static unsigned made, wrong;

static void same(const char *what, uint32_t got, uint32_t expected)
{
    made++;
    if (got == expected) return;
    wrong++;
    fprintf(stderr, "%s: expected %u, got %u\n", what, expected, got);
}

static void print(const char *title, const told *t)
{
    char from[TT_STATE_NAME_SIZE], to[TT_STATE_NAME_SIZE];
    fprintf(stderr, "  %s pass %d, texture %u, mip %u, layers %u up to %u: %s to %s\n", title, t->pass, t->texture, t->mip,
            t->from_layer, t->to_layer, tt_state_name(t->old_state, from, sizeof from), tt_state_name(t->new_state, to, sizeof to));
}

static int equal(const told *a, const told *b)
{
    return a->pass == b->pass && a->texture == b->texture && a->mip == b->mip && a->from_layer == b->from_layer
        && a->to_layer == b->to_layer && a->old_state == b->old_state && a->new_state == b->new_state;
}

static void same_told(const char *what, const told *expected, size_t count)
{
    const size_t most = count > collected_count ? count : collected_count;
    for (size_t k = 0; k < most; k++) {
        made++;
        if (k < count && k < collected_count && equal(&collected[k], &expected[k])) continue;
        wrong++;
        fprintf(stderr, "%s, transition %zu\n", what, k);
        if (k < count) print("expected", &expected[k]);
        if (k < collected_count) print("got     ", &collected[k]);
    }
}
#define SAME_TOLD(what, expected) same_told((what), (expected), sizeof(expected) / sizeof *(expected))

/* Where every subresource is at the end of a whole frame. */
static void same_ends(const char *what)
{
    for (uint32_t mip = 0; mip < MIPS; mip++)
        for (uint32_t layer = 0; layer < CAMERAS; layer++)
            same(what, tt_end_state(device, (tt_place){ .index = PICTURES, .mip = mip, .layer = layer }), READ);
    same(what, tt_end_state(device, (tt_place){ .index = VERDICTS, .mip = 0, .layer = 0 }), COPIED_FROM);
}

static void same_conflict(const char *what, track_answer answer, uint32_t old_state, uint32_t new_state)
{
    char from[TT_STATE_NAME_SIZE], to[TT_STATE_NAME_SIZE];
    printf("%s: texture %u, mip %u, layer %u: in use as %s, cannot be used as %s beside it\n", what, answer.index, answer.mip_start,
           answer.layer_start, tt_state_name(answer.old_state, from, sizeof from), tt_state_name(answer.new_state, to, sizeof to));
    same(what, answer.kind, TRACK_CONFLICT);
    same(what, answer.index, PICTURES);
    same(what, answer.mip_start, 0);
    same(what, answer.mip_end, 1);
    same(what, answer.layer_start, LATE);
    same(what, answer.layer_end, LATE + 1);
    same(what, answer.old_state, old_state);
    same(what, answer.new_state, new_state);
}

static uint32_t scope_state(uint32_t mip, uint32_t layer)
{
    return tt_scope_state(scope, (tt_place){ .index = PICTURES, .mip = mip, .layer = layer });
}

static void must(const char *what, track_answer answer)
{
    same(what, answer.kind, TRACK_DONE);
    if (answer.kind == TRACK_REFUSED) fprintf(stderr, "%s: %s\n", what, tt_refusal_words(answer.number));
}

int main(void)
{
    track_answer answer;
    must("opening the tracker",
         tt_open_tracker(&device, tracker_memory, sizeof tracker_memory, size, tt_wgpu_flags(), TRACK_USE_ORDERED));
    must("opening the log", tt_open_log(&pending, log_memory, sizeof log_memory));
    must("new pictures", tt_set_single(device, pending, pictures, tt_all(pictures), TRACK_USE_UNINITIALIZED));
    must("new verdicts", tt_set_single(device, pending, verdicts, tt_all(verdicts), TRACK_USE_UNINITIALIZED));
    same("nothing is told of new textures", (uint32_t)tt_log_written(pending), 0);

    must("the first frame", frame(NOBODY));
    SAME_TOLD("the first frame", first);
    same_ends("the end of the first frame");
    must("the second frame", frame(NOBODY));
    SAME_TOLD("the second frame", second);
    same_ends("the end of the second frame");

    /* Camera 7's copy is left out of its pass and goes on while the classifier reads. */
    answer = frame(LATE);
    SAME_TOLD("what was told before the conflict", third);
    same_conflict("conflict", answer, READ, COPIED_TO);
    /* "Whole with parted: on a conflict nothing of it changes." */
    for (uint32_t mip = 0; mip < MIPS; mip++)
        for (uint32_t layer = 0; layer < CAMERAS; layer++) same("the scope after the conflict", scope_state(mip, layer), READ);
    same("nothing was told of the pass in conflict", (uint32_t)tt_log_written(pending), 0);
    same("the device is where the pass before left it",
         tt_end_state(device, (tt_place){ .index = PICTURES, .mip = 2, .layer = 0 }), DRAWN_TO);

    /* The same mistake, the copy first: "the first conflict stops, what was changed before it stays changed". */
    must("opening the scope again", tt_open_scope(&scope, scope_memory, sizeof scope_memory, size, tt_wgpu_flags()));
    must("the copy first", copy_of(LATE));
    answer = tt_merge_single(scope, pictures, tt_all(pictures), TRACK_USE_RESOURCE);
    same_conflict("the copy first", answer, COPIED_TO, READ);
    same("merged before the conflict", scope_state(0, LATE - 1), READ);
    same("in conflict", scope_state(0, LATE), COPIED_TO);
    same("not reached", scope_state(0, LATE + 1), TRACK_USE_UNKNOWN);

    printf("stranger in C: %u checks, %u wrong\n", made, wrong);
    return wrong == 0 ? 0 : 1;
}
