/* What every mistake here begins with: a scope, a tracker and a log over one texture array, opened. Each file is compiled twice: as it
 * should be, which must compile and be done, and with MISTAKE defined, which must come to the verdict that its first lines tell. */
#include "texture_tracker.h"

#include <stdio.h>

static TT_SCOPE_MEMORY(scope_memory, 1, 4, 8);
static TT_SCOPE_MEMORY(other_memory, 1, 4, 8);
static TT_TRACKER_MEMORY(tracker_memory, 1, 4, 8);
static TT_LOG_MEMORY(log_memory, 32);
static const tt_size size = { .textures = 1, .mips = 4, .layers = 8 };
static const tt_texture beans = { .index = 0, .mips = 4, .layers = 8 };
static tt_scope scope, other;
static tt_tracker tracker;
static tt_log transitions;

/* Writes what an answer is, and returns whether the program may go on. */
static inline int told(track_answer answer)
{
    if (answer.kind == TRACK_REFUSED) printf("refused %u\n", answer.number);
    if (answer.kind == TRACK_CONFLICT) printf("conflict\n");
    return answer.kind == TRACK_DONE;
}

static inline int opened(void)
{
    return told(tt_open_scope(&scope, scope_memory, sizeof scope_memory, size, tt_wgpu_flags()))
        && told(tt_open_scope(&other, other_memory, sizeof other_memory, size, tt_wgpu_flags()))
        && told(tt_open_tracker(&tracker, tracker_memory, sizeof tracker_memory, size, tt_wgpu_flags(), TRACK_USE_ORDERED))
        && told(tt_open_log(&transitions, log_memory, sizeof log_memory));
}

static inline int done(int holds)
{
    if (holds) printf("done\n");
    return 0;
}
