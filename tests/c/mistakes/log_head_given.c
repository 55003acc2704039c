/* Mistake: the head of the log is handed in by hand, and not taken over from the last answer.
 * Verdict: does not compile */
#include "mistake.h"

int main(void)
{
    const tt_selector part = { .mips = tt_mip(0), .layers = tt_layer(5) };
    if (!opened() || !told(tt_set_single(tracker, transitions, beans, tt_all(beans), TRACK_USE_COPY_DST))) return 1;
#ifdef MISTAKE
    return done(told(tt_set_single(tracker, transitions, beans, part, TRACK_USE_RESOURCE, 0, 32)));
#else
    return done(told(tt_set_single(tracker, transitions, beans, part, TRACK_USE_RESOURCE)));
#endif
}
