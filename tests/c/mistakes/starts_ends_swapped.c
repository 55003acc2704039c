/* Mistake: a tracker's starts and ends swapped.
 * Verdict: does not compile */
#include "mistake.h"

int main(void)
{
    if (!opened()) return 1;
#ifdef MISTAKE
    return done(told(tt_set_single(tracker.memory, tt_ends(tracker), tt_starts(tracker), transitions, beans, tt_all(beans),
                                   TRACK_USE_RESOURCE)));
#else
    return done(told(tt_set_single(tracker, transitions, beans, tt_all(beans), TRACK_USE_RESOURCE)));
#endif
}
