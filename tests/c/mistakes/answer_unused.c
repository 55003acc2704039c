/* Mistake: an answer not looked at.
 * Verdict: does not compile */
#include "mistake.h"

int main(void)
{
    if (!opened()) return 1;
#ifdef MISTAKE
    tt_merge_single(scope, beans, tt_all(beans), TRACK_USE_RESOURCE);
    return done(1);
#else
    return done(told(tt_merge_single(scope, beans, tt_all(beans), TRACK_USE_RESOURCE)));
#endif
}
