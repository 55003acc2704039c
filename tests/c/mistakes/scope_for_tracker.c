/* Mistake: a scope where a tracker is wanted.
 * Verdict: does not compile */
#include "mistake.h"

int main(void)
{
    if (!opened()) return 1;
#ifdef MISTAKE
    return done(told(tt_set_from_usage_scope(other, transitions, scope)));
#else
    return done(told(tt_set_from_usage_scope(tracker, transitions, scope)));
#endif
}
