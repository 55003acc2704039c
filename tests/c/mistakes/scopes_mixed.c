/* Mistake: one scope's table with another's ranges.
 * Verdict: does not compile */
#include "mistake.h"

int main(void)
{
    if (!opened()) return 1;
#ifdef MISTAKE
    {
        const tt_scope mixed = { .table = scope.memory, .ranges = other.memory };
        return done(told(tt_merge_single(mixed, beans, tt_all(beans), TRACK_USE_RESOURCE)));
    }
#else
    return done(told(tt_merge_single(scope, beans, tt_all(beans), TRACK_USE_RESOURCE)));
#endif
}
