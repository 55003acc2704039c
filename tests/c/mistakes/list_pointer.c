/* Mistake: a pointer where the length of an array is taken.
 * Verdict: does not compile */
#include "mistake.h"

int main(void)
{
    static const uint32_t listed[] = { 0, 0 };
    const uint32_t *list = listed;
    if (!opened()) return 1;
#ifdef MISTAKE
    return done(told(tt_set_and_remove_from_usage_scope_sparse(tracker, transitions, scope, TT_INDICES(list))));
#else
    return done(told(tt_set_and_remove_from_usage_scope_sparse(tracker, transitions, scope, tt_indices_of(list, 2))));
#endif
}
