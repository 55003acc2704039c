/* Mistake: sizeof for the count of a list.
 * Verdict: does not compile */
#include "mistake.h"

int main(void)
{
    static const uint32_t listed[] = { 0, 0 };
    if (!opened()) return 1;
#ifdef MISTAKE
    return done(told(tt_set_and_remove_from_usage_scope_sparse(tracker, transitions, scope, listed, sizeof listed)));
#else
    return done(told(tt_set_and_remove_from_usage_scope_sparse(tracker, transitions, scope, TT_INDICES(listed))));
#endif
}
