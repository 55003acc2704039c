/* Mistake: a scope merged with itself.
 * Verdict: refused 1002 */
#include "mistake.h"

int main(void)
{
    if (!opened()) return 1;
#ifdef MISTAKE
    return done(told(tt_merge_usage_scope(scope, scope)));
#else
    return done(told(tt_merge_usage_scope(scope, other)));
#endif
}
