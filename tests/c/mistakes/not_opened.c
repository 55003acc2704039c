/* Mistake: a scope that was not opened.
 * Verdict: refused 4 */
#include "mistake.h"

int main(void)
{
#ifdef MISTAKE
    (void)opened;
#else
    if (!opened()) return 1;
#endif
    return done(told(tt_merge_single(scope, beans, tt_all(beans), TRACK_USE_RESOURCE)));
}
