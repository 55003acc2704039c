/* Mistake: start and end of a selector swapped.
 * Verdict: refused 19 */
#include "mistake.h"

int main(void)
{
#ifdef MISTAKE
    const tt_selector cameras = { .mips = tt_mip(0), .layers = { .start = 6, .end = 2 } };
#else
    const tt_selector cameras = { .mips = tt_mip(0), .layers = { .start = 2, .end = 6 } };
#endif
    return done(opened() && told(tt_merge_single(scope, beans, cameras, TRACK_USE_COPY_DST)));
}
