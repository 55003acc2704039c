/* Mistake: a state above 16 bits, given to a tracker.
 * Verdict: refused 1001 */
#include "mistake.h"

int main(void)
{
#ifdef MISTAKE
    const uint32_t state = UINT32_MAX - 0xffff + TRACK_USE_RESOURCE;
#else
    const uint32_t state = TRACK_USE_RESOURCE;
#endif
    return done(opened() && told(tt_set_single(tracker, transitions, beans, tt_all(beans), state)));
}
