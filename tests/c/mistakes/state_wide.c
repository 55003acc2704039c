/* Mistake: a state above 16 bits, which the plain boundary cuts to RESOURCE.
 * Verdict: refused 1001 */
#include "mistake.h"

int main(void)
{
#ifdef MISTAKE
    const uint32_t state = TRACK_USE_RESOURCE | 1u << 16;
#else
    const uint32_t state = TRACK_USE_RESOURCE;
#endif
    return done(opened() && told(tt_merge_single(scope, beans, tt_all(beans), state)));
}
