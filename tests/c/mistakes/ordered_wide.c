/* Mistake: an ordered mask above 16 bits.
 * Verdict: refused 1001 */
#include "mistake.h"

int main(void)
{
#ifdef MISTAKE
    const uint32_t ordered = TRACK_USE_ORDERED | 1u << 16;
#else
    const uint32_t ordered = TRACK_USE_ORDERED;
#endif
    return done(told(tt_open_tracker(&tracker, tracker_memory, sizeof tracker_memory, size, tt_wgpu_flags(), ordered)));
}
