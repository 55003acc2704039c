/* Mistake: sizeof of a pointer to the memory.
 * Verdict: refused 3 */
#include "mistake.h"

int main(void)
{
    uint32_t *memory = tracker_memory;
#ifdef MISTAKE
    const size_t bytes = sizeof memory;
#else
    const size_t bytes = tt_tracker_bytes(size);
#endif
    return done(told(tt_open_tracker(&tracker, memory, bytes, size, tt_wgpu_flags(), TRACK_USE_ORDERED)));
}
