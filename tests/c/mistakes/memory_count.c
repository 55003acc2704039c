/* Mistake: memory told as a count of numbers. It is told in bytes, as sizeof gives them.
 * Verdict: refused 3 */
#include "mistake.h"

int main(void)
{
#ifdef MISTAKE
    const size_t bytes = sizeof scope_memory / sizeof *scope_memory;
#else
    const size_t bytes = sizeof scope_memory;
#endif
    return done(told(tt_open_scope(&scope, scope_memory, bytes, size, tt_wgpu_flags()))
                && told(tt_merge_single(scope, beans, tt_all(beans), TRACK_USE_COPY_DST)));
}
