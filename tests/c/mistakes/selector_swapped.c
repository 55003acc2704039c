/* Mistake: mips and layers of a selector swapped.
 * Verdict: does not compile */
#include "mistake.h"

int main(void)
{
#ifdef MISTAKE
    const tt_selector camera = { tt_layer(3), tt_mip(0) };
#else
    const tt_selector camera = { tt_mip(0), tt_layer(3) };
#endif
    return done(opened() && told(tt_merge_single(scope, beans, camera, TRACK_USE_COPY_DST)));
}
