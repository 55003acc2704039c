/* Mistake: mips and layers of a texture swapped, by their order. gcc asks for names; with clang the call is refused.
 * Verdict (gcc): does not compile
 * Verdict (clang): refused 8 */
#include "mistake.h"

int main(void)
{
#ifdef MISTAKE
    const tt_texture belt = { 0, 8, 4 };
#else
    const tt_texture belt = { .index = 0, .layers = 8, .mips = 4 };
#endif
    return done(opened() && told(tt_merge_single(scope, belt, tt_all(belt), TRACK_USE_COPY_DST)));
}
