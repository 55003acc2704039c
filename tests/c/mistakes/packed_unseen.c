/* Mistake: whether a use fits an item is not looked at.
 * Verdict: does not compile */
#include "mistake.h"

int main(void)
{
    const tt_use use = { .texture = { .index = 0, .mips = 4, .layers = 8 }, .part = tt_all(beans), .state = TRACK_USE_RESOURCE };
    tt_plan_item item;
#ifdef MISTAKE
    tt_pack_use(use, &item);
    return done(1);
#else
    return done(tt_pack_use(use, &item) && item.kind == TRACK_ITEM_USE);
#endif
}
