/* Mistake: sizeof for the count of a plan's items.
 * Verdict: does not compile */
#include "mistake.h"

int main(void)
{
    static uint8_t file[64];
    const tt_plan_item items[] = { tt_group_opened(), tt_group_closed() };
    size_t written;
#ifdef MISTAKE
    return done(told(tt_write_plan(items, sizeof items, file, sizeof file, &written)));
#else
    return done(told(tt_write_plan(TT_PLAN(items), file, sizeof file, &written)) && written == 3);
#endif
}
