/* Mistake: room for items told as a count of them. It is told in bytes, as sizeof gives them.
 * Verdict: refused 15 */
#include "mistake.h"

int main(void)
{
    static const uint8_t file[] = { 1, 0, 0 };
    static TT_ITEMS_MEMORY(items, sizeof file);
    tt_plan plan;
#ifdef MISTAKE
    const size_t bytes = sizeof items / sizeof *items;
#else
    const size_t bytes = sizeof items;
#endif
    return done(told(tt_read_plan(&plan, file, sizeof file, items, bytes)) && plan.count == 2);
}
