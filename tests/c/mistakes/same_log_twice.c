/* Mistake: a log merged into itself.
 * Verdict: refused 1003 */
#include "mistake.h"

int main(void)
{
    static TT_LOG_MEMORY(second_memory, 32);
    static TT_LOG_MEMORY(third_memory, 64);
    tt_log second, third;
    tt_rest rest;
    if (!opened() || !told(tt_open_log(&second, second_memory, sizeof second_memory))) return 1;
    if (!told(tt_open_log(&third, third_memory, sizeof third_memory))) return 1;
#ifdef MISTAKE
    return done(told(tt_merge_logs(transitions, second, transitions, &rest)));
#else
    return done(told(tt_merge_logs(transitions, second, third, &rest)) && rest.count == 0);
#endif
}
