/* Mistake: a copy of the log is used, made before an entry was written, so that its head would be the old one.
 * Verdict: done
 * A copy stands for the same log: both transitions are there. */
#include "mistake.h"

int main(void)
{
    const tt_selector fifth = { .mips = tt_mip(0), .layers = tt_layer(5) }, sixth = { .mips = tt_mip(0), .layers = tt_layer(6) };
    tt_log copy;
    if (!opened() || !told(tt_set_single(tracker, transitions, beans, tt_all(beans), TRACK_USE_COPY_DST))) return 1;
    copy = transitions;
    if (!told(tt_set_single(tracker, transitions, beans, fifth, TRACK_USE_RESOURCE))) return 1;
#ifdef MISTAKE
    if (!told(tt_set_single(tracker, copy, beans, sixth, TRACK_USE_RESOURCE))) return 1;
#else
    if (!told(tt_set_single(tracker, transitions, beans, sixth, TRACK_USE_RESOURCE))) return 1;
#endif
    return done(tt_log_written(transitions) == 2 && tt_log_written(copy) == 2
                && tt_log_entry(transitions, 0).part.layers.start == 5 && tt_log_entry(transitions, 1).part.layers.start == 6);
}
