/* Both headers as C and as C++ of every age: every call of texture_tracker.h, in what the two languages share. */
#include "texture_tracker.h"

#if TRACK_VERSION != TRACK_VERSION_MAJOR * 10000 + TRACK_VERSION_MINOR * 100 + TRACK_VERSION_PATCH
#error "TRACK_VERSION can be compared before the compiler sees it"
#endif

static TT_SCOPE_MEMORY(scope_memory, 2, 4, 8);
static TT_SCOPE_MEMORY(other_memory, 2, 4, 8);
static TT_TRACKER_MEMORY(tracker_memory, 2, 4, 8);
static TT_TRACKER_MEMORY(join_memory, 2, 4, 8);
static TT_LOG_MEMORY(log_memory, 64);
static TT_LOG_MEMORY(second_memory, 1);
static TT_LOG_MEMORY(third_memory, 64);
static TT_ITEMS_MEMORY(items_memory, 24);
static TT_FILE_MEMORY(file_memory, 3);
static TT_USES_MEMORY(uses_memory, 3);

static int opened(tt_scope scopes[2], tt_tracker trackers[2], tt_log *transitions)
{
    tt_size size;
    size.textures = 2;
    size.mips = 4;
    size.layers = 8;
    return tt_done(tt_open_scope(&scopes[0], scope_memory, sizeof scope_memory, size, tt_wgpu_flags()))
        && tt_done(tt_open_scope(&scopes[1], other_memory, tt_scope_bytes(size), size, tt_wgpu_flags()))
        && tt_done(tt_open_tracker(&trackers[0], tracker_memory, sizeof tracker_memory, size, tt_wgpu_flags(), TRACK_USE_ORDERED))
        && tt_done(tt_open_tracker(&trackers[1], join_memory, tt_tracker_bytes(size), size, tt_wgpu_flags(), TRACK_USE_ORDERED))
        && tt_done(tt_open_log(transitions, log_memory, tt_log_bytes(64)));
}

static int called(tt_scope scope, tt_scope other, tt_tracker tracker, tt_tracker join, tt_log transitions, tt_texture texture)
{
    static const uint32_t listed[] = { 0, 1 };
    tt_selector part;
    part.mips = tt_mip(0);
    part.layers = tt_layer(5);
    return tt_done(tt_merge_single(scope, texture, part, TRACK_USE_COPY_SRC | TRACK_USE_RESOURCE))
        && tt_done(tt_merge_usage_scope(scope, other))
        && tt_done(tt_set_single(tracker, transitions, texture, tt_all(texture), TRACK_USE_COPY_DST))
        && tt_done(tt_set_from_usage_scope(tracker, transitions, scope))
        && tt_done(tt_set_from_tracker(tracker, transitions, join))
        && tt_done(tt_set_and_remove_from_usage_scope_sparse(tracker, transitions, scope, TT_INDICES(listed)))
        && tt_done(tt_set_and_remove_from_usage_scope_sparse(tracker, transitions, scope, tt_indices_of(listed, 1)))
        && tt_done(tt_empty_log(transitions));
}

static int merged(tt_log transitions)
{
    tt_log second, third;
    tt_rest rest;
    return tt_done(tt_open_log(&second, second_memory, sizeof second_memory))
        && tt_done(tt_open_log(&third, third_memory, sizeof third_memory))
        && tt_done(tt_merge_logs(transitions, second, third, &rest))
        && rest.count == tt_log_written(transitions) && tt_rest_entry(rest, rest.count).new_state == 0;
}

/* A use in a group, written, read, and listed. */
static int planned(tt_texture texture)
{
    tt_plan_item items[3];
    tt_plan plan;
    tt_use use;
    size_t written, listed;
    use.texture = texture;
    use.part = tt_all(texture);
    use.state = TRACK_USE_RESOURCE;
    items[0] = tt_group_opened();
    items[2] = tt_group_closed();
    return tt_pack_use(use, &items[1])
        && tt_done(tt_write_plan(TT_PLAN(items), file_memory, tt_file_bytes(3), &written)) && written == 21
        && tt_done(tt_read_plan(&plan, file_memory, written, items_memory, tt_items_bytes(written))) && plan.count == 3
        && tt_done(tt_plan_uses(tt_plan_of(plan.items, plan.count), uses_memory, tt_uses_bytes(3), &listed)) && listed == 1
        && uses_memory[0].part.layers.end == texture.layers && tt_unpack_use(plan.items[1]).state == TRACK_USE_RESOURCE;
}

static uint32_t read_back(tt_scope scope, tt_tracker tracker, tt_log transitions, tt_place place)
{
    char text[TT_STATE_NAME_SIZE];
    const tt_transition last = tt_log_entry(transitions, tt_log_written(transitions) - 1);
    return tt_scope_state(scope, place) + tt_start_state(tracker, place) + tt_end_state(tracker, place)
         + tt_scope_texture(scope, 0).mips + tt_tracker_texture(tracker, 0).layers + last.part.layers.end
         + tt_scope_is_well_formed(scope) + tt_tracker_is_well_formed(tracker) + (uint32_t)tt_log_free(transitions)
         + (tt_state_name(last.new_state, text, sizeof text)[0] == 'n') + (tt_refusal_words(TT_SAME_SET_TWICE)[0] == 't');
}

int main(void)
{
    tt_scope scopes[2];
    tt_tracker trackers[2];
    tt_log transitions;
    tt_texture texture;
    tt_place place;
    texture.index = 0;
    texture.mips = 4;
    texture.layers = 8;
    place.index = place.mip = 0;
    place.layer = 5;
    if (!opened(scopes, trackers, &transitions)) return 1;
    if (!called(scopes[0], scopes[1], trackers[0], trackers[1], transitions, texture)) return 2;
    if (!merged(transitions)) return 3;
    if (!planned(texture)) return 4;
    return read_back(scopes[0], trackers[0], transitions, place) == 0;
}
