/* Linked with the installed library, as found by pkg-config and by CMake. */
#include <texture_tracker.h>

int main(void)
{
    static TT_SCOPE_MEMORY(memory, 1, 4, 8);
    const tt_size size = { .textures = 1, .mips = 4, .layers = 8 };
    const tt_texture beans = { .index = 0, .mips = 4, .layers = 8 };
    const tt_selector camera_5 = { .mips = tt_mip(0), .layers = tt_layer(5) };
    tt_scope pass;
    if (!tt_done(tt_open_scope(&pass, memory, sizeof memory, size, tt_wgpu_flags()))) return 1;
    if (!tt_done(tt_merge_single(pass, beans, tt_all(beans), TRACK_USE_RESOURCE))) return 2;
    const track_answer late = tt_merge_single(pass, beans, camera_5, TRACK_USE_COPY_DST);
    return late.kind == TRACK_CONFLICT && late.layer_start == 5 ? 0 : 3;
}
