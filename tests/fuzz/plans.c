/* Plans of any bytes, for libFuzzer (tests/fuzz/run). An input is read as a file, as a list of items, or as the steps by which a list is
 * made, so that long groups are met too; its first bytes choose which, and the room. Each call is held against plain lines of C
 * (tests/c/plain_plans.h): verdict, count, every byte that is written, and that no other one is. An accepted file is written again and is
 * the same bytes; an accepted list is read again and is the same events.
 *
 * The library is not instrumented: the plain lines lead the fuzzer, and pages without access beside each block find what goes astray. */
#define _GNU_SOURCE
#include "../c/plain_plans.h"

#include <stdio.h>
#include <stdlib.h>
#include <sys/mman.h>

enum { ITEMS = 8192, BYTES = 18 * ITEMS, READ = 2 * (BYTES / 3) }; /* at most: items that steps make, bytes of a file, items of that */
enum { PAGE = 4096, ARENA = 400 * PAGE, BESIDE = 64 };            /* of a block, so many bytes before and behind it are watched */

/* Memory between two pages without access, with a block in it that begins or ends where access does. */
struct arena { uint8_t *memory, *block, *from, *to; };
static struct arena given, taken;

/* What the plain lines write, what was watched before a call, and a list that is made here. */
static uint8_t plain_items[16 * READ], plain_file[BYTES], before[ARENA], made[16 * READ];
static uint32_t plain_numbers[8 * ITEMS];

static void check(bool holds, int line, const char *what)
{
    if (holds) return;
    fprintf(stderr, "tests/fuzz/plans.c:%d: %s\n", line, what);
    abort();
}
#define CHECK(fact) check((fact), __LINE__, #fact)

static void map(struct arena *arena)
{
    uint8_t *all = mmap(NULL, ARENA + 2 * PAGE, PROT_NONE, MAP_PRIVATE | MAP_ANONYMOUS, -1, 0);
    CHECK(all != MAP_FAILED && mprotect(all + PAGE, ARENA, PROT_READ | PROT_WRITE) == 0);
    arena->memory = all + PAGE;
}

/* A block of so many bytes, over bytes that stand for what a caller had there. */
static uint8_t *block(struct arena *arena, size_t bytes, bool at_end)
{
    uint8_t *end = arena->memory + ARENA;
    CHECK(bytes <= ARENA);
    arena->block = at_end ? end - bytes : arena->memory;
    arena->from = arena->block - arena->memory > BESIDE ? arena->block - BESIDE : arena->memory;
    arena->to = end - arena->block - (ptrdiff_t)bytes > BESIDE ? arena->block + bytes + BESIDE : end;
    memset(arena->from, 0xa5, (size_t)(arena->to - arena->from));
    return arena->block;
}

/* All that is watched is as before, but for the block's first bytes, which are those of want. */
static bool only(const struct arena *arena, const void *want, size_t bytes)
{
    const size_t ahead = (size_t)(arena->block - arena->from), all = (size_t)(arena->to - arena->from);
    memset(before, 0xa5, all);
    if (bytes > 0) memcpy(before + ahead, want, bytes);
    return memcmp(arena->from, before, all) == 0;
}

/* The answer is that of the plain lines, where so much room is there and so much is needed. */
static bool answered(track_counted_answer got, struct plain want, size_t needed, size_t room)
{
    track_answer expected = { .kind = TRACK_DONE };
    if (want.number == 0 && needed > room) want.number = TRACK_NO_FREE_ENTRY;
    if (want.number != 0) {
        expected.kind = TRACK_REFUSED;
        expected.number = want.number;
        want.count = 0;
    }
    return memcmp(&got.answer, &expected, sizeof expected) == 0 && got.count == want.count;
}

/* What chooses the room: as much as is needed, or so many bytes more or less. */
struct choice { bool given_at_end, taken_at_end; int more; };

static size_t room_of(struct choice choice, size_t needed)
{
    if (choice.more < 0 && (size_t)-choice.more > needed) return 0;
    return choice.more < 0 ? needed - (size_t)-choice.more : needed + (size_t)choice.more;
}

/* ---- The calls, each beside the plain lines ---- */

static void uses(const uint8_t *items, size_t bytes, struct choice choice)
{
    const struct plain want = { .number = 0, .count = plain_uses(items, bytes / 16, plain_numbers) };
    const size_t needed = 8 * want.count, room = room_of(choice, needed);
    uint32_t *numbers = (uint32_t *)(void *)block(&taken, 4 * room, choice.taken_at_end);
    const track_counted_answer got = track_plan_uses(items, bytes, numbers, room);
    CHECK(answered(got, want, needed, room));
    CHECK(only(&taken, plain_numbers, 32 * got.count));
}

/* Reads a file and returns how many items there are, which plain_items then has; 0 if it was refused. */
static size_t read(const uint8_t *file, size_t bytes, struct choice choice)
{
    const struct plain want = plain_read(file, bytes, plain_items);
    const size_t needed = 16 * want.count, room = room_of(choice, needed);
    uint8_t *lent = block(&given, bytes, choice.given_at_end), *items = block(&taken, room, choice.taken_at_end);
    if (bytes > 0) memcpy(lent, file, bytes);
    const track_counted_answer got = track_read_plan(lent, bytes, items, room);
    CHECK(answered(got, want, needed, room));
    CHECK(only(&taken, plain_items, 16 * got.count) && only(&given, file, bytes));
    return got.count;
}

/* The same of a list, and plain_file. */
static size_t write(const uint8_t *items, size_t bytes, struct choice choice)
{
    const struct plain want = plain_write(items, bytes / 16, plain_file);
    const size_t needed = want.count, room = room_of(choice, needed);
    uint8_t *lent = block(&given, bytes, choice.given_at_end), *file = block(&taken, room, choice.taken_at_end);
    if (bytes > 0) memcpy(lent, items, bytes);
    const track_counted_answer got = track_write_plan(lent, bytes, file, room);
    CHECK(answered(got, want, needed, room));
    CHECK(only(&taken, plain_file, got.count) && only(&given, items, bytes));
    return got.count;
}

/* ---- The round trips ---- */

static void as_file(const uint8_t *file, size_t bytes, struct choice choice)
{
    static const struct choice exactly = { true, true, 0 };
    const size_t count = read(file, bytes, choice);
    if (count == 0) return;
    memcpy(made, plain_items, 16 * count);
    CHECK(write(made, 16 * count, exactly) == bytes && memcmp(plain_file, file, bytes) == 0);
    uses(made, 16 * count, choice);
}

/* Events are kinds, and the bytes of uses. */
static bool same_events(const uint8_t *a, const uint8_t *b, size_t count)
{
    for (size_t k = 0; k < 16 * count; k += 16)
        if (a[k] != b[k] || (a[k] == 2 && memcmp(a + k, b + k, 16) != 0)) return false;
    return true;
}

static void as_items(const uint8_t *items, size_t bytes, struct choice choice)
{
    static const struct choice exactly = { true, true, 0 };
    static uint8_t file[BYTES];
    uses(items, bytes, choice);
    const size_t written = write(items, bytes, choice);
    if (written == 0) return;
    memcpy(file, plain_file, written);
    CHECK(read(file, written, exactly) == bytes / 16 && same_events(items, plain_items, bytes / 16));
}

/* ---- Lists made step by step ---- */

static size_t more_items(size_t count, size_t more, uint8_t kind, uint8_t fill)
{
    for (; more > 0 && count < ITEMS; more--, count++) {
        memset(made + 16 * count, fill, 16);
        made[16 * count] = kind;
    }
    return count;
}

/* A step opens or closes a group, adds 1 to 48 uses or 40 to 1,960, or, one of them, an item of no kind. What is open in the end is
 * closed, unless the list is to stay as it is. */
static size_t list_of(const uint8_t *steps, size_t bytes, bool as_it_is)
{
    size_t count = 0, open = 0;
    for (size_t k = 0; k < bytes; k++) {
        const uint8_t step = steps[k];
        if (step < 80) {
            count = more_items(count, 1, 1, step);
            open++;
        } else if (step < 157 && (open > 0 || as_it_is)) {
            count = more_items(count, 1, 3, step);
            open -= open > 0;
        } else if (step < 206) {
            count = more_items(count, step < 158 ? 1 : step - 157, 2, step);
        } else if (step < 255) {
            count = more_items(count, (size_t)40 * (step - 205), 2, step);
        } else if (as_it_is) {
            count = more_items(count, 1, (uint8_t)(k < 1 ? 0 : steps[k - 1]), step);
        }
    }
    return as_it_is ? count : more_items(count, open, 3, 0);
}

int LLVMFuzzerInitialize(int *argc, char ***argv)
{
    (void)argc;
    (void)argv;
    map(&given);
    map(&taken);
    return 0;
}

int LLVMFuzzerTestOneInput(const uint8_t *data, size_t size)
{
    if (size < 2 || size - 2 > 16 * ITEMS) return 0;
    struct choice choice = { (data[0] & 4) != 0, (data[0] & 8) != 0, 0 };
    if (data[1] < 128) choice.more = (int)data[1] - 64;
    switch (data[0] & 3) {
    case 0: as_items(data + 2, size - 2, choice); break;
    case 1: as_items(made, 16 * list_of(data + 2, size - 2, (data[0] & 16) != 0), choice); break;
    default: as_file(data + 2, size - 2, choice);
    }
    return 0;
}
