/* Plans: reading a file, writing a list of items, listing uses. Each answer is compared field by field with what plain lines of C give
 * (plain_plans.h), and every lent byte with what it must be then, those before and behind the lent ones among them. First each refusal at
 * its edge and beside those that come after it, then random files and lists, each with room that is enough, short, and more than enough. */
#include "plain_plans.h"

#include <stddef.h>
#include <stdio.h>
#include <stdlib.h>

_Static_assert(sizeof(track_counted_answer) == 48 && offsetof(track_counted_answer, count) == 40, "an answer and a count");

/* Room for the longest group that there is and one more use; and sentinels around. */
enum { ITEMS = 4000, BYTES = 18 * ITEMS, SPARE = 40, CALLS = 60000 };

/* Every byte that is lent, with bytes around that are not. Uses are lent as numbers. */
static struct { uint8_t a[SPARE], file[BYTES + SPARE], items[16 * ITEMS + SPARE]; } lent, wanted;
static struct { uint32_t a[SPARE], uses[8 * ITEMS + SPARE]; } listed, listed_wanted;
static uint8_t plain[32 * BYTES / 3];
static uint32_t plain_numbers[8 * ITEMS];
static unsigned checks, read_as[32], written_as[32];

static void expect(bool holds, int line, const char *what)
{
    checks++;
    if (holds) return;
    fprintf(stderr, "tests/c/plans.c:%d: %s\n", line, what);
    exit(1);
}
#define EXPECT(fact) expect((fact), line, #fact)

static uint32_t below(uint32_t n) /* xorshift: the same numbers in every run */
{
    static uint32_t x = 2463534242u;
    x ^= x << 13;
    x ^= x >> 17;
    x ^= x << 5;
    return x % n;
}

static void noise(uint8_t *bytes, size_t count)
{
    for (size_t k = 0; k < count; k++) bytes[k] = (uint8_t)below(256);
}

/* ---- Comparing ---- */

/* The answer has this number and counts so many; all else in it is 0. */
static void answered(track_counted_answer got, uint32_t number, size_t count, int line)
{
    const track_answer want = { .kind = number == 0 ? TRACK_DONE : TRACK_REFUSED, .number = number };
    EXPECT(got.answer.kind == want.kind && got.answer.number == want.number);
    EXPECT(memcmp(&got.answer, &want, sizeof want) == 0);
    EXPECT(got.count == (number == 0 ? count : 0));
}

/* Reads the first bytes of lent.file with room for so many bytes of items, and returns the answer's number. */
static uint32_t reads(size_t bytes, size_t room, int line)
{
    const struct plain want = plain_read(lent.file, bytes, plain);
    const uint32_t number = want.number == 0 && 16 * want.count > room ? TRACK_NO_FREE_ENTRY : want.number;
    wanted = lent;
    if (number == 0) memcpy(wanted.items, plain, 16 * want.count);
    answered(track_read_plan(lent.file, bytes, lent.items, room), number, want.count, line);
    EXPECT(memcmp(&lent, &wanted, sizeof lent) == 0);
    read_as[number]++;
    return number;
}

/* Writes the first bytes of lent.items with room for so many bytes of the file. */
static uint32_t writes(size_t bytes, size_t room, int line)
{
    const struct plain want = plain_write(lent.items, bytes / 16, plain);
    const uint32_t number = want.number == 0 && want.count > room ? TRACK_NO_FREE_ENTRY : want.number;
    wanted = lent;
    if (number == 0) memcpy(wanted.file, plain, want.count);
    answered(track_write_plan(lent.items, bytes, lent.file, room), number, want.count, line);
    EXPECT(memcmp(&lent, &wanted, sizeof lent) == 0);
    written_as[number]++;
    return number;
}

/* Lists the uses of the first bytes of lent.items with room for so many numbers. */
static uint32_t lists(size_t bytes, size_t room, int line)
{
    const size_t count = plain_uses(lent.items, bytes / 16, plain_numbers);
    const uint32_t number = 8 * count > room ? TRACK_NO_FREE_ENTRY : 0;
    wanted = lent;
    listed_wanted = listed;
    if (number == 0) memcpy(listed_wanted.uses, plain_numbers, 32 * count);
    answered(track_plan_uses(lent.items, bytes, listed.uses, room), number, count, line);
    EXPECT(memcmp(&lent, &wanted, sizeof lent) == 0 && memcmp(&listed, &listed_wanted, sizeof listed) == 0);
    return number;
}

/* ---- Files, by their bytes ---- */

/* These bytes as a file, with room for all of it, come to this number. */
static void file_is(const uint8_t *bytes, size_t count, uint32_t number, int line)
{
    noise((uint8_t *)&lent, sizeof lent);
    memcpy(lent.file, bytes, count);
    EXPECT(reads(count, TRACK_ITEMS_LENGTH(count), line) == number);
    EXPECT(reads(count, number == 0 ? 16 * ITEMS : 0, line) == number); /* a file that is wrong is 20 to 23 also where there is no room */
}
#define FILE_IS(number, ...) \
    file_is((const uint8_t[]){ __VA_ARGS__ }, sizeof((const uint8_t[]){ __VA_ARGS__ }), (number), __LINE__)
#define USE 2, 15, 0, 1, 2, 3, 4, 5, 6, 7, 8, 9, 10, 11, 12, 13, 14, 15

static void fields(void)
{
    file_is((const uint8_t[]){ 9 }, 0, 0, __LINE__); /* the empty file */
    FILE_IS(0, USE);
    FILE_IS(0, USE, USE);
    FILE_IS(0, 1, 0, 0);
    FILE_IS(0, 1, 18, 0, USE, USE);
    FILE_IS(20, 1);
    FILE_IS(20, 1, 0);
    FILE_IS(20, 7);
    FILE_IS(20, USE, 7, 1);
    FILE_IS(20, 1, 1, 0);
    FILE_IS(20, 2, 15, 0, 1, 2, 3, 4, 5, 6, 7, 8, 9, 10, 11, 12, 13, 14);
    FILE_IS(20, 1, 17, 0, USE);          /* past its group, with bytes enough in the file */
    FILE_IS(20, 1, 3, 0, 1, 1, 0, 0);
    FILE_IS(20, 1, 2, 0, 1, 0, 0);
    FILE_IS(20, 1, 0, 1, USE);           /* 256: the low byte is first */
    FILE_IS(20, 7, 1, 0);                /* before 21 */
    FILE_IS(20, 2, 14, 0, 1);            /* before 22 */
    FILE_IS(21, 7, 0, 0);
    FILE_IS(21, 0, 0, 0);
    FILE_IS(21, 3, 0, 0);
    FILE_IS(21, 7, 1, 0, 1);
    FILE_IS(21, 255, 0, 0, 2, 15, 0);    /* the first field that is wrong, 20 later */
    FILE_IS(21, 1, 3, 0, 9, 0, 0, 1);
    FILE_IS(22, 2, 0, 0);
    FILE_IS(22, 2, 14, 0, 1, 2, 3, 4, 5, 6, 7, 8, 9, 10, 11, 12, 13, 14);
    FILE_IS(22, 2, 16, 0, 1, 2, 3, 4, 5, 6, 7, 8, 9, 10, 11, 12, 13, 14, 15, 16);
    FILE_IS(22, 1, 3, 0, 2, 0, 0, 9, 0, 0); /* before 21 of a later field */
}

/* Groups one in another, the innermost with so many bytes of content, in lent.file. Returns the bytes. */
static size_t nested(size_t deep, const uint8_t *content, size_t count)
{
    if (count > 0) memmove(lent.file + 3 * deep, content, count);
    for (size_t k = 0; k < deep; k++) {
        const size_t size = 3 * (deep - 1 - k) + count;
        lent.file[3 * k] = 1;
        lent.file[3 * k + 1] = (uint8_t)size;
        lent.file[3 * k + 2] = (uint8_t)(size >> 8);
    }
    return 3 * deep + count;
}

static void depths(int line)
{
    static const uint8_t use[] = { USE }, unknown[] = { 7, 0, 0 }, small[] = { 2, 0, 0 }, cut[] = { 1, 1, 0 };
    size_t bytes = nested(8, NULL, 0);
    EXPECT(reads(bytes, 256, line) == 0 && reads(bytes, 255, line) == TRACK_NO_FREE_ENTRY);
    EXPECT(reads(nested(8, use, sizeof use), 16 * 17, line) == 0);
    bytes = nested(9, NULL, 0);
    EXPECT(reads(bytes, 16 * ITEMS, line) == 23 && reads(bytes, 0, line) == 23);
    EXPECT(reads(nested(9, use, sizeof use), 16 * ITEMS, line) == 23);
    EXPECT(reads(nested(9, unknown, sizeof unknown), 16 * ITEMS, line) == 23); /* what a group holds is read after it */
    EXPECT(reads(nested(8, unknown, sizeof unknown), 16 * ITEMS, line) == 21); /* before 23, of one field */
    EXPECT(reads(nested(8, small, sizeof small), 16 * ITEMS, line) == 22);
    EXPECT(reads(nested(8, cut, sizeof cut), 16 * ITEMS, line) == 20);
    bytes = nested(8, NULL, 0); /* two of them, each eight deep, pass */
    memcpy(lent.file + bytes, lent.file, bytes);
    EXPECT(reads(2 * bytes, 512, line) == 0 && reads(2 * bytes, 511, line) == TRACK_NO_FREE_ENTRY);
}

/* The longest length of two bytes, and the most groups that a file may have. */
static void long_files(int line)
{
    memset(lent.file, 0, sizeof lent.file);
    for (size_t k = 0; k < 65535; k += 3) memcpy(lent.file + 3 + k, (const uint8_t[]){ 1, 0, 0 }, 3);
    memcpy(lent.file, (const uint8_t[]){ 1, 255, 255 }, 3);
    const struct plain want = plain_read(lent.file, 65538, plain);
    EXPECT(want.number == 0 && 16 * want.count == TRACK_ITEMS_LENGTH(65538));
    EXPECT(reads(65538, 16, line) == TRACK_NO_FREE_ENTRY);
    EXPECT(reads(65537, 16, line) == 20);
    uint8_t *items = malloc(TRACK_ITEMS_LENGTH(65538));
    if (items == NULL) exit(1);
    answered(track_read_plan(lent.file, 65538, items, TRACK_ITEMS_LENGTH(65538)), 0, want.count, line);
    EXPECT(memcmp(items, plain, 16 * want.count) == 0);
    answered(track_read_plan(lent.file, 65538, items, TRACK_ITEMS_LENGTH(65538) - 1), TRACK_NO_FREE_ENTRY, 0, line);
    free(items);
}

/* ---- Lists, by letters: ( and ) open and close a group, u is a use, ? an item of another kind ---- */

static size_t list_of(const char *letters)
{
    static const uint8_t others[] = { 0, 4, 130, 255 };
    size_t count = 0;
    noise(lent.items, 16 * strlen(letters) + SPARE);
    for (; letters[count] != '\0'; count++) {
        const char letter = letters[count];
        lent.items[16 * count] = letter == '(' ? 1 : letter == 'u' ? 2 : letter == ')' ? 3 : others[below(4)];
    }
    return 16 * count;
}

static void list_is(const char *letters, uint32_t number, int line)
{
    const size_t bytes = list_of(letters), needed = plain_write(lent.items, bytes / 16, plain).count;
    EXPECT(writes(bytes, BYTES, line) == number);
    EXPECT(writes(bytes + 15, BYTES, line) == number); /* a rest of fewer than 16 bytes is no item */
    EXPECT(writes(bytes, needed, line) == number);
    if (needed > 0) EXPECT(writes(bytes, needed - 1, line) == TRACK_NO_FREE_ENTRY);
    if (number != 0) EXPECT(writes(bytes, 0, line) == number); /* 15 is last */
}
#define LIST_IS(number, letters) list_is((letters), (number), __LINE__)

static void balance(void)
{
    LIST_IS(0, "");
    LIST_IS(0, "u");
    LIST_IS(0, "()");
    LIST_IS(0, "u(u(u)u)u()");
    LIST_IS(0, "(((((((())))))))");
    LIST_IS(0, "(((((((u)))))))(((((((())))))))");
    LIST_IS(24, "(");
    LIST_IS(24, ")");
    LIST_IS(24, "?");
    LIST_IS(24, ")(");
    LIST_IS(24, "())(");
    LIST_IS(24, "(u");
    LIST_IS(24, "u)");
    LIST_IS(24, "(?)");
    LIST_IS(24, "?()");
    LIST_IS(24, "()?");
    LIST_IS(23, "((((((((()))))))))");
    LIST_IS(23, "u()((((((((u()))))))))");
    LIST_IS(24, "((((((((())))))))");    /* before 23, wherever it stands */
    LIST_IS(24, "((((((((()))))))))?");
    LIST_IS(24, "?((((((((()))))))))");
    LIST_IS(24, "((((((((()))))))))(");
}

/* A group of so many uses and empty groups, between these letters. */
static void long_group(size_t uses, size_t groups, const char *ahead, const char *behind, uint32_t number, int line)
{
    static char letters[ITEMS];
    EXPECT(strlen(ahead) + strlen(behind) + uses + 2 * groups + 2 < ITEMS);
    char *at = letters + sprintf(letters, "%s(", ahead);
    memset(at, 'u', uses);
    at += uses;
    for (size_t k = 0; k < groups; k++, at += 2) memcpy(at, "()", 2);
    sprintf(at, ")%s", behind);
    list_is(letters, number, line);
}
#define LONG_GROUP(number, uses, groups, ahead, behind) long_group((uses), (groups), (ahead), (behind), (number), __LINE__)

static void lengths(void)
{
    LONG_GROUP(0, 3640, 5, "", "");       /* 65,535 */
    LONG_GROUP(25, 3640, 6, "", "");      /* 65,538 */
    LONG_GROUP(25, 3641, 0, "", "");
    LONG_GROUP(0, 3640, 4, "(", ")");     /* 65,535 with the tag and length of the inner one */
    LONG_GROUP(25, 3640, 5, "(", ")");    /* the outer one */
    LONG_GROUP(0, 3640, 5, "u()", "()u"); /* what stands beside is not counted */
    LONG_GROUP(23, 3641, 0, "((((((((()))))))))", "");    /* 23 before 25, wherever it stands */
    LONG_GROUP(23, 3641, 0, "", "((((((((()))))))))");
    LONG_GROUP(24, 3641, 0, "", ")");                     /* 24 before 25 */
    LONG_GROUP(24, 3641, 0, "?((((((((()))))))))", "");   /* 24 before 23 and 25 */
    LONG_GROUP(25, 3641, 0, "u", "u");                    /* 25 before 15: list_is tries it without room */
}

/* ---- What a rest and no room come to ---- */

static void rooms(int line)
{
    static const uint8_t use[] = { USE };
    noise((uint8_t *)&lent, sizeof lent);
    memcpy(lent.file, use, sizeof use);
    EXPECT(reads(18, 15, line) == TRACK_NO_FREE_ENTRY && reads(18, 16, line) == 0 && reads(18, 31, line) == 0);
    EXPECT(reads(0, 0, line) == 0 && reads(0, 15, line) == 0);
    EXPECT(writes(16, 17, line) == TRACK_NO_FREE_ENTRY && writes(16, 18, line) == 0);
    for (size_t rest = 0; rest < 16; rest++) EXPECT(writes(rest, 0, line) == 0 && lists(rest, 0, line) == 0);
    EXPECT(lists(16, 7, line) == TRACK_NO_FREE_ENTRY && lists(16, 8, line) == 0 && lists(31, 15, line) == 0);
    EXPECT(listed.uses[0] == 0x04030201 && listed.uses[1] == 5 && listed.uses[2] == 0x0706 && listed.uses[3] == 8);
    EXPECT(listed.uses[4] == 9 && listed.uses[5] == 0x0b0a && listed.uses[6] == 0x0d0c && listed.uses[7] == 0x0f0e);
    list_of("?)u(?u"); /* no plan, and yet its uses are listed */
    EXPECT(lists(96, 15, line) == TRACK_NO_FREE_ENTRY && lists(96, 16, line) == 0);
    memset(lent.items, 0xff, 16);
    lent.items[0] = 2;
    EXPECT(lists(16, 8, line) == 0 && listed.uses[0] == UINT32_MAX && listed.uses[7] == 65535);
}

/* ---- Random files and lists ---- */

/* A list that is balanced, of at most so many items; one in four has an item changed. */
static size_t random_list(size_t most)
{
    char letters[64] = "";
    size_t count = 0, deep = 0;
    const uint32_t opens = 2 + below(6);
    for (const size_t end = below((uint32_t)most); count < end; count++) {
        const uint32_t turn = below(8);
        letters[count] = turn < opens / 2 && deep < 9 ? '(' : turn < opens && deep > 0 ? ')' : 'u';
        deep += letters[count] == '(';
        deep -= letters[count] == ')';
    }
    for (; deep > 0; deep--) letters[count++] = ')';
    if (count > 0 && below(4) == 0) letters[below((uint32_t)count)] = "()u?"[below(4)];
    return list_of(letters);
}

static size_t some_room(size_t needed)
{
    switch (below(4)) {
    case 0: return needed;
    case 1: return below((uint32_t)needed + 1);
    default: return needed + below(40);
    }
}

/* Writes a random list, reads what was written, also in more groups and with some bytes changed or cut, and lists the uses. */
static void random_calls(int line)
{
    for (unsigned k = 0; k < CALLS; k++) {
        const size_t bytes = random_list(48) + (below(4) == 0 ? below(16) : 0);
        const struct plain want = plain_write(lent.items, bytes / 16, plain);
        size_t length = want.count;
        (void)lists(bytes, some_room(8 * plain_uses(lent.items, bytes / 16, plain_numbers)), line);
        noise(lent.file, 18 * 64);
        if (writes(bytes, some_room(want.count), line) != 0) length = below(40);
        if (below(4) == 0) length = nested(1 + below(5), lent.file, length);
        if (length > 0 && below(3) == 0) lent.file[below((uint32_t)length)] ^= (uint8_t)(1u << below(8));
        if (below(4) == 0) length = below((uint32_t)length + 4);
        (void)reads(length, some_room(16 * plain_read(lent.file, length, plain).count), line);
    }
}

int main(void)
{
    fields();
    depths(__LINE__);
    long_files(__LINE__);
    balance();
    lengths();
    rooms(__LINE__);
    memset(read_as, 0, sizeof read_as);
    memset(written_as, 0, sizeof written_as);
    random_calls(__LINE__);
    for (uint32_t number = 20; number <= 23; number++) expect(read_as[number] > 100, __LINE__, "each refusal is among the random files");
    expect(read_as[0] > 10000 && read_as[15] > 1000, __LINE__, "files that are read, and too short room, are among them");
    expect(written_as[24] > 1000 && written_as[23] > 100 && written_as[15] > 1000, __LINE__, "so it is with lists");
    printf("C plans: %u random files as in plain lines, %u of them read; %u random lists, %u of them written; %u comparisons hold\n",
           (unsigned)CALLS, read_as[0], (unsigned)CALLS, written_as[0], checks);
    return 0;
}
