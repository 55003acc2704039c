/* Merging two logs into a third. Each answer is compared field by field with what a few plain lines of C give, every lent number with what
 * it must be then, sentinels around the logs and inside the third among them, and the address of the rest with the log that it is of. Then
 * what was merged and the rest are held against the words: every entry of both once, ascending, each log's own order kept. First the cases
 * of the closed form and each refusal at its edge, then random logs. */
#include "track.h"

#include <stdbool.h>
#include <stddef.h>
#include <stdio.h>
#include <stdlib.h>
#include <string.h>

_Static_assert(sizeof(track_merged_answer) == 80, "an answer, two counts, and the rest");
_Static_assert(offsetof(track_merged_answer, written) == 40 && offsetof(track_merged_answer, free) == 48, "the head");
_Static_assert(offsetof(track_merged_answer, rest_first) == 56, "which log the rest is of");
_Static_assert(offsetof(track_merged_answer, rest_offset) == 64 && offsetof(track_merged_answer, rest_length) == 72, "where it lies");

/* MOST entries a log, and some numbers more, so that a log can stop inside an entry. */
enum { ENTRY = 7, MOST = 12, LOG = ENTRY * MOST + 6, ROOM = 2 * MOST + 3, THIRD = ENTRY * ROOM + 6, SPARE = 9, CALLS = 60000 };

/* Every number that is lent, with numbers around each log that are not. */
static struct { uint32_t a[SPARE], first[LOG], b[SPARE], second[LOG], c[SPARE], third[THIRD], d[SPARE]; } lent, wanted;

/* What a call is given: how many numbers of each log, and the head of the third. */
struct given { size_t first, second, third, written, free; };

static unsigned checks, outcomes[32], ties;

static void expect(bool holds, int line, const char *what)
{
    checks++;
    if (holds) return;
    fprintf(stderr, "tests/c/logs.c:%d: %s\n", line, what);
    exit(1);
}
#define EXPECT(fact) expect((fact), line, #fact)

static uint32_t noise(void) /* xorshift: the same numbers in every run */
{
    static uint32_t x = 2463534242u;
    x ^= x << 13;
    x ^= x >> 17;
    x ^= x << 5;
    return x;
}

static uint32_t below(uint32_t n)
{
    return noise() % n;
}

/* ---- The same in plain lines ---- */

static bool in_order(const uint32_t *log, size_t length)
{
    for (size_t k = ENTRY; k < length; k += ENTRY)
        if (log[k] < log[k - ENTRY]) return false;
    return length % ENTRY == 0;
}

static track_merged_answer told(struct given g, uint32_t number, size_t merged, bool rest_first, size_t rest_offset)
{
    track_merged_answer want = { .written = g.written + merged, .free = g.free - merged, .rest_first = rest_first };
    want.answer.kind = number == 0 ? TRACK_DONE : TRACK_REFUSED;
    want.answer.number = number;
    want.rest_offset = rest_offset;
    want.rest_length = (rest_first ? g.first : g.second) - rest_offset;
    return want;
}

/* What the call must return. What must be lent after it is in `wanted`. */
static track_merged_answer plainly(struct given g)
{
    uint32_t merged[2 * LOG];
    size_t i = 0, j = 0;
    wanted = lent;
    if (g.written > g.third / ENTRY || g.free > g.third / ENTRY - g.written) return told(g, TRACK_LOG_TOO_SHORT, 0, false, g.second);
    if (!in_order(lent.first, g.first) || !in_order(lent.second, g.second)) return told(g, TRACK_LOG_OUT_OF_ORDER, 0, false, g.second);
    while (i < g.first && j < g.second) {
        const bool second = lent.second[j] < lent.first[i];
        memcpy(merged + i + j, second ? lent.second + j : lent.first + i, ENTRY * sizeof *merged);
        if (second) j += ENTRY;
        else i += ENTRY;
    }
    if ((i + j) / ENTRY > g.free) return told(g, TRACK_NO_FREE_ENTRY, 0, false, g.second);
    memcpy(wanted.third + ENTRY * g.written, merged, (i + j) * sizeof *merged);
    return told(g, 0, (i + j) / ENTRY, i < g.first, i < g.first ? i : j);
}

/* ---- The words of the request, of a call that was done ---- */

/* The fourth and fifth number of an entry tell its log, 0 or 1, and its place there. */
enum { OF = 3, AT = 4 };

/* Every entry of both once, ascending, each log's own order kept, and of equal ones the first's first. */
static void whole(struct given g, track_merged_answer got, int line)
{
    const uint32_t *rest = (got.rest_first != 0 ? lent.first : lent.second) + got.rest_offset, *last = NULL;
    const size_t merged = got.written - g.written, all = merged + got.rest_length / ENTRY;
    size_t next[2] = { 0, 0 };
    for (size_t k = 0; k < all; k++) {
        const uint32_t *entry = k < merged ? lent.third + ENTRY * (g.written + k) : rest + ENTRY * (k - merged);
        EXPECT(entry[OF] < 2 && entry[AT] == next[entry[OF]]);
        next[entry[OF]]++;
        EXPECT(last == NULL || last[0] < entry[0] || (last[0] == entry[0] && last[OF] <= entry[OF]));
        if (last != NULL && last[0] == entry[0] && last[OF] != entry[OF]) ties++;
        last = entry;
    }
    EXPECT(next[0] == g.first / ENTRY && next[1] == g.second / ENTRY);
}

/* How many entries are merged, in closed form. */
static size_t merged_of(struct given g)
{
    size_t count = 0;
    if (g.first == 0 || g.second == 0) return 0;
    const uint32_t a = lent.first[g.first - ENTRY], b = lent.second[g.second - ENTRY];
    for (size_t k = 0; k < g.first; k += ENTRY) count += b >= a || lent.first[k] <= b;
    for (size_t k = 0; k < g.second; k += ENTRY) count += b < a || lent.second[k] < a;
    return count;
}

/* ---- Comparing ---- */

static track_merged_answer compare(struct given g, int line)
{
    const track_merged_answer want = plainly(g);
    const track_merged_answer got = track_merge_logs(lent.first, g.first, lent.second, g.second, lent.third, g.third, g.written, g.free);
    EXPECT(got.answer.kind == want.answer.kind && got.answer.number == want.answer.number);
    EXPECT(got.answer.place == 0 && got.answer.index == 0 && got.answer.mip_start == 0 && got.answer.mip_end == 0);
    EXPECT(got.answer.layer_start == 0 && got.answer.layer_end == 0 && got.answer.old_state == 0 && got.answer.new_state == 0);
    EXPECT(got.written == want.written && got.free == want.free);
    EXPECT(got.rest_first == want.rest_first && got.rest_offset == want.rest_offset && got.rest_length == want.rest_length);
    EXPECT(memcmp(&lent, &wanted, sizeof lent) == 0);

    /* The rest is the end of what was lent of its own log. */
    const uint32_t *log = got.rest_first != 0 ? lent.first : lent.second, *end = log + (got.rest_first != 0 ? g.first : g.second);
    const uint32_t *rest = log + got.rest_offset;
    EXPECT(log <= rest && rest <= end && rest + got.rest_length == end);
    if (got.answer.kind == TRACK_DONE) {
        EXPECT(got.written - g.written == merged_of(g));
        whole(g, got, line);
    }
    outcomes[got.answer.number]++;
    return got;
}

/* ---- Logs ---- */

static void entry(uint32_t *numbers, uint32_t index, uint32_t of, size_t at)
{
    for (size_t k = 0; k < ENTRY; k++) numbers[k] = noise();
    numbers[0] = index;
    numbers[OF] = of;
    numbers[AT] = (uint32_t)at;
}

/* A log with an entry for each letter: a digit is its index, x the largest index. Returns its length. */
static size_t log_of(uint32_t *log, const char *letters, uint32_t of)
{
    size_t count = 0;
    for (; letters[count] != '\0'; count++)
        entry(log + ENTRY * count, letters[count] == 'x' ? UINT32_MAX : (uint32_t)(letters[count] - '0'), of, count);
    return ENTRY * count;
}

/* Two logs over sentinels, and a third with two older entries, which mean nothing, and room for all of both. */
static struct given logs(const char *first, const char *second)
{
    for (size_t k = 0; k < sizeof lent / sizeof(uint32_t); k++) ((uint32_t *)&lent)[k] = noise();
    struct given g = { .third = THIRD, .written = 2, .free = ROOM - 2 };
    g.first = log_of(lent.first, first, 0);
    g.second = log_of(lent.second, second, 1);
    return g;
}

/* ---- The cases of the closed form ---- */

/* `order` has a letter for each entry that is merged, a or b, the log that it is of. `left` entries of log `rest` are the rest. With as
 * many free entries as are merged it is done, with one less it is 15. */
static void merges(const char *first, const char *second, const char *order, char rest, size_t left, int line)
{
    struct given g = logs(first, second);
    g.free = strlen(order);
    const track_merged_answer got = compare(g, line);
    EXPECT(got.answer.kind == TRACK_DONE && got.written == 2 + strlen(order) && got.free == 0);
    for (size_t k = 0; order[k] != '\0'; k++) EXPECT(lent.third[ENTRY * (2 + k) + OF] == (uint32_t)(order[k] - 'a'));
    EXPECT(got.rest_first == (rest == 'a') && got.rest_length == ENTRY * left);
    if (g.free == 0) return;
    g = logs(first, second);
    g.free = strlen(order) - 1;
    EXPECT(compare(g, line).answer.number == TRACK_NO_FREE_ENTRY);
}
#define MERGES(first, second, order, rest, left) merges((first), (second), (order), (rest), (left), __LINE__)

static void closed_form(void)
{
    MERGES("", "", "", 'b', 0);
    MERGES("", "3", "", 'b', 1);
    MERGES("3", "", "", 'a', 1);
    MERGES("", "0022", "", 'b', 4);
    MERGES("0022", "", "", 'a', 4);
    MERGES("1", "0", "b", 'a', 1); /* the second is used up where its last is below the first's last */
    MERGES("0358", "14", "abab", 'a', 2);
    MERGES("0448", "14", "abaab", 'a', 1);
    MERGES("789", "123", "bbb", 'a', 3);
    MERGES("5556", "555", "aaabbb", 'a', 1);
    MERGES("1", "1", "a", 'b', 1); /* otherwise the first */
    MERGES("1", "2", "a", 'b', 1);
    MERGES("025", "129", "ababa", 'b', 1);
    MERGES("123", "789", "aaa", 'b', 3);
    MERGES("555", "555", "aaa", 'b', 3);
    MERGES("45", "455", "aba", 'b', 2);
    MERGES("4555", "5", "aaaa", 'b', 1);
    MERGES("x", "x", "a", 'b', 1); /* the largest index */
    MERGES("0x", "xx", "aa", 'b', 2);
    MERGES("xx", "0", "b", 'a', 2);
    MERGES("0", "x", "a", 'b', 1);
}

/* One log as both. */
static void same_twice(int line)
{
    static const size_t order[] = { 0, 0, 1, 2, 1, 2, 3 };
    const struct given g = logs("1223", "");
    wanted = lent;
    for (size_t k = 0; k < 7; k++) memcpy(wanted.third + ENTRY * k, lent.first + ENTRY * order[k], ENTRY * sizeof(uint32_t));
    const track_merged_answer got = track_merge_logs(lent.first, g.first, lent.first, g.first, lent.third, g.third, 0, ROOM);
    EXPECT(got.answer.kind == TRACK_DONE && got.written == 7 && got.free == ROOM - 7);
    EXPECT(got.rest_first == 0 && got.rest_offset == 3 * ENTRY && got.rest_length == ENTRY);
    EXPECT(memcmp(&lent, &wanted, sizeof lent) == 0);
}

/* ---- Refusals: the edge that passes, and the one that does not ---- */

/* With these, and whatever it says of the rest and of what stays, the call is refused so. */
static void refused(struct given g, uint32_t number, int line)
{
    const track_merged_answer got = compare(g, line);
    EXPECT(got.answer.kind == TRACK_REFUSED && got.answer.number == number);
    EXPECT(got.written == g.written && got.free == g.free);
    EXPECT(got.rest_first == 0 && got.rest_offset == g.second && got.rest_length == 0);
}

/* Logs of these letters with a head of the third. */
static struct given headed(const char *first, const char *second, size_t third, size_t written, size_t left)
{
    struct given g = logs(first, second);
    g.third = third;
    g.written = written;
    g.free = left;
    return g;
}
#define HEADED(number, ...) refused(headed(__VA_ARGS__), (number), __LINE__)
#define PASSES(...) expect(compare(headed(__VA_ARGS__), __LINE__).answer.kind == TRACK_DONE, __LINE__, "it is done")

static void heads(void)
{
    PASSES("13", "2", ENTRY * 4, 2, 2);
    HEADED(TRACK_LOG_TOO_SHORT, "13", "2", ENTRY * 4 - 1, 2, 2);
    HEADED(TRACK_LOG_TOO_SHORT, "13", "2", ENTRY * 4, 3, 2);
    HEADED(TRACK_LOG_TOO_SHORT, "13", "2", ENTRY * 4, 2, 3);
    HEADED(TRACK_LOG_TOO_SHORT, "13", "2", ENTRY * 4, SIZE_MAX, 2); /* where a sum would wrap */
    HEADED(TRACK_LOG_TOO_SHORT, "13", "2", ENTRY * 4, 2, SIZE_MAX);
    HEADED(TRACK_LOG_TOO_SHORT, "", "", 0, 1, 0);
    HEADED(TRACK_LOG_TOO_SHORT, "", "", ENTRY - 1, 0, 1);
    PASSES("", "", 0, 0, 0);
    PASSES("3", "", 0, 0, 0);
    HEADED(TRACK_LOG_TOO_SHORT, "31", "2", ENTRY * 4, 3, 2); /* before 31 */
    HEADED(TRACK_LOG_TOO_SHORT, "13", "32", ENTRY, 2, 0);    /* before 31 and 15 */
}

/* 31 of a log that descends: where it is merged, and in what would be the rest; also of the other log, and before 15. */
static void descents(void)
{
    static const char *const pairs[][2] = {
        { "10", "" }, { "", "10" }, { "10", "5" }, { "5", "10" }, { "10", "0" }, { "0", "10" }, { "0198", "05" }, { "05", "0798" },
        { "019x8", "05" }, { "05", "07x8" }, { "321", "123" }, { "123", "321" }, { "x0", "x" }, { "x", "x0" }, { "121", "121" }
    };
    for (size_t k = 0; k < sizeof pairs / sizeof *pairs; k++) {
        HEADED(TRACK_LOG_OUT_OF_ORDER, pairs[k][0], pairs[k][1], THIRD, 2, ROOM - 2);
        HEADED(TRACK_LOG_OUT_OF_ORDER, pairs[k][0], pairs[k][1], THIRD, ROOM, 0);
    }
}

/* 31 of a log that stops inside an entry, the other in order or empty. */
static void stops(void)
{
    static const char *const pairs[][2] = { { "13", "2" }, { "13", "" }, { "", "2" }, { "", "" } };
    for (size_t k = 0; k < sizeof pairs / sizeof *pairs; k++) {
        for (size_t more = 1; more < ENTRY; more++) {
            struct given g = logs(pairs[k][0], pairs[k][1]);
            g.first += more;
            refused(g, TRACK_LOG_OUT_OF_ORDER, __LINE__);
            g.first -= more;
            g.second += more;
            refused(g, TRACK_LOG_OUT_OF_ORDER, __LINE__);
            g.first += more;
            g.free = 0; /* before 15 */
            refused(g, TRACK_LOG_OUT_OF_ORDER, __LINE__);
        }
    }
}

/* ---- Random logs ---- */

static size_t random_log(uint32_t *log, uint32_t of)
{
    static const uint32_t steps[] = { 1, 2, 3, 20 };
    const size_t count = below(4) == 0 ? below(3) : below(MOST + 1);
    const uint32_t step = steps[below(4)];
    uint32_t index = below(4) == 0 ? UINT32_MAX - 100 + below(90) : below(6);
    for (size_t k = 0; k < count; k++) {
        const uint32_t more = below(step);
        index = more > UINT32_MAX - index ? UINT32_MAX : index + more;
        entry(log + ENTRY * k, index, of, k);
    }
    if (count > 1 && below(12) == 0) {
        const size_t at = 1 + below((uint32_t)count - 1);
        log[ENTRY * at] = below(6); /* perhaps a descent */
    }
    return ENTRY * count + (below(16) == 0 ? below(ENTRY) : 0);
}

static void random_calls(void)
{
    for (unsigned k = 0; k < CALLS; k++) {
        struct given g = logs("", "");
        g.first = random_log(lent.first, 0);
        g.second = random_log(lent.second, 1);
        g.third = below(8) == 0 ? below(THIRD + 1) : THIRD;
        g.written = below((uint32_t)(g.third / ENTRY) + 1);
        g.free = g.third / ENTRY - g.written;
        if (below(3) == 0) g.free = below((uint32_t)g.free + 1);
        if (below(16) == 0) g.free += 1;
        compare(g, __LINE__);
    }
}

int main(void)
{
    closed_form();
    same_twice(__LINE__);
    heads();
    descents();
    stops();
    memset(outcomes, 0, sizeof outcomes);
    ties = 0;
    random_calls();
    const unsigned done = outcomes[0], head = outcomes[TRACK_LOG_TOO_SHORT], order = outcomes[TRACK_LOG_OUT_OF_ORDER];
    const unsigned room = outcomes[TRACK_NO_FREE_ENTRY];
    expect(done > 20000 && head > 1000 && order > 1000 && room > 1000 && ties > 1000, __LINE__, "every outcome is among the random calls");
    printf("C logs: %u random merges as in plain lines: %u done, %u refused for the head, %u for the order, %u for want of room; "
           "%u comparisons hold\n", (unsigned)CALLS, done, head, order, room, checks);
    return 0;
}
