/* Plans in plain lines, from the words of the request and not from the library: what a file must be read as, and a list of items written
 * as. Both go forward with the open groups on a stack, where the library reads by recursion and writes from the end. tests/c/plans.c and
 * tests/fuzz/plans.c hold the library against them. */
#ifndef PLAIN_PLANS_H
#define PLAIN_PLANS_H

#include "track.h"

#include <stdbool.h>
#include <string.h>

/* A refusal, or 0, and how many items or bytes there are then. */
struct plain { uint32_t number; size_t count; };

static struct plain plain_refused(uint32_t number)
{
    const struct plain refused = { .number = number, .count = 0 };
    return refused;
}

/* The next item of items. */
static size_t plain_item(uint8_t *items, size_t count, uint8_t kind, const uint8_t *use)
{
    uint8_t *item = items + 16 * count;
    memset(item, 0, 16);
    item[0] = kind;
    if (use != NULL) memcpy(item + 1, use, 15);
    return count + 1;
}

/* Reads a file into items, which have room for any file of that length. What room a caller has is not looked at. */
static struct plain plain_read(const uint8_t *file, size_t length, uint8_t *items)
{
    struct plain plan = { .number = 0, .count = 0 };
    size_t ends[9] = { length }, deep = 0, at = 0;
    for (;;) {
        while (deep > 0 && at == ends[deep]) {
            plan.count = plain_item(items, plan.count, 3, NULL);
            deep--;
        }
        if (at == length) return plan;
        const size_t left = ends[deep] - at; /* to the end of the innermost group */
        if (left < 3) return plain_refused(20);
        const size_t size = (size_t)(file[at + 1] | file[at + 2] << 8);
        if (size > left - 3) return plain_refused(20);
        if (file[at] != 1 && file[at] != 2) return plain_refused(21);
        if (file[at] == 2 && size != 15) return plain_refused(22);
        if (file[at] == 1 && deep == 8) return plain_refused(23);
        at += 3;
        if (file[at - 3] == 2) {
            plan.count = plain_item(items, plan.count, 2, file + at);
            at += 15;
        } else {
            plan.count = plain_item(items, plan.count, 1, NULL);
            ends[++deep] = at + size;
        }
    }
}

/* 24 or 23, or 0 if every opened group is closed and none is too deep. */
static uint32_t plain_balance(const uint8_t *items, size_t count)
{
    size_t deep = 0, deepest = 0;
    for (size_t k = 0; k < count; k++) {
        const uint8_t kind = items[16 * k];
        if (kind < 1 || kind > 3 || (kind == 3 && deep == 0)) return 24;
        if (kind == 1) deep++;
        if (kind == 3) deep--;
        if (deep > deepest) deepest = deep;
    }
    if (deep != 0) return 24;
    return deepest > 8 ? 23 : 0;
}

/* Writes count items to a file that has room for any so many. */
static struct plain plain_write(const uint8_t *items, size_t count, uint8_t *file)
{
    struct plain written = { .number = plain_balance(items, count), .count = 0 };
    size_t opened[8], deep = 0, at = 0;
    if (written.number != 0) return written;
    bool wide = false;
    for (size_t k = 0; k < count; k++) {
        const uint8_t *item = items + 16 * k;
        if (item[0] == 3) { /* what the group holds is known only now */
            const size_t start = opened[--deep], size = at - start;
            wide = wide || size > 65535;
            file[start - 2] = (uint8_t)size;
            file[start - 1] = (uint8_t)(size >> 8);
            continue;
        }
        file[at] = item[0] == 1 ? 1 : 2;
        file[at + 1] = 15;
        file[at + 2] = 0;
        at += 3;
        if (item[0] == 1) {
            opened[deep++] = at;
        } else {
            memcpy(file + at, item + 1, 15);
            at += 15;
        }
    }
    if (wide) return plain_refused(25);
    written.count = at;
    return written;
}

/* Lists the uses among items as eight numbers each; all that there are. */
static size_t plain_uses(const uint8_t *items, size_t count, uint32_t *uses)
{
    static const size_t widths[] = { 4, 1, 2, 1, 1, 2, 2, 2 };
    size_t listed = 0;
    for (size_t k = 0; k < count; k++) {
        const uint8_t *byte = items + 16 * k + 1;
        if (items[16 * k] != 2) continue;
        for (size_t j = 0; j < 8; j++) {
            uint32_t number = 0;
            for (size_t shift = 0; shift < widths[j]; shift++) number += (uint32_t)*byte++ << 8 * shift;
            uses[8 * listed + j] = number;
        }
        listed++;
    }
    return listed;
}

#endif
