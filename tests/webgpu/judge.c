/* The library's yes or no: reads usage scopes, one a line, and writes 1 if merge_single takes every use of it, 0 if one conflicts.
 *
 *   judge EXCLUSIVE UNINITIALIZED COMPLEX UNKNOWN < SCOPES
 *
 * A line is MIPS LAYERS COUNT, then COUNT times INDEX MIPSTART MIPEND LAYERSTART LAYEREND STATE; INDEX is 0 or 1. A use that is refused
 * is a fault of whoever made the line: status 1. */
#include "track.h"
#include <stdio.h>
#include <stdlib.h>

#define TEXTURES 2
static uint32_t table[TRACK_TABLE_LENGTH];
static uint32_t ranges[TRACK_RANGES_LENGTH(TEXTURES, TRACK_MAX_MIPS, TRACK_MAX_LAYERS)];

static void check(track_answer answer) {
    if (answer.kind != TRACK_REFUSED) return;
    fprintf(stderr, "judge: refused, number %u\n", (unsigned)answer.number);
    exit(1);
}

static uint32_t number(void) {
    unsigned value;
    if (scanf("%u", &value) != 1) {
        fprintf(stderr, "judge: a line ends too early\n");
        exit(1);
    }
    return value;
}

static int fits(uint32_t mips, uint32_t layers, uint32_t count) {
    int all = 1;
    while (count-- > 0) {
        uint32_t n[6];
        for (int k = 0; k < 6; k++) n[k] = number();
        if (!all) continue;
        track_answer answer = track_merge_single(table, ranges, sizeof ranges / sizeof *ranges, n[0], mips, layers, 1,
                                                 n[1], n[2], n[3], n[4], (uint16_t)n[5]);
        check(answer);
        all = answer.kind == TRACK_DONE;
    }
    return all;
}

int main(int argc, char **argv) {
    unsigned mips;
    if (argc != 5) return 2;
    uint32_t flags[4];
    for (int k = 0; k < 4; k++) flags[k] = (uint32_t)strtoul(argv[k + 1], NULL, 10);
    while (scanf("%u", &mips) == 1) {
        uint32_t layers = number(), count = number();
        check(track_open_scope(table, ranges, sizeof ranges / sizeof *ranges, TEXTURES, mips, layers,
                               flags[0], flags[1], flags[2], flags[3]));
        printf("%d\n", fits(mips, layers, count));
    }
    return 0;
}
