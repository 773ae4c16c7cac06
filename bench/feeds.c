/* A sheet of so many lines, some of each kind in turn, run once or fed in pieces, as often as asked; prints what is left and, on standard error, the
 * nanoseconds that one pass takes at its quickest. `bench/feeds` counts the instructions of two lengths and takes the difference. */
#define _POSIX_C_SOURCE 199309L
#include <stdint.h>
#include <stdio.h>
#include <stdlib.h>
#include <string.h>
#include <time.h>

#include "taleviqa.h"

#define POINTS 64
#define CONTROLS 16

/* vectors on x, Grid, references 0, 1 and 2 */
static const struct {
    int32_t words[8];
    int length;
} kinds[] = {
    {{0x2f, 1, 5}, 3}, {{0x3f, 2, 3, 5}, 4}, {{0x3a, 2, 64, 5}, 4}, {{0x3c, 1, 5}, 3},    {{0x32, 1, 5}, 3},
    {{0x38, 2, 64, 5}, 4}, {{0xc0, 1, 5}, 3}, {{0x80, 1, 5}, 3}, {{0x10, 1, 0}, 3}, {{0x18, 0}, 2},
};

static int32_t unscaled[2][POINTS], original[2][POINTS], current[2][POINTS], controls[CONTROLS], tox[POINTS], toy[POINTS], tx[POINTS], ty[POINTS];
static uint8_t flags[POINTS], tflags[POINTS];
static const uint16_t contours[] = {POINTS - 1};
static uint32_t state[TALEVIQA_STATE_WORDS];

static void fill(void)
{
    static const uint32_t fresh[TALEVIQA_STATE_WORDS] = TALEVIQA_FRESH_STATE;

    memcpy(state, fresh, sizeof fresh);
    state[TALEVIQA_RP1_LOW] = 1;
    state[TALEVIQA_RP2_LOW] = 2;
    for (int i = 0; i < POINTS; i++) {
        unscaled[0][i] = 37 * i; unscaled[1][i] = 53 * (i % 7);
        original[0][i] = 64 * i + 11; original[1][i] = 90 * (i % 7) + 5;
        current[0][i] = 64 * i + 29; current[1][i] = 90 * (i % 7) + 20;
        tox[i] = tx[i] = 70 * i; toy[i] = ty[i] = 33 * i;
        flags[i] = 1; tflags[i] = 0;
    }
    for (int i = 0; i < CONTROLS; i++) controls[i] = 100 * i + 7;
}

#define READ controls, CONTROLS, unscaled[0], POINTS, unscaled[1], POINTS, original[0], POINTS, original[1], POINTS
#define CHANGED current[0], POINTS, current[1], POINTS, flags, POINTS, contours, 1, tox, POINTS, toy, POINTS, tx, POINTS, ty, POINTS, tflags, POINTS

static uint64_t run(const int32_t *sheet, size_t words)
{
    uint64_t answer[TALEVIQA_ANSWER_WORDS];

    taleviqa_run(TALEVIQA_RULES_FREETYPE, 0, words, state, TALEVIQA_STATE_WORDS, sheet, words, READ, CHANGED, answer, TALEVIQA_ANSWER_WORDS);
    return answer[TALEVIQA_NUMBER] * 1000000 + answer[TALEVIQA_LINES];
}

static uint64_t feed(const int32_t *sheet, size_t words, size_t piece)
{
    static int32_t carry[TALEVIQA_CARRY_WORDS];
    uint64_t kept[TALEVIQA_FEED_WORDS] = TALEVIQA_FRESH_FEED, lines = 0;

    for (size_t at = 0; at < words; at += piece) {
        size_t size = words - at < piece ? words - at : piece;

        taleviqa_feed(TALEVIQA_RULES_FREETYPE, state, TALEVIQA_STATE_WORDS, sheet + at, size, carry, TALEVIQA_CARRY_WORDS, READ, CHANGED, kept, TALEVIQA_FEED_WORDS);
        lines += kept[TALEVIQA_FEED_LINES];
    }
    taleviqa_feed_end(state, TALEVIQA_STATE_WORDS, carry, TALEVIQA_CARRY_WORDS, READ, CHANGED, kept, TALEVIQA_FEED_WORDS);
    return kept[TALEVIQA_FEED_NUMBER] * 1000000 + lines;
}

int main(int argc, char **argv)
{
    if (argc != 4) return 2;
    size_t lines = strtoul(argv[1], NULL, 10), piece = strtoul(argv[2], NULL, 10), passes = strtoul(argv[3], NULL, 10), words = 0;
    int32_t *sheet = malloc(lines * sizeof kinds[0].words);
    uint64_t sum = 0, least = UINT64_MAX;

    for (size_t i = 0; i < lines; i++) {
        size_t k = i % (sizeof kinds / sizeof kinds[0]);

        memcpy(sheet + words, kinds[k].words, (size_t)kinds[k].length * sizeof *sheet);
        words += (size_t)kinds[k].length;
    }
    for (; passes; passes--) {
        struct timespec from, to;

        fill();
        clock_gettime(CLOCK_MONOTONIC, &from);
        sum = piece ? feed(sheet, words, piece) : run(sheet, words);
        clock_gettime(CLOCK_MONOTONIC, &to);
        uint64_t took = (uint64_t)(to.tv_sec - from.tv_sec) * 1000000000u + (uint64_t)to.tv_nsec - (uint64_t)from.tv_nsec;
        if (took < least) least = took;
    }
    for (int i = 0; i < POINTS; i++) sum = sum * 31 + (uint32_t)current[0][i] + 7u * (uint32_t)current[1][i] + flags[i] + (uint32_t)tx[i] + (uint32_t)tox[i] + (uint32_t)ty[i] + tflags[i];
    printf("%llu\n", (unsigned long long)sum);
    fprintf(stderr, "%llu\n", (unsigned long long)least);
    free(sheet);
    return 0;
}
