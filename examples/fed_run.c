/* Document 01's whole run over a glyph of three points, as its sheet arrives: the words come from standard input, four bytes each, the low byte first, and
 * what each read returns is fed at once. Prints number, place, lines and detail, then x, y and flag of each point.
 *
 *     printf '\0\0\0\0\0\0\0\0\57\0\0\0\1\0\0\0\0\0\0\0\60\0\0\0\0\0\0\0' | ./fed_run */
#include <inttypes.h>
#include <stdio.h>
#include <unistd.h>

#include "taleviqa.h"

#define POINTS 3
#define BLOCK 4096

static uint32_t state[TALEVIQA_STATE_WORDS] = TALEVIQA_FRESH_STATE;
static uint64_t feed[TALEVIQA_FEED_WORDS] = TALEVIQA_FRESH_FEED;
static int32_t carry[TALEVIQA_CARRY_WORDS];
static const int32_t unscaled_x[POINTS] = {0, 0, 0}, unscaled_y[POINTS] = {40, 100, 130};
static const int32_t original_x[POINTS] = {0, 0, 0}, original_y[POINTS] = {40, 100, 130};
static int32_t x[POINTS] = {0, 0, 0}, y[POINTS] = {40, 100, 130};
static uint8_t flags[POINTS] = {1, 1, 1};
static const uint16_t contours[] = {2};

/* What every call is given between the carry and the feed. */
#define GLYPH \
    NULL, 0, unscaled_x, POINTS, unscaled_y, POINTS, original_x, POINTS, original_y, POINTS, x, POINTS, y, POINTS, flags, POINTS, contours, 1, \
    NULL, 0, NULL, 0, NULL, 0, NULL, 0, NULL, 0

int main(void)
{
    uint8_t bytes[BLOCK];
    int32_t words[BLOCK / 4];
    uint64_t lines = 0;
    size_t waiting = 0; /* bytes of a word that isn't whole yet */
    ssize_t got;

    while ((got = read(STDIN_FILENO, bytes + waiting, BLOCK - waiting)) > 0) {
        size_t end = waiting + (size_t)got, whole = end / 4;

        for (size_t k = 0; k < whole; k++)
            words[k] = (int32_t)(bytes[4 * k] | (uint32_t)bytes[4 * k + 1] << 8 | (uint32_t)bytes[4 * k + 2] << 16 | (uint32_t)bytes[4 * k + 3] << 24);
        for (waiting = 0; waiting < end % 4; waiting++) bytes[waiting] = bytes[4 * whole + waiting];
        if (taleviqa_feed(TALEVIQA_RULES_FREETYPE, state, TALEVIQA_STATE_WORDS, words, whole, carry, TALEVIQA_CARRY_WORDS, GLYPH, feed, TALEVIQA_FEED_WORDS)
            != TALEVIQA_OUT_OF_BUDGET)
            break;
        lines += feed[TALEVIQA_FEED_LINES];
    }
    if (got < 0 || (got == 0 && waiting)) {
        fprintf(stderr, "%s; send the whole sheet again\n", got < 0 ? "standard input cannot be read" : "the input ends within a word");
        return 2;
    }
    if (got == 0) taleviqa_feed_end(state, TALEVIQA_STATE_WORDS, carry, TALEVIQA_CARRY_WORDS, GLYPH, feed, TALEVIQA_FEED_WORDS);
    printf("%" PRIu64 " %" PRIu64 " %" PRIu64 " %" PRIu64 "\n",
           feed[TALEVIQA_FEED_NUMBER], feed[TALEVIQA_FEED_PLACE], lines + (got == 0 ? 0 : feed[TALEVIQA_FEED_LINES]), feed[TALEVIQA_FEED_DETAIL]);
    for (int i = 0; i < POINTS; i++)
        printf("%" PRId32 " %" PRId32 " %d\n", x[i], y[i], flags[i]);
    return feed[TALEVIQA_FEED_NUMBER] == TALEVIQA_FINISHED ? 0 : 1;
}
