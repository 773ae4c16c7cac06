/* What a call from C does by the number of its rules. MSIRP of a twilight point tells the two apart: under skrifa's rules the point is made from its own
 * original, under FreeType's from rp0's, and what is moved then is the current point in either case. MSIRP of a glyph point does the same under both, and
 * so does a MSIRP that is refused. A number that no rules have is answered 16, and nothing is changed but the answer. Prints what is amiss. */
#include <inttypes.h>
#include <stdio.h>
#include <string.h>

#include "taleviqa.h"

#define LENGTH(list) (sizeof(list) / sizeof((list)[0]))

/* Two points in each zone: rp0 is point 0, and the line moves point 1. */
struct world {
    uint32_t state[TALEVIQA_STATE_WORDS];
    int32_t x[2], y[2], twilight_original_x[2], twilight_original_y[2], twilight_x[2], twilight_y[2];
    uint8_t flags[2], twilight_flags[2];
};

static int amiss = 0;

/* All vectors along x, both pointers of the line to one zone. */
static struct world made(uint32_t zone)
{
    static const uint32_t fresh[TALEVIQA_STATE_WORDS] = TALEVIQA_FRESH_STATE;
    struct world w;

    memset(&w, 0, sizeof w);
    memcpy(w.state, fresh, sizeof fresh);
    w.state[TALEVIQA_ZP0] = w.state[TALEVIQA_ZP1] = zone;
    w.x[0] = 1100, w.y[0] = 500, w.x[1] = 1, w.y[1] = 2;
    w.twilight_original_x[0] = 1000, w.twilight_original_y[0] = 500, w.twilight_original_x[1] = 7, w.twilight_original_y[1] = 9;
    w.twilight_x[0] = 1100, w.twilight_y[0] = 500, w.twilight_x[1] = 1, w.twilight_y[1] = 2;
    return w;
}

/* MSIRP[0], distance 64, of a point; the run starts at word 0. */
static uint32_t run(uint32_t rules, struct world *w, int32_t point, uint64_t answer[TALEVIQA_ANSWER_WORDS])
{
    static const int32_t unscaled[2] = {0, 0}, original_x[2] = {1000, 7}, original_y[2] = {500, 9};
    static const uint16_t contours[] = {1};
    const int32_t sheet[] = {0x3a, 2, 64, point};

    return taleviqa_run(rules, 0, 1, w->state, LENGTH(w->state), sheet, LENGTH(sheet), NULL, 0,
                        unscaled, 2, unscaled, 2, original_x, 2, original_y, 2, w->x, 2, w->y, 2, w->flags, 2, contours, LENGTH(contours),
                        w->twilight_original_x, 2, w->twilight_original_y, 2, w->twilight_x, 2, w->twilight_y, 2, w->twilight_flags, 2,
                        answer, TALEVIQA_ANSWER_WORDS);
}

static void expect(int holds, const char *what, uint32_t rules, int64_t number)
{
    if (!holds) {
        printf("tests/lib/two_rules.c: rules %" PRIu32 ": %s: %" PRId64 "\n", rules, what, number);
        amiss = 1;
    }
}

/* A twilight point is made here; its current point goes 64 from rp0's, whatever the rules. */
static void made_at(uint32_t rules, int32_t original_x, int32_t original_y)
{
    struct world wanted = made(0), w = made(0);
    uint64_t answer[TALEVIQA_ANSWER_WORDS] = {99, 99, 99, 99};
    static const uint64_t done[TALEVIQA_ANSWER_WORDS] = {TALEVIQA_FINISHED, 4, 1, 0};
    uint32_t number = run(rules, &w, 1, answer);

    expect(number == TALEVIQA_FINISHED && memcmp(answer, done, sizeof done) == 0, "MSIRP into twilight is answered", rules, number);
    expect(w.twilight_original_x[1] == original_x, "the original's x is", rules, w.twilight_original_x[1]);
    expect(w.twilight_original_y[1] == original_y, "the original's y is", rules, w.twilight_original_y[1]);
    expect(w.twilight_x[1] == 1100 + 64, "the current x is", rules, w.twilight_x[1]);
    expect(w.twilight_y[1] == original_y, "the current y is", rules, w.twilight_y[1]);
    /* and nothing else is another: the point is touched in x, rp1 stays 0 and rp2 is the point */
    wanted.twilight_original_x[1] = original_x, wanted.twilight_original_y[1] = original_y;
    wanted.twilight_x[1] = 1100 + 64, wanted.twilight_y[1] = original_y;
    wanted.twilight_flags[1] = 2;
    wanted.state[TALEVIQA_RP2_LOW] = 1;
    expect(memcmp(&w, &wanted, sizeof w) == 0, "something else is left, the point's flag is", rules, w.twilight_flags[1]);
}

/* A line comes to one number and leaves one world, whatever the rules. */
static void alike(uint32_t zone, uint32_t pedantic, int32_t point, uint32_t wanted)
{
    struct world w[2];
    uint64_t answer[2][TALEVIQA_ANSWER_WORDS];

    for (uint32_t rules = TALEVIQA_RULES_SKRIFA; rules <= TALEVIQA_RULES_FREETYPE; rules++) {
        uint32_t number;

        w[rules] = made(zone);
        w[rules].state[TALEVIQA_PEDANTIC] = pedantic;
        number = run(rules, &w[rules], point, answer[rules]);
        expect(number == wanted, "a MSIRP that all rules do alike is answered", rules, number);
    }
    expect(memcmp(&w[0], &w[1], sizeof w[0]) == 0 && memcmp(answer[0], answer[1], sizeof answer[0]) == 0, "other rules do otherwise, zone", 0, zone);
}

/* No rules have this number: 16, the start, and nothing else. */
static void refused(uint32_t rules)
{
    struct world before = made(0), after = made(0);
    uint64_t answer[TALEVIQA_ANSWER_WORDS] = {99, 99, 99, 99};
    static const uint64_t wanted[TALEVIQA_ANSWER_WORDS] = {TALEVIQA_BAD_WORD, 0, 0, 0};
    uint32_t number = run(rules, &after, 1, answer);

    expect(number == TALEVIQA_BAD_WORD && memcmp(answer, wanted, sizeof wanted) == 0, "no rules, and the answer is", rules, number);
    expect(memcmp(&after, &before, sizeof after) == 0, "no rules, and something has changed: the original's x is", rules, after.twilight_original_x[1]);
}

int main(void)
{
    made_at(TALEVIQA_RULES_SKRIFA, 7 + 64, 9);
    made_at(TALEVIQA_RULES_FREETYPE, 1000 + 64, 500);
    alike(1, 0, 1, TALEVIQA_FINISHED);
    alike(0, 0, 2, TALEVIQA_FINISHED);
    alike(0, 1, 2, TALEVIQA_POINT);
    refused(2);
    refused(UINT32_MAX);
    return amiss;
}
