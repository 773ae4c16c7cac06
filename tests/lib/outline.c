/* An outline through the C calls: contours of every kind of start, a single point, and points that no contour has; the steps one by one, then no more, twice;
 * the box after each; and what is refused with 2, 14, 19 and 16, which changes nothing. Numbers are compared bit by bit. Prints what is amiss. */
#include <stdio.h>
#include <string.h>

#include "taleviqa.h"

enum { POINTS = 17, CONTOURS = 6 };

/* Coordinates in 64ths. Contours: first on curve; first off and last on; both off; a single point on curve; a single one off; two off curve; then two points
 * that no contour has, one of them the lowest of all. */
static int32_t xs[POINTS] = {64, 128, 129, -64, 1, 3, 64, 10, 20, 30, 40, -640, 704, 7, 8, -9999, 9999};
static int32_t ys[POINTS] = {0, 0, 64, 64, 2, 5, 128, 0, 11, 0, -13, 640, -64, 1, 2, -9999, 9999};
static uint8_t flags[POINTS] = {1, 1, 0, 0, 0, 6, 7, 0, 1, 0, 0, 1, 0, 2, 4, 1, 1};
static uint16_t contours[CONTOURS] = {3, 6, 10, 11, 12, 14};

struct said {
    uint32_t step;
    float numbers[TALEVIQA_NUMBERS];
};

#define OF(h) ((h) / 128.0f)

static const struct said wanted[] = {
    {TALEVIQA_STEP_MOVE, {1, 0, 0, 0}},
    {TALEVIQA_STEP_LINE, {2, 0, 0, 0}},
    {TALEVIQA_STEP_CURVE, {OF(258), 1, OF(65), 1}},
    {TALEVIQA_STEP_CURVE, {-1, 1, 1, 0}},
    {TALEVIQA_STEP_CLOSE, {0, 0, 0, 0}},
    {TALEVIQA_STEP_MOVE, {1, 2, 0, 0}},
    {TALEVIQA_STEP_CURVE, {OF(2), OF(4), OF(4), OF(7)}},
    {TALEVIQA_STEP_CURVE, {OF(6), OF(10), 1, 2}},
    {TALEVIQA_STEP_CLOSE, {0, 0, 0, 0}},
    {TALEVIQA_STEP_MOVE, {OF(50), OF(-13), 0, 0}},
    {TALEVIQA_STEP_CURVE, {OF(20), 0, OF(40), OF(22)}},
    {TALEVIQA_STEP_CURVE, {OF(60), 0, OF(70), OF(-13)}},
    {TALEVIQA_STEP_CURVE, {OF(80), OF(-26), OF(50), OF(-13)}},
    {TALEVIQA_STEP_CLOSE, {0, 0, 0, 0}},
    {TALEVIQA_STEP_MOVE, {-10, 10, 0, 0}},
    {TALEVIQA_STEP_CLOSE, {0, 0, 0, 0}},
    {TALEVIQA_STEP_MOVE, {11, -1, 0, 0}},
    {TALEVIQA_STEP_CLOSE, {0, 0, 0, 0}},
    {TALEVIQA_STEP_MOVE, {OF(15), OF(3), 0, 0}},
    {TALEVIQA_STEP_CURVE, {OF(14), OF(2), OF(15), OF(3)}},
    {TALEVIQA_STEP_CURVE, {OF(16), OF(4), OF(15), OF(3)}},
    {TALEVIQA_STEP_CLOSE, {0, 0, 0, 0}},
};

enum { STEPS = sizeof wanted / sizeof wanted[0] };

static int amiss = 0;

static void expect(int holds, const char *what, unsigned long number)
{
    if (!holds) {
        printf("tests/lib/outline.c: %s: %lu\n", what, number);
        amiss = 1;
    }
}

static uint32_t begin(size_t points, size_t ends, uint64_t *pen, size_t words)
{
    return taleviqa_outline_begin(xs, points, ys, points, flags, points, contours, ends, pen, words);
}

static uint32_t next(uint64_t *pen, float *edges, struct said *said)
{
    return taleviqa_outline_next(xs, POINTS, ys, POINTS, flags, POINTS, contours, CONTOURS, pen, TALEVIQA_PEN_WORDS, edges, TALEVIQA_EDGES,
                                 &said->step, TALEVIQA_STEP_WORDS, said->numbers, TALEVIQA_NUMBERS);
}

/* The edges grow by the points that a step hands out. */
static void grow(const struct said *said, float *edges, int *boxed)
{
    int points = said->step == TALEVIQA_STEP_CURVE ? 2 : said->step == TALEVIQA_STEP_CLOSE ? 0 : 1;

    for (int k = 0; k < points; k++) {
        float x = said->numbers[2 * k], y = said->numbers[2 * k + 1];

        if (!*boxed || x < edges[0])
            edges[0] = x;
        if (!*boxed || y < edges[1])
            edges[1] = y;
        if (!*boxed || x > edges[2])
            edges[2] = x;
        if (!*boxed || y > edges[3])
            edges[3] = y;
        *boxed = 1;
    }
}

static void whole(void)
{
    uint64_t pen[TALEVIQA_PEN_WORDS];
    float edges[TALEVIQA_EDGES] = {5, 5, 5, 5}, box[TALEVIQA_EDGES] = {5, 5, 5, 5};
    struct said said;
    int boxed = 0;

    expect(begin(POINTS, CONTOURS, pen, TALEVIQA_PEN_WORDS) == 0, "the glyph isn't begun", 0);
    expect(pen[TALEVIQA_PEN_BOXED] == 0, "there is a box before the first step", 0);
    for (unsigned long k = 0; k < STEPS; k++) {
        expect(next(pen, edges, &said) == 0, "a step is refused", k);
        expect(said.step == wanted[k].step && memcmp(said.numbers, wanted[k].numbers, sizeof said.numbers) == 0, "a step is another", k);
        grow(&said, box, &boxed);
        expect(pen[TALEVIQA_PEN_BOXED] == 1 && memcmp(edges, box, sizeof box) == 0, "the box after a step is another", k);
    }
    for (unsigned long k = 0; k < 2; k++) {
        uint64_t before[TALEVIQA_PEN_WORDS];

        memcpy(before, pen, sizeof before);
        expect(next(pen, edges, &said) == 0 && said.step == TALEVIQA_STEP_NO_MORE, "there are more steps", said.step);
        expect(memcmp(before, pen, sizeof before) == 0 && memcmp(edges, box, sizeof box) == 0, "the end moves the pen or the box", k);
    }
}

/* A begin that is refused leaves the pen as it was. */
static void refused(const char *what, uint32_t number, size_t points, size_t ends, size_t words)
{
    uint64_t pen[TALEVIQA_PEN_WORDS + 1], before[TALEVIQA_PEN_WORDS + 1];
    uint32_t answer;

    memset(pen, 7, sizeof pen);
    memcpy(before, pen, sizeof pen);
    answer = begin(points, ends, pen, words);
    expect(answer == number, what, answer);
    expect(memcmp(before, pen, sizeof pen) == 0, "a refusal writes the pen", number);
}

int main(void)
{
    uint64_t pen[TALEVIQA_PEN_WORDS];
    float edges[TALEVIQA_EDGES] = {0};
    struct said said;
    uint32_t number;

    whole();
    expect(begin(0, 0, pen, TALEVIQA_PEN_WORDS) == 0, "a glyph without points isn't begun", 0);
    number = taleviqa_outline_next(xs, 0, ys, 0, flags, 0, contours, 0, pen, TALEVIQA_PEN_WORDS, edges, TALEVIQA_EDGES, &said.step, 1, said.numbers, TALEVIQA_NUMBERS);
    expect(number == 0 && said.step == TALEVIQA_STEP_NO_MORE && pen[TALEVIQA_PEN_BOXED] == 0, "a glyph without contours has a step or a box", said.step);

    /* 2 before 14 before 19: the wrong ends and the far coordinate stand there all the time */
    contours[1] = 3;
    xs[POINTS - 1] = 4194305;
    number = taleviqa_outline_begin(xs, POINTS, ys, POINTS - 1, flags, POINTS, contours, CONTOURS, pen, TALEVIQA_PEN_WORDS);
    expect(number == TALEVIQA_SIZES, "lists of unequal length are answered", number);
    refused("ends that don't rise are answered", TALEVIQA_ENDS, POINTS, CONTOURS, TALEVIQA_PEN_WORDS);
    contours[1] = 6;
    refused("a coordinate of a point that isn't drawn is answered", TALEVIQA_FAR, POINTS, CONTOURS, TALEVIQA_PEN_WORDS);
    xs[POINTS - 1] = -4194305;
    refused("a coordinate far below is answered", TALEVIQA_FAR, POINTS, CONTOURS, TALEVIQA_PEN_WORDS);
    xs[POINTS - 1] = 4194304;
    ys[POINTS - 1] = -4194304;
    refused("a pen of eight words is answered", TALEVIQA_BAD_WORD, POINTS, CONTOURS, TALEVIQA_PEN_WORDS - 1);
    refused("a pen of ten words is answered", TALEVIQA_BAD_WORD, POINTS, CONTOURS, TALEVIQA_PEN_WORDS + 1);
    expect(begin(POINTS, CONTOURS, pen, TALEVIQA_PEN_WORDS) == 0, "the farthest coordinates are refused", 0);

    /* a list that is changed after the begin: what isn't exact is refused, and what is wrong of the slots */
    xs[0] = 4194305;
    number = next(pen, edges, &said);
    expect(number == TALEVIQA_FAR, "a number that isn't exact is answered", number);
    xs[0] = 64;
    number = taleviqa_outline_next(xs, POINTS, ys, POINTS, flags, POINTS, contours, CONTOURS, pen, TALEVIQA_PEN_WORDS, edges, 3, &said.step, 1, said.numbers, TALEVIQA_NUMBERS);
    expect(number == TALEVIQA_BAD_WORD, "three edges are answered", number);
    pen[6] = 3;
    number = next(pen, edges, &said);
    expect(number == TALEVIQA_BAD_WORD, "words that are no pen are answered", number);
    pen[6] = 0;
    expect(next(pen, edges, &said) == 0 && said.step == TALEVIQA_STEP_MOVE, "the first step isn't a move", said.step);
    return amiss;
}
