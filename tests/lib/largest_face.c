/* A run of the largest face through the C call, within a second: 65,535 points in one contour that ends at 65,534, as many twilight points, a sheet of
 * 262,144 words to its last line, 16,384 control values; one more of each is answer 2. Then 65,533 contours, and 65,535, one for each point; where the
 * first two end at one point, or the last at 65,535, the answer is 14 and nothing is changed. Prints what is amiss. */
#include <inttypes.h>
#include <stdio.h>
#include <stdlib.h>
#include <string.h>
#include <time.h>

#include "taleviqa.h"

enum { POINTS = 65535, CONTOURS = 65535, VALUES = 16384, WORDS = 262144, MORE = 1 };

static int32_t unscaled[2][POINTS + MORE], original[2][POINTS + MORE], current[2][POINTS + MORE], twilight_original[2][POINTS + MORE], twilight[2][POINTS + MORE];
static uint8_t flags[POINTS + MORE], twilight_flags[POINTS + MORE];
static uint16_t contours[CONTOURS + MORE];
static int32_t values[VALUES + MORE], sheet[WORDS + MORE];

static int amiss = 0;

/* A row of points 64 apart, the first and the last touched and the last moved by a pixel; every line of the sheet is SVTCA[y] but the last, IUP[y]. Each
 * contour has one point, and the last all that are left. */
static void make(size_t ends)
{
    for (size_t k = 0; k <= POINTS; k++) {
        for (int axis = 0; axis < 2; axis++) {
            unscaled[axis][k] = original[axis][k] = current[axis][k] = (int32_t)k * 64;
            twilight_original[axis][k] = twilight[axis][k] = 0;
        }
        flags[k] = 1;
        twilight_flags[k] = 0;
    }
    flags[0] |= 4;
    flags[POINTS - 1] |= 4;
    current[1][POINTS - 1] += 64;
    for (size_t k = 0; k <= CONTOURS; k++)
        contours[k] = (uint16_t)(k + 1 < ends ? k : POINTS - 1);
    memset(sheet, 0, sizeof sheet);
    sheet[WORDS - 2] = 0x30;
}

/* The run's answer with lists of these sizes, and the seconds that it took. */
static uint32_t run(size_t points, size_t ends, size_t twilight_points, size_t controls, size_t words, uint64_t answer[TALEVIQA_ANSWER_WORDS], double *seconds)
{
    uint32_t state[TALEVIQA_STATE_WORDS] = TALEVIQA_FRESH_STATE;
    clock_t before = clock();
    uint32_t number = taleviqa_run(TALEVIQA_RULES_FREETYPE, 0, UINT64_MAX, state, TALEVIQA_STATE_WORDS, sheet, words, values, controls,
                                   unscaled[0], points, unscaled[1], points, original[0], points, original[1], points,
                                   current[0], points, current[1], points, flags, points, contours, ends,
                                   twilight_original[0], twilight_points, twilight_original[1], twilight_points, twilight[0], twilight_points,
                                   twilight[1], twilight_points, twilight_flags, twilight_points, answer, TALEVIQA_ANSWER_WORDS);

    *seconds = (double)(clock() - before) / CLOCKS_PER_SEC;
    return number;
}

static void expect(int holds, const char *what, uint64_t number)
{
    if (!holds) {
        printf("tests/lib/largest_face.c: %s: %" PRIu64 "\n", what, number);
        amiss = 1;
    }
}

/* Contour ends as they stand are refused, and nothing is changed by it. */
static void sloppy(const char *what)
{
    static const uint64_t wanted[TALEVIQA_ANSWER_WORDS] = {TALEVIQA_ENDS, 0, 0, 0};
    uint64_t answer[TALEVIQA_ANSWER_WORDS] = {99, 99, 99, 99};
    double seconds;
    uint32_t number = run(POINTS, CONTOURS, 0, 0, WORDS, answer, &seconds);

    expect(number == TALEVIQA_ENDS && memcmp(answer, wanted, sizeof wanted) == 0, what, number);
    expect(seconds < 1, "and took more than a second, milliseconds", (uint64_t)(seconds * 1000));
    for (size_t k = 0; k < POINTS; k++)
        expect(current[1][k] == (int32_t)k * 64 + (k == POINTS - 1 ? 64 : 0), "and a point moved", k);
}

int main(void)
{
    static const size_t most[5] = {POINTS, 1, POINTS, VALUES, WORDS};
    uint64_t answer[TALEVIQA_ANSWER_WORDS];
    uint32_t number;
    double seconds;

    make(1);
    number = run(most[0], most[1], most[2], most[3], most[4], answer, &seconds);
    expect(number == TALEVIQA_FINISHED, "the largest face is answered", number);
    expect(answer[1] == WORDS && answer[2] == WORDS / 2, "the last line isn't reached, the place is", answer[1]);
    expect(seconds < 1, "the run took more than a second, milliseconds", (uint64_t)(seconds * 1000));
    /* between two touched points the move of the last is shared out by the distance */
    expect(current[1][0] == 0 && current[1][POINTS - 1] == (POINTS - 1) * 64 + 64, "a touched point moved", 0);
    expect(current[1][32767] == 32767 * 64 + 32, "the middle isn't interpolated", (uint64_t)current[1][32767]);

    make(CONTOURS - 2);
    number = run(POINTS, CONTOURS - 2, 0, 0, WORDS, answer, &seconds);
    expect(number == TALEVIQA_FINISHED, "65,533 contours are answered", number);
    expect(seconds < 1, "the run over 65,533 contours took more than a second, milliseconds", (uint64_t)(seconds * 1000));
    expect(current[1][1] == 64 && current[1][POINTS - 4] == (POINTS - 4) * 64, "a point without a touched one in its contour moved", (uint64_t)current[1][1]);
    for (size_t k = POINTS - 3; k < POINTS; k++)
        expect(current[1][k] == (int32_t)k * 64 + 64, "the last contour doesn't follow its touched point", (uint64_t)current[1][k]);

    make(CONTOURS);
    number = run(POINTS, CONTOURS, 0, 0, WORDS, answer, &seconds);
    expect(number == TALEVIQA_FINISHED, "65,535 contours are answered", number);
    expect(seconds < 1, "the run over 65,535 contours took more than a second, milliseconds", (uint64_t)(seconds * 1000));
    for (size_t k = 0; k < POINTS; k++)
        expect(current[1][k] == (int32_t)k * 64 + (k == POINTS - 1 ? 64 : 0), "a contour's one point moved", k);

    make(CONTOURS);
    contours[1] = 0;
    sloppy("the first two of 65,535 contours end at one point, and the answer is");
    make(CONTOURS);
    contours[CONTOURS - 1] = POINTS;
    sloppy("the last of 65,535 contours ends at 65,535, and the answer is");

    for (int k = 0; k < 5; k++) {
        size_t sizes[5];

        memcpy(sizes, most, sizeof sizes);
        if (k == 1)
            sizes[k] = CONTOURS;
        sizes[k] += MORE;
        make(1);
        number = run(sizes[0], sizes[1], sizes[2], sizes[3], sizes[4], answer, &seconds);
        expect(number == TALEVIQA_SIZES, "one above a limit is answered", number);
        expect(answer[1] == 0 && answer[2] == 0, "and something was done, the place is", answer[1]);
    }
    return amiss;
}
