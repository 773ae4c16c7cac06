/* The steps and the box that the proved library hands out of each glyph on
   standard input, through its calls of C.

   A glyph comes in as for decompose.c. Each step is a line, in 128ths: m X Y,
   l X Y, c CX CY X Y, z; then b LEFT BOTTOM RIGHT TOP, or b alone where there is
   no box; or r NUMBER alone, where the glyph is refused. A number that is no whole
   128th, or a zero with a sign, ends it: none may be. */
#include "taleviqa.h"

#include <math.h>
#include <stdio.h>
#include <stdlib.h>

enum { MOST_POINTS = 65535 };

static int32_t xs[MOST_POINTS], ys[MOST_POINTS];
static uint8_t flags[MOST_POINTS];
static uint16_t ends[MOST_POINTS];

static void fail(const char *why)
{
    fprintf(stderr, "oracle/outline/through_c: %s\n", why);
    exit(2);
}

/* Whether there was one: the input may end before it. */
static int next_word(int32_t *word)
{
    unsigned char bytes[4];
    size_t got = fread(bytes, 1, sizeof bytes, stdin);

    if (got == 0 && feof(stdin))
        return 0;
    if (got != sizeof bytes)
        fail("the input can't be read, or ends within a word");
    *word = (int32_t)((uint32_t)bytes[0] | (uint32_t)bytes[1] << 8 | (uint32_t)bytes[2] << 16 | (uint32_t)bytes[3] << 24);
    return 1;
}

static int32_t word(void)
{
    int32_t found;

    if (!next_word(&found))
        fail("the input ends within a glyph");
    return found;
}

static void read_glyph(size_t n, size_t contours)
{
    if (n > MOST_POINTS || contours > MOST_POINTS)
        fail("too many points or contours");
    for (size_t k = 0; k < n; k++) {
        xs[k] = word();
        ys[k] = word();
        flags[k] = (uint8_t)word();
    }
    for (size_t k = 0; k < contours; k++)
        ends[k] = (uint16_t)word();
}

static void say(const char *name, const float *numbers, int count)
{
    printf("%s", name);
    for (int k = 0; k < count; k++) {
        double whole = (double)numbers[k] * 128;

        if (whole != floor(whole) || (whole == 0 && signbit(numbers[k])))
            fail("a number that is no whole 128th, or a zero with a sign");
        printf(" %.0f", whole);
    }
    printf("\n");
}

static void draw(size_t n, size_t contours)
{
    static const char *const names[] = {"", "m", "l", "c", "z"};
    static const int counts[] = {0, 2, 2, 4, 0};
    uint64_t pen[TALEVIQA_PEN_WORDS];
    float edges[TALEVIQA_EDGES] = {0}, numbers[TALEVIQA_NUMBERS] = {0};
    uint32_t step[TALEVIQA_STEP_WORDS] = {0};
    uint32_t refused = taleviqa_outline_begin(xs, n, ys, n, flags, n, ends, contours, pen, TALEVIQA_PEN_WORDS);

    if (refused) {
        printf("r %lu\n", (unsigned long)refused);
        return;
    }
    do {
        if (taleviqa_outline_next(xs, n, ys, n, flags, n, ends, contours, pen, TALEVIQA_PEN_WORDS, edges, TALEVIQA_EDGES, step, TALEVIQA_STEP_WORDS, numbers,
                                  TALEVIQA_NUMBERS))
            fail("a glyph that was begun is refused");
        if (step[0] > TALEVIQA_STEP_CLOSE)
            fail("a step that is none");
        if (step[0] != TALEVIQA_STEP_NO_MORE)
            say(names[step[0]], numbers, counts[step[0]]);
    } while (step[0] != TALEVIQA_STEP_NO_MORE);
    say("b", edges, pen[TALEVIQA_PEN_BOXED] ? TALEVIQA_EDGES : 0);
}

int main(void)
{
    int32_t n;

    while (next_word(&n)) {
        int32_t contours = word();

        read_glyph((size_t)n, (size_t)contours);
        draw((size_t)n, (size_t)contours);
    }
    return fflush(stdout) ? 2 : 0;
}
