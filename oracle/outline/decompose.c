/* What FreeType's FT_Outline_Decompose hands out of each glyph on standard
   input, as it hands it out, and its FT_Outline_Get_CBox.

   A glyph is words of 32 bits, the low byte first: its points, its contours;
   then x, y and whether it is on the curve for each point; then the last point
   of each contour.

   Each step is a line, in 128ths: m X Y, l X Y, c CX CY X Y. Points are in 64ths,
   and a shift of 1 doubles them before a middle is taken, so that each middle is
   exact. Then comes b LEFT BOTTOM RIGHT TOP in 64ths, over the points of the
   contours, or b alone where there are none. The first line of all is FreeType's
   version. */
#include <ft2build.h>
#include FT_FREETYPE_H
#include FT_OUTLINE_H

#include <stdint.h>
#include <stdio.h>
#include <stdlib.h>

enum { MOST_POINTS = 32767 };

static FT_Vector points[MOST_POINTS];
static unsigned char tags[MOST_POINTS];
static short ends[MOST_POINTS];

static void fail(const char *why)
{
    fprintf(stderr, "oracle/outline/decompose: %s\n", why);
    exit(2);
}

static int move_to(const FT_Vector *to, void *user)
{
    (void)user;
    printf("m %ld %ld\n", to->x, to->y);
    return 0;
}

static int line_to(const FT_Vector *to, void *user)
{
    (void)user;
    printf("l %ld %ld\n", to->x, to->y);
    return 0;
}

static int conic_to(const FT_Vector *control, const FT_Vector *to, void *user)
{
    (void)user;
    printf("c %ld %ld %ld %ld\n", control->x, control->y, to->x, to->y);
    return 0;
}

static int cubic_to(const FT_Vector *one, const FT_Vector *two, const FT_Vector *to, void *user)
{
    (void)one, (void)two, (void)to, (void)user;
    fail("FreeType hands out a cubic curve");
    return 1;
}

/* Whether there was one: the input may end before it. */
static int next_word(int32_t *word)
{
    unsigned char bytes[4];
    size_t got = fread(bytes, 1, sizeof bytes, stdin);

    if (got == 0 && feof(stdin))
        return 0;
    if (got != sizeof bytes)
        fail("the input can't be read, or ends within a word");
    *word = (int32_t)((uint32_t)bytes[0] | (uint32_t)bytes[1] << 8 | (uint32_t)bytes[2] << 16 | (uint32_t)bytes[3] << 24);
    return 1;
}

static int32_t word(void)
{
    int32_t found;

    if (!next_word(&found))
        fail("the input ends within a glyph");
    return found;
}

static void read_glyph(int32_t n, int32_t contours)
{
    if (n < 0 || n > MOST_POINTS || contours < 0 || contours > n)
        fail("too many points or contours");
    for (int32_t k = 0; k < n; k++) {
        points[k].x = word();
        points[k].y = word();
        tags[k] = word() ? FT_CURVE_TAG_ON : FT_CURVE_TAG_CONIC;
    }
    for (int32_t k = 0; k < contours; k++)
        ends[k] = (short)word();
}

static void say_box(FT_Outline *outline)
{
    FT_BBox box;

    if (outline->n_contours == 0) {
        printf("b\n");
        return;
    }
    /* those behind the last contour are none of its business */
    outline->n_points = ends[outline->n_contours - 1] + 1;
    FT_Outline_Get_CBox(outline, &box);
    printf("b %ld %ld %ld %ld\n", box.xMin, box.yMin, box.xMax, box.yMax);
}

int main(void)
{
    FT_Outline_Funcs funcs = {move_to, line_to, conic_to, cubic_to, 1, 0};
    FT_Library library;
    FT_Int major, minor, patch;
    int32_t n;

    if (FT_Init_FreeType(&library))
        fail("FreeType doesn't start");
    FT_Library_Version(library, &major, &minor, &patch);
    printf("%d.%d.%d\n", major, minor, patch);
    while (next_word(&n)) {
        FT_Outline outline = {0};
        int32_t contours = word();

        read_glyph(n, contours);
        outline.n_points = (short)n;
        outline.n_contours = (short)contours;
        outline.points = points;
        /* signed or not, by FreeType's version */
        outline.tags = (void *)tags;
        outline.contours = (void *)ends;
        if (FT_Outline_Decompose(&outline, &funcs, NULL))
            fail("FreeType refuses an outline");
        say_box(&outline);
    }
    return fflush(stdout) ? 2 : 0;
}
