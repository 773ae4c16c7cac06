/* usage: trace FONT MODE PPEM OUT
 *
 * Loads every simple glyph of a font file at a size with FreeType's interpreter, and flattens each run of a glyph program into a record.
 * MODE: 35 interpreter version 35; 40 version 40; lcd version 40 for an LCD.
 * Writes OUT.records (frames of records), OUT.prints (frames: what each must print), OUT.after (frames: all that each must leave), the same of records
 * that are too long, whose sheets are to be fed, as OUT.fed.records and so on, and OUT.runs, a line of text for each run: the glyph, the obstacle or
 * "held", the opcode that it is about, what was lowered, lines and words of the sheet, and points.
 * Prints the numbers of glyphs, and how often each opcode was executed and stands in a record. */
#include <stdlib.h>
#include <string.h>

#include <freetype/ftmodapi.h>

#include "trace.h"

static const char *const names[OBSTACLES] = {
    [HELD] = "held",
    [COMPATIBILITY_SWITCHED] = "compatibility-switched",
    [TWILIGHT_POINT_MOVED] = "twilight-point-moved",
    [SHIFT_OFF_THE_AXES] = "shift-off-the-axes",
    [SPARE_POINT_SHIFTED] = "spare-point-shifted",
    [ABOVE_32_BITS] = "above-32-bits",
    [ABOVE_24_KIB] = "above-24-kib",
    [ENDED_BY_FREETYPE] = "ended-by-freetype",
};

static struct streams whole, fed;
static FILE *runs;
static FT_UInt glyph;
static unsigned long held_lines[256];

static void fail(const char *what)
{
    fprintf(stderr, "trace: %s\n", what);
    exit(2);
}

static void count_lines(void)
{
    for (size_t at = 0; at < run.sheet.length; at += 2 + (size_t)run.sheet.word[at + 1])
        held_lines[run.sheet.word[at]]++;
}

void run_ended(TT_ExecContext exc)
{
    if (run.obstacle == HELD && !write_record(exc, &whole, &fed))
        hinder(ABOVE_24_KIB, 0);
    if (run.obstacle == HELD)
        count_lines();
    fprintf(runs, "%u %s %02X %u %ld %zu %d\n", glyph, names[run.obstacle], run.obstacle == HELD ? 0 : run.obstacle_opcode, run.lowered,
            run.lines, run.sheet.length, run.points);
}

static FILE *open_output(const char *out, const char *kind)
{
    char name[4096];
    snprintf(name, sizeof name, "%s.%s", out, kind);
    FILE *file = fopen(name, "wb");
    if (!file)
        fail("an output can't be written");
    return file;
}

static void close_output(FILE *file)
{
    if (ferror(file) || fclose(file))
        fail("an output was not written whole");
}

static void close_streams(const struct streams *streams)
{
    close_output(streams->records);
    close_output(streams->prints);
    close_output(streams->after);
}

static FT_Face open_font(const char *font, const char *mode, int ppem)
{
    FT_Library library;
    FT_Face face;
    FT_UInt version = strcmp(mode, "35") ? 40 : 35;
    if (FT_Init_FreeType(&library) || FT_Property_Set(library, "truetype", "interpreter-version", &version))
        fail("FreeType can't be started");
    if (FT_New_Face(library, font, 0, &face))
        fail("the font can't be opened");
    if (FT_Set_Pixel_Sizes(face, (FT_UInt)ppem, (FT_UInt)ppem))
        fail("the font hasn't that size");
    return face;
}

static int is_simple(FT_Face face)
{
    return !FT_Load_Glyph(face, glyph, FT_LOAD_NO_RECURSE) && face->glyph->format != FT_GLYPH_FORMAT_COMPOSITE;
}

int main(int count, char **words)
{
    if (count != 5 || (strcmp(words[2], "35") && strcmp(words[2], "40") && strcmp(words[2], "lcd")))
        fail("usage: trace FONT 35|40|lcd PPEM OUT");
    FT_Face face = open_font(words[1], words[2], atoi(words[3]));
    FT_Int32 flags = FT_LOAD_NO_BITMAP | FT_LOAD_NO_AUTOHINT | (strcmp(words[2], "lcd") ? FT_LOAD_TARGET_NORMAL : FT_LOAD_TARGET_LCD);
    long simple = 0, failed = 0;
    whole = (struct streams){open_output(words[4], "records"), open_output(words[4], "prints"), open_output(words[4], "after")};
    fed = (struct streams){open_output(words[4], "fed.records"), open_output(words[4], "fed.prints"), open_output(words[4], "fed.after")};
    runs = open_output(words[4], "runs");
    for (glyph = 0; glyph < (FT_UInt)face->num_glyphs; glyph++) {
        following = 0;
        if (!is_simple(face))
            continue;
        following = 1;
        simple++;
        failed += FT_Load_Glyph(face, glyph, flags) != 0;
    }
    close_streams(&whole);
    close_streams(&fed);
    close_output(runs);
    printf("glyphs %ld simple %ld failed %ld\n", face->num_glyphs, simple, failed);
    for (int opcode = 0; opcode < 256; opcode++)
        if (executed[opcode] || held_lines[opcode])
            printf("%02X %lu %lu\n", opcode, executed[opcode], held_lines[opcode]);
    return 0;
}
