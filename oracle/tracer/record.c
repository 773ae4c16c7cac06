/* What FreeType starts a run with and leaves, as the words of a record: docs/RECORD.md. */
#include "trace.h"

enum { EDITION = 3, MOST_BYTES = 24 * 1024 };

/* The flag byte of a record: on the curve, touched in x, touched in y. */
static int flag_of(int tag)
{
    return (tag & FT_CURVE_TAG_ON ? 1 : 0) | (tag & FT_CURVE_TAG_TOUCH_X ? 2 : 0) | (tag & FT_CURVE_TAG_TOUCH_Y ? 4 : 0);
}

/* FreeType counts half grid before grid. */
static int round_mode(int state)
{
    return state == TT_Round_To_Half_Grid ? 1 : state == TT_Round_To_Grid ? 0 : state;
}

static void put_vector(struct words *list, FT_UnitVector vector)
{
    put(list, vector.x);
    put(list, vector.y);
}

static void put_reference(struct words *list, FT_UShort point)
{
    put(list, point);
    put(list, 0);
}

static void put_state(struct words *list, TT_ExecContext exc)
{
    put_vector(list, exc->GS.projVector);
    put_vector(list, exc->GS.dualVector);
    put_vector(list, exc->GS.freeVector);
    put(list, round_mode(exc->GS.round_state));
    put(list, narrow(exc->threshold));
    put(list, narrow(exc->phase));
    put(list, narrow(exc->period));
    put_reference(list, exc->GS.rp0);
    put_reference(list, exc->GS.rp1);
    put_reference(list, exc->GS.rp2);
    put(list, narrow(exc->GS.loop));
    put(list, exc->GS.gep0);
    put(list, exc->GS.gep1);
    put(list, exc->GS.gep2);
    put(list, exc->backward_compatibility != 0);
    put(list, exc->pedantic_hinting != 0);
    put(list, 0); /* native ClearType in x: FreeType has no such thing */
    put(list, exc->iupx_called != 0);
    put(list, exc->iupy_called != 0);
    put(list, narrow(exc->GS.control_value_cutin));
    put(list, 0); /* wrapped roundings: FreeType doesn't count them */
    put(list, narrow(exc->GS.minimum_distance));
    put(list, narrow(exc->GS.single_width_value));
    put(list, narrow(exc->GS.single_width_cutin));
    put(list, exc->GS.auto_flip != 0);
    put(list, narrow(exc->metrics.x_scale));
    put(list, run.last_pushed);
    put(list, run.pushes);
}

static void put_points(struct words *list, const FT_Vector *points, int count)
{
    for (int k = 0; k < count; k++)
        put(list, narrow(points[k].x));
    for (int k = 0; k < count; k++)
        put(list, narrow(points[k].y));
}

static void put_flags(struct words *list, const FT_Byte *tags, int count)
{
    for (int k = 0; k < count; k++)
        put(list, flag_of(tags[k]));
}

void snapshot(TT_ExecContext exc)
{
    run.obstacle = HELD;
    run.last_pushed = run.pushes = 0;
    run.points = exc->pts.n_points;
    run.twilight_points = exc->twilight.n_points;
    clear(&run.state);
    put_state(&run.state, exc);
    clear(&run.glyph);
    put_points(&run.glyph, exc->pts.orus, run.points);
    put_points(&run.glyph, exc->pts.org, run.points);
    put_points(&run.glyph, exc->pts.cur, run.points);
    put_flags(&run.glyph, exc->pts.tags, run.points);
    clear(&run.contours);
    for (int k = 0; k < exc->pts.n_contours; k++)
        put(&run.contours, exc->pts.contours[k]);
    clear(&run.twilight);
    put_points(&run.twilight, exc->twilight.org, run.twilight_points);
    put_points(&run.twilight, exc->twilight.cur, run.twilight_points);
    put_flags(&run.twilight, exc->twilight.tags, run.twilight_points);
    clear(&run.values);
    for (FT_ULong k = 0; k < exc->cvtSize; k++)
        put(&run.values, narrow(exc->cvt[k]));
}

void name_twilight(TT_ExecContext exc, FT_Long point)
{
    if (point >= run.named_twilight && point < exc->twilight.n_points)
        run.named_twilight = (int)point + 1;
}

/* ---- writing */

static int spares(void)
{
    return (int)(run.spare_points.length / 2);
}

static void put_all(struct words *list, const struct words *more)
{
    for (size_t k = 0; k < more->length; k++)
        put(list, more->word[k]);
}

/* Written values and spare points stand behind those that are named. */
static void fill_in_places(void)
{
    for (size_t k = 0; k < run.written_places.length; k++)
        run.sheet.word[run.written_places.word[k]] += run.named_values;
    for (size_t k = 0; k < run.spare_places.length; k++)
        run.sheet.word[run.spare_places.word[k]] += run.named_twilight;
}

/* The named part of each list of the twilight zone, with the spare points behind it; they never move. */
static void put_twilight(struct words *list, const struct words *lists, int length)
{
    for (int which = 0; which < TWILIGHT_LISTS; which++) {
        for (int k = 0; k < run.named_twilight; k++)
            put(list, lists->word[which * length + k]);
        for (int k = 0; k < spares(); k++)
            put(list, which == TWILIGHT_LISTS - 1 ? 0 : run.spare_points.word[2 * k + which % 2]);
    }
}

static void put_trailer(struct words *record)
{
    int32_t body = (int32_t)(4 * record->length);
    uint32_t sum = 0;
    put(record, run.points);
    put(record, (int32_t)run.contours.length);
    put(record, run.named_twilight + spares());
    put(record, run.named_values + (int32_t)run.written_values.length);
    put(record, (int32_t)run.sheet.length);
    put(record, EDITION);
    put(record, body);
    for (size_t k = 0; k < record->length; k++)
        sum += (uint32_t)record->word[k];
    put(record, (int32_t)sum);
}

static void put_record(struct words *record)
{
    clear(record);
    put_all(record, &run.state);
    put_all(record, &run.glyph);
    put_all(record, &run.contours);
    put_twilight(record, &run.twilight, run.twilight_points);
    for (int k = 0; k < run.named_values; k++)
        put(record, run.values.word[k]);
    put_all(record, &run.written_values);
    put_all(record, &run.sheet);
    put_trailer(record);
}

/* The answer (number, place, lines, detail), the state, the glyph's x, y and flags, and the twilight lists. */
static void put_after(struct words *after, TT_ExecContext exc)
{
    static struct words twilight;
    clear(after);
    put(after, 0);
    put(after, (int32_t)run.sheet.length);
    put(after, (int32_t)run.lines);
    put(after, 0);
    put_state(after, exc);
    put_points(after, exc->pts.cur, run.points);
    put_flags(after, exc->pts.tags, run.points);
    clear(&twilight);
    put_points(&twilight, exc->twilight.org, run.twilight_points);
    put_points(&twilight, exc->twilight.cur, run.twilight_points);
    put_flags(&twilight, exc->twilight.tags, run.twilight_points);
    put_twilight(after, &twilight, run.twilight_points);
}

static void write_frame(FILE *out, const void *data, size_t size)
{
    uint32_t length = (uint32_t)size;
    fwrite(&length, sizeof length, 1, out);
    fwrite(data, 1, size, out);
}

static void write_print(FILE *out, TT_ExecContext exc)
{
    static char text[1 << 20];
    int size = sprintf(text, "0 %zu %ld 0\n", run.sheet.length, run.lines);
    for (int k = 0; k < run.points; k++)
        size += sprintf(text + size, "%ld %ld %d\n", exc->pts.cur[k].x, exc->pts.cur[k].y, flag_of(exc->pts.tags[k]));
    write_frame(out, text, (size_t)size);
}

int write_record(TT_ExecContext exc, const struct streams *whole, const struct streams *fed)
{
    static struct words record, left;
    fill_in_places();
    put_record(&record);
    if (4 * (record.length - run.sheet.length) > MOST_BYTES)
        return 0;
    put_after(&left, exc);
    if (run.obstacle != HELD) /* what is left has more than 32 bits */
        return 1;
    int fits = 4 * record.length <= MOST_BYTES;
    const struct streams *out = fits ? whole : fed;
    run.lowered |= fits ? NONE : SHEET_FED;
    write_frame(out->records, record.word, 4 * record.length);
    write_frame(out->after, left.word, 4 * left.length);
    write_print(out->prints, exc);
    return 1;
}
