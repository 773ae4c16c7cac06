/* Follows FreeType through a glyph program: the calls that hooks.py puts into ttinterp.c lead here. */
#include <stdlib.h>
#include <string.h>

#include "trace.h"

const struct opcode opcodes[256] = {
#include "opcodes.inc"
};

struct run run;
int following;
unsigned long executed[256];

static int active;
/* the line under way, and what stood before it */
static struct words pending;
static enum { NOTHING, AS_IT_STANDS, TOO_FEW_OPERANDS, SHIFT_BY_POINTS } pending_as;
static int compatible_before;
static FT_Long loop_before;

/* ---- lists of words */

void put(struct words *list, int32_t word)
{
    if (list->length == list->room) {
        list->room = list->room ? 2 * list->room : 1024;
        list->word = realloc(list->word, list->room * sizeof *list->word);
        if (!list->word)
            abort();
    }
    list->word[list->length++] = word;
}

void clear(struct words *list)
{
    list->length = 0;
}

/* ---- the sheet */

void hinder(enum obstacle why, int opcode)
{
    if (run.obstacle != HELD)
        return;
    run.obstacle = why;
    run.obstacle_opcode = opcode;
}

int32_t narrow(FT_Long number)
{
    if (number != (int32_t)number)
        hinder(ABOVE_32_BITS, 0);
    return (int32_t)number;
}

void write_line(int opcode, size_t count, const int32_t *operands)
{
    put(&run.sheet, opcode);
    put(&run.sheet, (int32_t)count);
    for (size_t k = 0; k < count; k++)
        put(&run.sheet, operands[k]);
    run.lines++;
}

void write_line1(int opcode, int32_t operand)
{
    write_line(opcode, 1, &operand);
}

/* ---- the operands of a line */

static int reads_value(int opcode)
{
    return opcode == MIAP || opcode == MIAP_LAST || opcode >= MIRP;
}

static int pushes_number(int opcode)
{
    return opcode == GC || opcode == GC_LAST || opcode == MD || opcode == MD_LAST;
}

static FT_Long operands_of(TT_ExecContext exc)
{
    int operands = opcodes[exc->opcode].operands;
    if (operands >= 0)
        return operands;
    return exc->GS.loop + (operands == BY_LOOP_AND_ONE);
}

/* FreeType has popped what an opcode always takes; what the loop counter takes still stands below it. */
static const FT_Long *first_popped(TT_ExecContext exc)
{
    int operands = opcodes[exc->opcode].operands;
    int popped = operands >= 0 ? operands : operands == BY_LOOP_AND_ONE;
    return exc->stack + exc->args + popped - 1;
}

/* The zone pointers that point at twilight, as bits. */
static int twilight_pointers(TT_ExecContext exc)
{
    return (exc->GS.gep0 == TWILIGHT) | (exc->GS.gep1 == TWILIGHT) << 1 | (exc->GS.gep2 == TWILIGHT) << 2;
}

/* Any operand may be such a point, and any reference may be taken: what is named too often only makes a record longer. */
static void note_twilight(TT_ExecContext exc)
{
    const struct opcode *opcode = &opcodes[exc->opcode];
    if (opcode->points & twilight_pointers(exc))
        for (size_t k = 0; k < pending.length; k++)
            name_twilight(exc, pending.word[k]);
    if (opcode->references & twilight_pointers(exc)) {
        name_twilight(exc, exc->GS.rp0);
        name_twilight(exc, exc->GS.rp1);
        name_twilight(exc, exc->GS.rp2);
    }
    if (exc->opcode >= SHC && exc->opcode <= SHZ_LAST && exc->GS.gep2 == TWILIGHT) {
        name_twilight(exc, exc->twilight.n_points - 1);
        run.twilight_shifted = 1;
        if (run.spare_points.length)
            hinder(SPARE_POINT_SHIFTED, exc->opcode);
    }
}

static size_t place_of_written(int32_t value)
{
    for (size_t k = 0; k < run.written_values.length; k++)
        if (run.written_values.word[k] == value)
            return k;
    put(&run.written_values, value);
    return run.written_values.length - 1;
}

/* A value that the program has changed gets an entry of its own; its place in the sheet is filled in at the end. */
static void note_value(TT_ExecContext exc)
{
    int32_t index = pending.word[0];
    if (index < 0 || (FT_ULong)index >= run.values.length)
        return;
    int32_t now = narrow(exc->cvt[index]);
    if (now == run.values.word[index]) {
        if (index >= run.named_values)
            run.named_values = index + 1;
        return;
    }
    run.lowered |= VALUE_OF_ITS_OWN;
    pending.word[0] = (int32_t)place_of_written(now);
    put(&run.written_places, (int32_t)run.sheet.length + 2);
}

static void take_operands(TT_ExecContext exc)
{
    FT_Long count = operands_of(exc);
    clear(&pending);
    pending_as = AS_IT_STANDS;
    if (opcodes[exc->opcode].operands < 0 && exc->top < count) {
        pending_as = TOO_FEW_OPERANDS;
        return;
    }
    const FT_Long *top = first_popped(exc);
    for (FT_Long k = 0; k < count; k++)
        put(&pending, narrow(top[-k]));
    note_twilight(exc);
    if (reads_value(exc->opcode))
        note_value(exc);
    /* under backward compatibility it isn't a line (answer 13): trace_shift is called for each point that it moves */
    if (exc->opcode == SHPIX && exc->backward_compatibility)
        pending_as = SHIFT_BY_POINTS;
}

/* Where the original points of SDPVTL are in one place, FreeType takes the current ones along their line, across or not. */
static void note_line_of_one_point(TT_ExecContext exc, const FT_Long *args)
{
    FT_UShort from = (FT_UShort)args[0], to = (FT_UShort)args[1];
    if (from >= exc->zp1.n_points || to >= exc->zp2.n_points)
        return;
    FT_Vector p = exc->zp1.org[from], q = exc->zp2.org[to];
    if (p.x == q.x && p.y == q.y)
        run.lowered |= LINE_OF_ONE_POINT;
}

static void finish_line(TT_ExecContext exc)
{
    switch (pending_as) {
    case AS_IT_STANDS:
        write_line(exc->opcode, pending.length, pending.word);
        if (pushes_number(exc->opcode)) {
            run.last_pushed = narrow(exc->stack[exc->args]);
            run.pushes++;
        }
        break;
    case TOO_FEW_OPERANDS: /* FreeType does nothing but reset the counter */
        run.lowered |= COUNTER_SET_BACK;
        write_line1(SLOOP, 1);
        break;
    case SHIFT_BY_POINTS:
        run.lowered |= SHIFT_LEFT_OUT;
        if (loop_before != 1)
            write_line1(SLOOP, 1);
        break;
    case NOTHING:
        break;
    }
}

/* ---- what isn't a line */

static void move_to_coordinate(TT_ExecContext exc, FT_Long *args)
{
    FT_UShort point = (FT_UShort)args[0];
    if (point >= exc->zp2.n_points)
        return;
    if (exc->GS.gep2 == TWILIGHT)
        hinder(TWILIGHT_POINT_MOVED, exc->opcode);
    else
        lower_move(exc, point, args[1] - exc->func_project(exc, exc->zp2.cur[point].x, exc->zp2.cur[point].y));
}

/* What the lines before it did stands: FreeType, which isn't pedantic, shows such a glyph. An instruction that moves or sets may have got halfway. */
static void end_by_error(int opcode)
{
    if (opcodes[opcode].handling == UNSEEN)
        run.lowered |= ENDED_BY_ERROR;
    else
        hinder(ENDED_BY_FREETYPE, opcode);
}

/* ---- the calls of ttinterp.c */

/* FreeType leaves in the flags of the phantom points what the glyph before it left; no run may depend on that. */
static void clear_phantom_flags(TT_ExecContext exc)
{
    memset(exc->pts.tags + exc->pts.n_points - PHANTOM_POINTS, 0, PHANTOM_POINTS);
}

void trace_begin(TT_ExecContext exc)
{
    active = following && exc->curRange == tt_coderange_glyph && !exc->is_composite;
    if (!active)
        return;
    clear_phantom_flags(exc);
    snapshot(exc);
    clear(&run.sheet);
    clear(&run.written_values);
    clear(&run.written_places);
    clear(&run.spare_points);
    clear(&run.spare_places);
    run.lines = 0;
    run.named_values = run.named_twilight = run.twilight_shifted = 0;
    run.last_pushed = run.pushes = 0;
    run.lowered = NONE;
}

void trace_before(TT_ExecContext exc, FT_Long *args)
{
    if (!active)
        return;
    executed[exc->opcode]++;
    pending_as = NOTHING;
    loop_before = exc->GS.loop;
    compatible_before = exc->backward_compatibility;
    if (exc->opcode == SDPVTL_ACROSS)
        note_line_of_one_point(exc, args);
    if (opcodes[exc->opcode].handling == LINE)
        take_operands(exc);
    else if (exc->opcode == SCFS)
        move_to_coordinate(exc, args);
}

void trace_after(TT_ExecContext exc)
{
    if (!active)
        return;
    switch (opcodes[exc->opcode].handling) {
    case LINE:
        finish_line(exc);
        break;
    case SWITCH:
        if (compatible_before != exc->backward_compatibility)
            hinder(COMPATIBILITY_SWITCHED, exc->opcode);
        break;
    default:
        break;
    }
}

/* DELTAP moves a point. */
void trace_delta(TT_ExecContext exc, FT_UShort point, FT_Long by)
{
    if (!active)
        return;
    if (exc->GS.gep0 == TWILIGHT)
        hinder(TWILIGHT_POINT_MOVED, exc->opcode);
    else
        lower_move(exc, point, by);
}

/* SHPIX moves a point under backward compatibility. */
void trace_shift(TT_ExecContext exc, FT_UShort point, FT_Long dy)
{
    if (active)
        lower_shift(exc, point, dy);
}

void trace_end(TT_ExecContext exc, int error)
{
    if (!active)
        return;
    active = 0;
    if (error)
        end_by_error(exc->opcode);
    run_ended(exc);
}
