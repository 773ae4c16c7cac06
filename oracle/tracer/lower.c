/* Lines in the place of what a sheet doesn't take, which come to the same points, marks and state. */
#include "trace.h"

/* 1 for x and 0 for y, as in the opcodes; -1 off the axes. */
static int axis_of(FT_UnitVector vector)
{
    if (vector.x == 0x4000 && vector.y == 0)
        return 1;
    return vector.x == 0 && vector.y == 0x4000 ? 0 : -1;
}

static void point_zones_at(TT_ExecContext exc, int zone)
{
    if (exc->GS.gep0 != zone)
        write_line1(SZP0, zone);
    if (exc->GS.gep1 != zone)
        write_line1(SZP1, zone);
}

static void point_zones_back(TT_ExecContext exc, int zone)
{
    if (exc->GS.gep0 != zone)
        write_line1(SZP0, exc->GS.gep0);
    if (exc->GS.gep1 != zone)
        write_line1(SZP1, exc->GS.gep1);
}

/* A glyph point goes along the freedom vector: MSIRP from the point itself, with the references set back after it. */
void lower_move(TT_ExecContext exc, int point, FT_Long by)
{
    int32_t operands[2] = {narrow(by), point};
    run.lowered |= MOVED_BY_MSIRP;
    point_zones_at(exc, GLYPH);
    write_line1(SRP0, point);
    write_line(MSIRP, 2, operands);
    write_line1(SRP0, exc->GS.rp0);
    write_line1(SRP1, exc->GS.rp1);
    write_line1(SRP2, exc->GS.rp2);
    point_zones_back(exc, GLYPH);
}

static size_t place_of_spare(int32_t x, int32_t y)
{
    for (size_t k = 0; k < run.spare_points.length; k += 2)
        if (run.spare_points.word[k] == x && run.spare_points.word[k + 1] == y)
            return k / 2;
    put(&run.spare_points, x);
    put(&run.spare_points, y);
    return run.spare_points.length / 2 - 1;
}

/* MSIRP would make a twilight point anew; so it is aligned with a spare one that stands where it shall go. */
static void lower_twilight_move(TT_ExecContext exc, int point, FT_Long dy)
{
    FT_Vector from = exc->twilight.cur[point];
    if (run.twilight_shifted)
        hinder(SPARE_POINT_SHIFTED, exc->opcode);
    name_twilight(exc, point);
    point_zones_at(exc, TWILIGHT);
    put(&run.spare_places, (int32_t)run.sheet.length + 2);
    write_line1(SRP0, (int32_t)place_of_spare(narrow(from.x), narrow(from.y + dy)));
    write_line1(SLOOP, 1);
    write_line1(ALIGNRP, point);
    write_line1(SRP0, exc->GS.rp0);
    point_zones_back(exc, TWILIGHT);
}

/* Under backward compatibility SHPIX moves in y alone. */
void lower_shift(TT_ExecContext exc, int point, FT_Long dy)
{
    int axis = axis_of(exc->GS.freeVector);
    run.lowered |= MOVED_BY_MSIRP;
    if (axis < 0 || axis != axis_of(exc->GS.projVector))
        hinder(SHIFT_OFF_THE_AXES, exc->opcode);
    else if (exc->GS.gep2 == GLYPH)
        lower_move(exc, point, axis ? 0 : dy);
    else
        lower_twilight_move(exc, point, axis ? 0 : dy);
}
