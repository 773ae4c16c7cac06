/* FreeType's interpreter, unchanged and in one unit with its door, so that its
   static functions can be called too. */
#include "ttinterp.c"

#include "door.h"

#include <stdlib.h>

/* 01's flag bits; the others never reach FreeType. */
enum { ON_CURVE = 1, X_TOUCHED = 2, Y_TOUCHED = 4, KNOWN_FLAGS = 7 };

/* Three more than a sheet's operands, for the zone pointers. */
enum { STACK_SIZE = MOST_SHEET_WORDS + 3 };

typedef struct {
    FT_Vector unscaled[MOST_POINTS];
    FT_Vector original[MOST_POINTS];
    FT_Vector current[MOST_POINTS];
    FT_Byte tags[MOST_POINTS];
} Points;

static TT_DriverRec driver;
static TT_FaceRec face;
static TT_ExecContextRec context;
static Points glyph;
static Points twilight;
static FT_UShort contours[MOST_CONTOURS];
static FT_Long values[MOST_CONTROL_VALUES];
static FT_Long stack[STACK_SIZE];

static TT_GlyphZoneRec zone_over(Points *points)
{
    TT_GlyphZoneRec zone = {0};

    zone.org = points->original;
    zone.cur = points->current;
    zone.orus = points->unscaled;
    zone.tags = points->tags;
    zone.contours = contours;
    return zone;
}

void door_open(void)
{
    driver.interpreter_version = TT_INTERPRETER_VERSION_40;
    face.root.driver = (FT_Driver)&driver;
    face.root.num_glyphs = 1;
    context.face = &face;
    context.GS = tt_default_graphics_state;
    context.stack = stack;
    context.stackSize = STACK_SIZE;
    context.cvt = values;
    context.pts = zone_over(&glyph);
    context.twilight = zone_over(&twilight);
}

/* FreeType numbers the two first modes the other way round. */
static int mode_between(int mode)
{
    return mode < 2 ? 1 - mode : mode;
}

static FT_Byte tag_of(uint32_t flag)
{
    return (FT_Byte)((flag & ON_CURVE ? FT_CURVE_TAG_ON : 0) | (flag & X_TOUCHED ? FT_CURVE_TAG_TOUCH_X : 0) |
                     (flag & Y_TOUCHED ? FT_CURVE_TAG_TOUCH_Y : 0));
}

static uint32_t flag_of(FT_Byte tag)
{
    return (tag & FT_CURVE_TAG_ON ? ON_CURVE : 0u) | (tag & FT_CURVE_TAG_TOUCH_X ? X_TOUCHED : 0u) |
           (tag & FT_CURVE_TAG_TOUCH_Y ? Y_TOUCHED : 0u);
}

static void load_vectors(const World *world, int x, FT_Vector *vectors)
{
    for (size_t i = 0; i < world->list[x].length; i++) {
        vectors[i].x = (int32_t)world->list[x].at[i];
        vectors[i].y = (int32_t)world->list[x + 1].at[i];
    }
}

static void store_vectors(World *world, int x, const FT_Vector *vectors)
{
    for (size_t i = 0; i < world->list[x].length; i++) {
        world->list[x].at[i] = (uint32_t)vectors[i].x;
        world->list[x + 1].at[i] = (uint32_t)vectors[i].y;
    }
}

static void load_tags(const World *world, int flags, FT_Byte *tags)
{
    for (size_t i = 0; i < world->list[flags].length; i++)
        tags[i] = tag_of(world->list[flags].at[i]);
}

static void store_tags(World *world, int flags, const FT_Byte *tags)
{
    for (size_t i = 0; i < world->list[flags].length; i++) {
        uint32_t *flag = &world->list[flags].at[i];

        *flag = (*flag & ~(uint32_t)KNOWN_FLAGS) | flag_of(tags[i]);
    }
}

static void load_glyph(const World *world)
{
    load_vectors(world, UNSCALED_X, glyph.unscaled);
    load_vectors(world, ORIGINAL_X, glyph.original);
    load_vectors(world, CURRENT_X, glyph.current);
    load_tags(world, FLAGS, glyph.tags);
    for (size_t i = 0; i < world->list[CONTOURS].length; i++)
        contours[i] = (FT_UShort)world->list[CONTOURS].at[i];
    context.pts.n_points = (FT_UShort)world->list[FLAGS].length;
    context.pts.n_contours = (FT_UShort)world->list[CONTOURS].length;
}

static void store_glyph(World *world)
{
    store_vectors(world, ORIGINAL_X, glyph.original);
    store_vectors(world, CURRENT_X, glyph.current);
    store_tags(world, FLAGS, glyph.tags);
}

static void load_twilight(const World *world)
{
    load_vectors(world, TWILIGHT_ORIGINAL_X, twilight.original);
    load_vectors(world, TWILIGHT_CURRENT_X, twilight.current);
    load_tags(world, TWILIGHT_FLAGS, twilight.tags);
    context.twilight.n_points = (FT_UShort)world->list[TWILIGHT_FLAGS].length;
}

static void store_twilight(World *world)
{
    store_vectors(world, TWILIGHT_ORIGINAL_X, twilight.original);
    store_vectors(world, TWILIGHT_CURRENT_X, twilight.current);
    store_tags(world, TWILIGHT_FLAGS, twilight.tags);
}

static void load_values(const World *world)
{
    for (size_t i = 0; i < world->list[CONTROL_VALUES].length; i++)
        values[i] = (int32_t)world->list[CONTROL_VALUES].at[i];
    context.cvtSize = world->list[CONTROL_VALUES].length;
}

static FT_UnitVector vector_of(const uint32_t *words)
{
    FT_UnitVector vector = {(FT_F2Dot14)words[0], (FT_F2Dot14)words[1]};

    return vector;
}

static void store_vector(uint32_t *words, FT_UnitVector vector)
{
    words[0] = (uint32_t)vector.x;
    words[1] = (uint32_t)vector.y;
}

static void load_state(const World *world)
{
    const uint32_t *state = world->state;

    context.GS.projVector = vector_of(state + PROJECTION);
    context.GS.dualVector = vector_of(state + DUAL);
    context.GS.freeVector = vector_of(state + FREEDOM);
    context.GS.round_state = mode_between((int)state[MODE]);
    context.threshold = (int32_t)state[THRESHOLD];
    context.phase = (int32_t)state[PHASE];
    context.period = (int32_t)state[PERIOD];
    context.GS.rp0 = (FT_UShort)state[REFERENCES];
    context.GS.rp1 = (FT_UShort)state[REFERENCES + 2];
    context.GS.rp2 = (FT_UShort)state[REFERENCES + 4];
    context.GS.loop = (FT_Long)state[LOOP];
    context.GS.control_value_cutin = (int32_t)state[CUT_IN];
    context.GS.minimum_distance = (int32_t)state[MINIMUM_DISTANCE];
    context.GS.single_width_value = (int32_t)state[SINGLE_WIDTH];
    context.GS.single_width_cutin = (int32_t)state[SINGLE_WIDTH_CUT_IN];
    context.GS.auto_flip = state[AUTO_FLIP] != 0;
    context.metrics.x_scale = (int32_t)state[SCALE];
    context.metrics.y_scale = (int32_t)state[SCALE];
    context.tt_metrics.scale = (int32_t)state[SCALE];
    context.pedantic_hinting = state[PEDANTIC] != 0;
    context.subpixel_hinting_lean = TRUE;
    context.backward_compatibility = state[COMPATIBLE] != 0;
}

/* FreeType keeps 16 bits of a reference: the rest stays if those do. */
static void store_reference(uint32_t *halves, FT_UShort reference)
{
    if ((FT_UShort)halves[0] != reference) {
        halves[0] = reference;
        halves[1] = 0;
    }
}

static void store_state(World *world)
{
    uint32_t *state = world->state;

    store_vector(state + PROJECTION, context.GS.projVector);
    store_vector(state + DUAL, context.GS.dualVector);
    store_vector(state + FREEDOM, context.GS.freeVector);
    state[MODE] = (uint32_t)mode_between(context.GS.round_state);
    state[THRESHOLD] = (uint32_t)context.threshold;
    state[PHASE] = (uint32_t)context.phase;
    state[PERIOD] = (uint32_t)context.period;
    store_reference(state + REFERENCES, context.GS.rp0);
    store_reference(state + REFERENCES + 2, context.GS.rp1);
    store_reference(state + REFERENCES + 4, context.GS.rp2);
    state[LOOP] = (uint32_t)context.GS.loop;
    state[ZONES] = context.GS.gep0;
    state[ZONES + 1] = context.GS.gep1;
    state[ZONES + 2] = context.GS.gep2;
    state[CUT_IN] = (uint32_t)context.GS.control_value_cutin;
    state[MINIMUM_DISTANCE] = (uint32_t)context.GS.minimum_distance;
    state[SINGLE_WIDTH] = (uint32_t)context.GS.single_width_value;
    state[SINGLE_WIDTH_CUT_IN] = (uint32_t)context.GS.single_width_cutin;
    state[AUTO_FLIP] = context.GS.auto_flip != 0;
    state[X_DONE] |= context.iupx_called != 0;
    state[Y_DONE] |= context.iupy_called != 0;
}

/* What is left on the stack after a line that pushes is what it pushed. */
static void store_pushed(World *world, uint8_t opcode)
{
    int pushes = opcode == 0x46 || opcode == 0x47 || opcode == 0x49 || opcode == 0x4A;

    if (!pushes || context.top < 1)
        return;
    world->state[LAST_PUSHED] = (uint32_t)context.stack[context.top - 1];
    world->state[PUSHES] += world->state[PUSHES] != UINT32_MAX;
}

/* FreeType's own SZP lines set the zone pointers, which are copies of zones. */
static size_t write_zone_pointers(const World *world, FT_Byte *code)
{
    for (int i = 0; i < 3; i++) {
        code[i] = (FT_Byte)(0x13 + i);
        context.stack[context.top + 2 - i] = world->state[ZONES + i];
    }
    context.top += 3;
    return 3;
}

/* A run starts with both marks clear, so that two IUPs without contours set
   them. One mark alone is read by nothing. */
static size_t write_marks(const World *world, FT_Byte *code)
{
    if (!(world->state[COMPATIBLE] && world->state[X_DONE] && world->state[Y_DONE]))
        return 0;
    context.pts.n_contours = 0;
    code[0] = 0x31;
    code[1] = 0x30;
    return 2;
}

static FT_Error run_code(FT_Byte *code, size_t size)
{
    context.code = code;
    context.codeSize = (FT_Long)size;
    context.IP = 0;
    context.callTop = 0;
    return TT_RunIns(&context);
}

int door_line(World *world, uint8_t opcode, const int32_t *operands, uint32_t count)
{
    FT_Byte code[6];
    size_t size;
    FT_Error error;

    load_glyph(world);
    load_twilight(world);
    load_values(world);
    load_state(world);
    for (uint32_t i = 0; i < count; i++)
        context.stack[count - 1 - i] = operands[i];
    context.top = (FT_Long)count;
    size = write_zone_pointers(world, code);
    size += write_marks(world, code + size);
    code[size++] = opcode;
    error = run_code(code, size);
    store_state(world);
    store_glyph(world);
    store_twilight(world);
    if (error == FT_Err_Ok)
        store_pushed(world, opcode);
    return error != FT_Err_Ok;
}

void door_iup(World *world, uint32_t axis)
{
    FT_Byte code = axis == 1 ? 0x31 : 0x30;

    load_glyph(world);
    context.twilight.n_points = 0;
    context.GS = tt_default_graphics_state;
    context.backward_compatibility = FALSE;
    context.top = 0;
    run_code(&code, 1);
    store_glyph(world);
}

static TT_GlyphZoneRec zone_at(uint32_t zone)
{
    return zone == 0 ? context.twilight : context.pts;
}

/* What TT_RunIns does before its first instruction, with marks and pointers. */
static void prepare_call(const World *world)
{
    load_glyph(world);
    load_twilight(world);
    load_state(world);
    context.iupx_called = world->state[X_DONE] != 0;
    context.iupy_called = world->state[Y_DONE] != 0;
    context.zp0 = zone_at(world->state[ZONES]);
    context.zp1 = zone_at(world->state[ZONES + 1]);
    context.zp2 = zone_at(world->state[ZONES + 2]);
    Compute_Funcs(&context);
}

void door_move_original(World *world, uint32_t zone, uint16_t index, int32_t distance)
{
    TT_GlyphZoneRec moved;

    prepare_call(world);
    moved = zone_at(zone);
    context.func_move_orig(&context, &moved, index, distance);
    store_glyph(world);
    store_twilight(world);
}

void door_move_point(World *world, uint32_t zone, uint16_t index, int32_t distance)
{
    TT_GlyphZoneRec moved;

    prepare_call(world);
    moved = zone_at(zone);
    context.func_move(&context, &moved, index, distance);
    store_glyph(world);
    store_twilight(world);
}

void door_move_zp2_point(World *world, uint16_t index, int32_t dx, int32_t dy, int touches)
{
    prepare_call(world);
    Move_Zp2_Point(&context, index, dx, dy, touches != 0);
    store_glyph(world);
    store_twilight(world);
}

int door_point_displacement(World *world, uint8_t opcode, uint32_t by[2])
{
    FT_F26Dot6 dx = 0, dy = 0;
    TT_GlyphZoneRec zone;
    FT_UShort reference;

    prepare_call(world);
    context.opcode = opcode;
    if (Compute_Point_Displacement(&context, &dx, &dy, &zone, &reference))
        return 1;
    by[0] = (uint32_t)dx;
    by[1] = (uint32_t)dy;
    return 0;
}

static FT_Long rounded(uint32_t mode, const int32_t given[4])
{
    context.threshold = given[1];
    context.phase = given[2];
    context.period = given[3];
    Compute_Round(&context, (FT_Byte)mode_between((int)mode));
    return context.func_round(&context, given[0], 3);
}

uint32_t door_math(uint32_t op, const int32_t given[4])
{
    FT_Long a = given[0], b = given[1], c = given[2];

    switch (op) {
    case 0: return (uint32_t)FT_PIX_FLOOR(a);
    case 1: return (uint32_t)FT_PIX_ROUND_LONG(a);
    case 2: return (uint32_t)FT_PIX_CEIL_LONG(a);
    case 3: return (uint32_t)FT_PAD_ROUND_LONG(a, b);
    case 4: return (uint32_t)TT_MulFix14(given[0], given[1]);
    case 5: return (uint32_t)FT_MulFix(a, b);
    case 6: return (uint32_t)FT_DivFix(a, b);
    case 7: return (uint32_t)FT_MulDiv(a, b, c);
    default: return (uint32_t)rounded(op - 16, given);
    }
}

static uint32_t projection_axis(TT_Project_Func function)
{
    return function == (TT_Project_Func)Project_x ? 1 : function == (TT_Project_Func)Project_y ? 2 : 0;
}

static uint32_t freedom_axis(TT_Move_Func function)
{
    return function == (TT_Move_Func)Direct_Move_X ? 1 : function == (TT_Move_Func)Direct_Move_Y ? 2 : 0;
}

void door_projection(uint32_t op, const int32_t given[10], uint32_t results[4])
{
    FT_Vector to = {given[6], given[7]}, start = {given[8], given[9]};
    TT_ExecContext exc = &context;

    context.GS.projVector = vector_of((const uint32_t *)given);
    context.GS.dualVector = vector_of((const uint32_t *)given + 2);
    context.GS.freeVector = vector_of((const uint32_t *)given + 4);
    Compute_Funcs(&context);
    if (op == 0) {
        results[0] = (uint32_t)context.F_dot_P;
        results[1] = projection_axis(context.func_project);
        results[2] = projection_axis(context.func_dualproj);
        results[3] = freedom_axis(context.func_move);
    } else {
        results[0] = (uint32_t)(op == 1 ? PROJECT(&to, &start) : DUALPROJ(&to, &start));
    }
}
