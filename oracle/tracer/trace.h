/* A run of a glyph program, as it is followed through FreeType's interpreter and flattened to the sheet of a record.
 * docs/REAL-FONTS.md says what becomes of each instruction; opcodes.txt is the table of it. */
#ifndef TRACE_H
#define TRACE_H

#include <stddef.h>
#include <stdint.h>
#include <stdio.h>

#include <ft2build.h>
#include <freetype/freetype.h>
#include <freetype/internal/ftobjs.h>

#include "ttinterp.h"
#include "ttobjs.h"

/* A list of words that grows. */
struct words {
    int32_t *word;
    size_t length, room;
};

void put(struct words *list, int32_t word);
void clear(struct words *list);

/* How the table handles an instruction. */
enum handling { UNSEEN, LINE, MOVE, VALUE, SWITCH };

/* Operands of a line that takes them by the loop counter. */
enum { BY_LOOP = -1, BY_LOOP_AND_ONE = -2 };

struct opcode {
    unsigned char handling;
    signed char operands;
    /* the zone pointers by which its operands and its references are points: bits 0, 1 and 2 */
    unsigned char points, references;
};

extern const struct opcode opcodes[256];

/* Instructions that are more than their row of the table. */
enum {
    SRP0 = 0x10,
    SRP1 = 0x11,
    SRP2 = 0x12,
    SZP0 = 0x13,
    SZP1 = 0x14,
    SLOOP = 0x17,
    SHC = 0x34,
    SHZ_LAST = 0x37,
    SHPIX = 0x38,
    MSIRP = 0x3A,
    ALIGNRP = 0x3C,
    MIAP = 0x3E,
    MIAP_LAST = 0x3F,
    GC = 0x46,
    GC_LAST = 0x47,
    SCFS = 0x48,
    MD = 0x49,
    MD_LAST = 0x4A,
    SDPVTL_ACROSS = 0x87,
    MIRP = 0xE0
};

enum { TWILIGHT = 0, GLYPH = 1 };

/* Why a run can't be held by a sheet. main.c has their names. */
enum obstacle {
    HELD,
    COMPATIBILITY_SWITCHED,
    TWILIGHT_POINT_MOVED,
    SHIFT_OFF_THE_AXES,
    SPARE_POINT_SHIFTED,
    ABOVE_32_BITS,
    ABOVE_24_KIB,
    ENDED_BY_FREETYPE,
    OBSTACLES
};

/* What was put in the place of an instruction, by bits; the last is of a line that the replayer does otherwise. */
enum lowering {
    NONE = 0,
    MOVED_BY_MSIRP = 1,
    VALUE_OF_ITS_OWN = 2,
    SHIFT_LEFT_OUT = 4,
    ENDED_BY_ERROR = 8,
    SHEET_FED = 16,
    COUNTER_SET_BACK = 32,
    LINE_OF_ONE_POINT = 64
};

enum { TWILIGHT_LISTS = 5, PHANTOM_POINTS = 4 };

struct run {
    /* as FreeType starts the program: the lists of a zone one behind the other */
    struct words state, glyph, contours, twilight, values;
    int points, twilight_points;
    /* the sheet so far */
    struct words sheet;
    long lines;
    /* how many control values and twilight points the lines name, counted from the first: the record holds no more of them */
    int named_values, named_twilight;
    /* what stands behind those: values that the program wrote, spare twilight points (x, y), and the places of the sheet that name them */
    struct words written_values, written_places, spare_points, spare_places;
    /* SHC or SHZ has shifted the whole twilight zone */
    int twilight_shifted;
    int32_t last_pushed, pushes;
    unsigned lowered;
    enum obstacle obstacle;
    int obstacle_opcode;
};

extern struct run run;

/* The first obstacle is the reason. */
void hinder(enum obstacle why, int opcode);

/* A number of FreeType's, which has 64 bits, in 32. */
int32_t narrow(FT_Long number);

void write_line(int opcode, size_t count, const int32_t *operands);
void write_line1(int opcode, int32_t operand);

/* lower.c: lines in the place of what a sheet doesn't take */
void lower_move(TT_ExecContext exc, int point, FT_Long by);
void lower_shift(TT_ExecContext exc, int point, FT_Long dy);

/* record.c: what FreeType starts with and ends with, as a record's words */
void snapshot(TT_ExecContext exc);
void name_twilight(TT_ExecContext exc, FT_Long point);
/* Files of records, of the print that each must come to and of all that it must leave. */
struct streams {
    FILE *records, *prints, *after;
};
/* Writes a run to the first, or to the second where the record has room only without its sheet; 0 where it has none so either. */
int write_record(TT_ExecContext exc, const struct streams *whole, const struct streams *fed);

/* follow.c: what the calls in ttinterp.c lead to */
extern int following;
extern unsigned long executed[256];
/* What is done with a run that has ended. */
void run_ended(TT_ExecContext exc);

#endif
