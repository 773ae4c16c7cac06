/* FreeType's interpreter behind a few calls on a world's words. */
#ifndef DOOR_H
#define DOOR_H

#include "world.h"

/* Must come before any other call. */
void door_open(void);

/* Runs one instruction with its operands, the first popped first. 1 if FreeType
   refuses it. */
int door_line(World *world, uint8_t opcode, const int32_t *operands, uint32_t count);

/* IUP alone, without the state: axis 1 is x, 2 is y. */
void door_iup(World *world, uint32_t axis);

/* The functions below take an index inside its zone (0 twilight, 1 glyph). */
void door_move_original(World *world, uint32_t zone, uint16_t index, int32_t distance);
void door_move_point(World *world, uint32_t zone, uint16_t index, int32_t distance);
void door_move_zp2_point(World *world, uint16_t index, int32_t dx, int32_t dy, int touches);

/* 1 if FreeType refuses the reference point. */
int door_point_displacement(World *world, uint8_t opcode, uint32_t by[2]);

/* One row of each kind; docs/ORACLE.md has the operations. */
uint32_t door_math(uint32_t op, const int32_t given[4]);
void door_projection(uint32_t op, const int32_t given[10], uint32_t results[4]);

#endif
