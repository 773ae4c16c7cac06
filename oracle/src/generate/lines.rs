//! Single lines of the instructions that move points, whole and spoilt.

use super::{
    operands::line,
    spoil,
    states::{make_unsound, sound_state},
    worlds::{fill_glyph, fill_twilight, small_world},
};
use crate::{
    case::Case, direct::Call, numbers::mixed, opcodes::Row, random::Random, vectors::ONE, world::*,
};

/// A sheet of one line of the instruction.
pub fn line_case(random: &mut Random, row: &Row) -> Case {
    let mut world = peopled_world(random);
    let opcode = random.pick(&row.picked_codes());
    suit_the_line(random, &mut world, opcode);
    let mut line = line(random, &world, opcode);
    if random.once_in(30) {
        spoil::line(random, &mut line);
    }
    world.lists[SHEET] = line.into_iter().map(|word| word as u32).collect();
    if random.once_in(25) {
        spoil::some_length(random, &mut world);
    }
    if random.once_in(25) {
        make_unsound(random, &mut world.state);
    }
    let budget = random.pick(&[1, 1, 1, 1, 1, 1, 1, 2, u64::MAX, 0]);
    Case {
        call: Call::run(0, budget),
        world,
    }
}

/// A world whose zone pointers mostly name zones with points in them.
fn peopled_world(random: &mut Random) -> World {
    loop {
        let state = sound_state(random);
        let world = small_world(random, state);
        let peopled = world
            .state
            .zones
            .iter()
            .all(|zone| world.points_of(*zone) > 0);
        if peopled || random.once_in(8) {
            return world;
        }
    }
}

/// Brings the world near the places where the instruction turns.
fn suit_the_line(random: &mut Random, world: &mut World, opcode: u8) {
    if opcode == 0x0F && !random.once_in(4) {
        let points = 4 + random.below(2);
        fill_glyph(random, world, points);
        fill_twilight(random, world, 4);
    }
    match opcode {
        _ if random.once_in(6) => scatter_points(random, world),
        0x0F if random.once_in(6) => put_points_in_a_row(random, world),
        0x0F if random.flip() => make_lines_nearly_parallel(random, world),
        0x3F if !random.once_in(4) => put_control_values_near_points(random, world),
        _ => {}
    }
}

/// Current points anywhere, so that differences of coordinates wrap.
fn scatter_points(random: &mut Random, world: &mut World) {
    for x in [CURRENT_X, TWILIGHT_CURRENT_X] {
        for list in [x, x + 1] {
            for word in &mut world.lists[list] {
                *word = random.next() as u32;
            }
        }
    }
}

/// Current points along one direction, so that the intersection grazes.
fn make_lines_nearly_parallel(random: &mut Random, world: &mut World) {
    let step_x = mixed(random);
    let step_y = mixed(random);
    for x in [CURRENT_X, TWILIGHT_CURRENT_X] {
        for index in 0..world.lists[x].len() {
            let times = random.between(-3, 3);
            let along = |step: i32| step.wrapping_mul(times) as u32;
            let bend = random.between(-1, 1) as u32;
            world.lists[x][index] = along(step_x).wrapping_add(bend);
            world.lists[x + 1][index] = along(step_y);
        }
    }
}

/// Current points so far apart in a row that a dot product can be -2^31.
fn put_points_in_a_row(random: &mut Random, world: &mut World) {
    let along = random.below(2);
    for x in [CURRENT_X, TWILIGHT_CURRENT_X] {
        for index in 0..world.lists[x].len() {
            world.lists[x + along][index] = random.pick(&[0, 1 << 18, -1 << 19]) as u32;
            world.lists[x + 1 - along][index] = 5;
        }
    }
}

/// Control values at the cut-in from the glyph's points, and around it. The
/// projection is made an axis, and the points are alike along it.
fn put_control_values_near_points(random: &mut Random, world: &mut World) {
    let axis = random.below(2);
    let vectors = &mut world.state.vectors;
    vectors[0] = if axis == 0 { ONE } else { 0 };
    vectors[1] = ONE - vectors[0];
    let near = mixed(random);
    world.lists[CURRENT_X + axis].fill(near as u32);
    let cut_in = world.state.cut_in;
    for value in &mut world.lists[CONTROL_VALUES] {
        let apart = random.pick(&[cut_in, cut_in, cut_in >> 4, cut_in >> 4, i32::MIN, 0]);
        let signed = if random.flip() {
            apart
        } else {
            apart.wrapping_neg()
        };
        let distance = signed.wrapping_add(random.pick(&[-1, 0, 0, 1]));
        *value = near.wrapping_add(distance) as u32;
    }
}
