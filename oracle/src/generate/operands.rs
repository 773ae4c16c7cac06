//! Lines of any opcode: operands by their kinds, right ones and wrong ones.

use super::selectors::ABOVE_THE_BYTE;
use crate::{
    numbers::{any_word, mixed, near_corner},
    opcodes::{row_of, Operand},
    random::Random,
    vectors::ONE,
    world::*,
};

/// A line of the opcode for the world's state as it stands.
pub fn line(random: &mut Random, world: &World, opcode: u8) -> Vec<i32> {
    let mut operands = operands(random, world, opcode);
    if random.once_in(14) {
        operands.pop();
        operands.truncate(random.below(operands.len() + 1));
    } else if random.once_in(14) {
        operands.push(mixed(random));
    }
    let mut line = vec![i32::from(opcode), operands.len() as i32];
    line.extend(operands);
    line
}

fn operands(random: &mut Random, world: &World, opcode: u8) -> Vec<i32> {
    let Some(row) = row_of(opcode) else {
        return Vec::new();
    };
    let zones = world.state.zones;
    // Drawn first, though they stand last.
    let points = row
        .looped
        .map(|zone| looped(random, world, zone.number(zones)));
    let mut operands = match row.operands {
        [Operand::High, Operand::Low] => range(random, world.points() as i32),
        kinds => kinds
            .iter()
            .map(|kind| operand(random, world, *kind))
            .collect(),
    };
    if opcode == 0x0F {
        let [zp0, zp1, _] = zones;
        keep_apart(&mut operands[..2], world.points_of(zp0));
        keep_apart(&mut operands[2..4], world.points_of(zp1));
    }
    operands.extend(points.into_iter().flatten());
    operands
}

fn operand(random: &mut Random, world: &World, kind: Operand) -> i32 {
    let [zp0, _, _] = world.state.zones;
    match kind {
        Operand::Point(zone) => {
            let zone = zone.number(world.state.zones);
            point_operand(random, world.points_of(zone))
        }
        Operand::PointNumber => point_operand(random, world.points_of(zp0)),
        Operand::ZoneNumber => zone_operand(random),
        Operand::LoopCount => loop_operand(random),
        Operand::Distance => mixed(random),
        Operand::Amount => amount(random),
        Operand::Component => component(random),
        Operand::FontUnits => mixed(random),
        Operand::ControlValue => point_operand(random, world.lists[CONTROL_VALUES].len()),
        Operand::ControlValueOrNone => {
            control_value_or_none(random, world.lists[CONTROL_VALUES].len())
        }
        Operand::Contour => contour_operand(random, world),
        Operand::SelectorByte => selector(random),
        // The two ends of a range are drawn together.
        Operand::High | Operand::Low => unreachable!("an end without the other"),
    }
}

/// The two ends of a line that ISECT takes are mostly two points.
fn keep_apart(ends: &mut [i32], count: usize) {
    if ends[0] == ends[1] && count > 2 {
        ends[1] = (ends[0] + 1) % count as i32;
    }
}

/// As many points as the loop counter asks for, or a few of a great many.
fn looped(random: &mut Random, world: &World, zone: u32) -> Vec<i32> {
    let wanted = world.state.loop_counter as usize;
    let count = if wanted > 5 { random.below(5) } else { wanted };
    (0..count)
        .map(|_| point_operand(random, world.points_of(zone)))
        .collect()
}

/// Mostly an index below the count, now and then at it, above it or negative.
fn point_operand(random: &mut Random, count: usize) -> i32 {
    if count > 0 && !random.once_in(16) {
        return random.below(count) as i32;
    }
    match random.below(4) {
        0 => count as i32,
        1 => -1,
        2 => near_corner(random),
        _ => any_word(random),
    }
}

/// A control value; -1, which is none; now and then one that isn't there.
fn control_value_or_none(random: &mut Random, count: usize) -> i32 {
    match random.weighted(&[14, 2, 1]) {
        0 => point_operand(random, count),
        1 => -1,
        _ => random.pick(&[count as i32, -2, i32::MAX, i32::MIN, i32::MAX - 1]),
    }
}

fn zone_operand(random: &mut Random) -> i32 {
    if random.once_in(10) {
        random.pick(&[2, -1, i32::MIN, i32::MAX, 256])
    } else {
        random.between(0, 1)
    }
}

fn loop_operand(random: &mut Random) -> i32 {
    if random.once_in(6) {
        random.pick(&[-1, i32::MIN, 65_534, 65_535, 65_536, i32::MAX, 0])
    } else {
        random.between(0, 3)
    }
}

/// A selector: a byte alone, or with anything above it.
fn selector(random: &mut Random) -> i32 {
    let byte = random.between(0, 255);
    match random.below(3) {
        0 => byte,
        1 => byte | random.pick(&ABOVE_THE_BYTE),
        _ => byte | any_word(random) << 8,
    }
}

/// Mostly a contour of zp2's zone, else the first that it lacks or any number.
fn contour_operand(random: &mut Random, world: &World) -> i32 {
    let contours = world.contours_of(world.state.zones[2]);
    match random.weighted(&[14, 1, 1, 1, 1]) {
        0 if contours > 0 => random.below(contours) as i32,
        0 | 1 => contours as i32,
        2 => contours as i32 + 1,
        3 => -1,
        _ => point_operand(random, 0),
    }
}

/// An amount of SHPIX: often at an end of the numbers.
fn amount(random: &mut Random) -> i32 {
    if random.once_in(6) {
        return random.pick(&[i32::MIN, i32::MIN + 1, i32::MAX, i32::MAX - 1, 0, 1, -1]);
    }
    mixed(random)
}

/// A component of a vector: of 2.14 mostly, of every size and sign, often 0, often
/// with something above the 16 bits that count.
fn component(random: &mut Random) -> i32 {
    let low = match random.weighted(&[3, 4, 4, 4, 2]) {
        0 => 0,
        1 => random.between(-ONE, ONE),
        2 => any_word(random) >> 16,
        3 => random.pick(&[1, -1, 2, -64, 64, ONE, -ONE, 11585, 0x7FFF, -0x8000]),
        _ => return any_word(random),
    };
    if random.once_in(6) {
        return low & 0xFFFF | any_word(random) << 16;
    }
    low
}

/// The high point and the low one of a range flip, around where it turns.
fn range(random: &mut Random, points: i32) -> Vec<i32> {
    let somewhere = random.between(0, points);
    let below = random.between(-1, points - 1);
    let [high, low] = match random.weighted(&[6, 2, 2, 1, 3, 2, 1, 1, 1, 1]) {
        0 if points > 0 => in_order(random, points),
        1 => [below, below],
        2 => [below, below + 1],
        3 => [below, below + 2],
        4 => [points - 1, somewhere],
        5 => [points, somewhere],
        6 => [-1, random.pick(&[somewhere, 0, -1, i32::MIN])],
        7 => [random.pick(&[-2, i32::MIN, i32::MAX]), somewhere],
        8 => [below, random.pick(&[-1, -2, i32::MIN])],
        _ => [near_corner(random), any_word(random)],
    };
    vec![high, low]
}

fn in_order(random: &mut Random, points: i32) -> [i32; 2] {
    let high = random.between(0, points - 1);
    [high, random.between(0, high)]
}
