//! Ways to spoil what a call is given.

use super::states::make_unsound;
use crate::{opcodes::row_of, random::Random, world::*};
use std::ops::RangeInclusive;

/// A word that makes the line unreadable.
pub fn line(random: &mut Random, line: &mut Vec<i32>) {
    match random.below(6) {
        0 => line[0] = random.pick(&[256, -1, i32::MIN, i32::MAX, 0x1000]),
        1 => line[0] = i32::from(unknown_opcode(random)),
        2 => line.truncate(1),
        3 => line[1] = random.pick(&[-1, -2, i32::MIN]),
        4 => line[1] = random.pick(&[i32::MAX, 65_536, line[1] + 1]),
        _ => {
            line.pop();
        }
    }
}

/// The line as the world's sheet, and the start of a run of it. Line, lengths, state and start are each
/// spoilt once in so many times, so that mostly the line's own rule decides.
pub fn seldom(random: &mut Random, world: &mut World, mut words: Vec<i32>, times: usize) -> u64 {
    if random.once_in(times) {
        line(random, &mut words);
    }
    world.lists[SHEET] = words.into_iter().map(|word| word as u32).collect();
    if random.once_in(times) {
        some_length(random, world);
    }
    if random.once_in(times) {
        make_unsound(random, &mut world.state);
    }
    u64::from(random.once_in(times))
}

/// A budget for one line: mostly it is enough.
pub fn budget_for_one(random: &mut Random) -> u64 {
    match random.weighted(&[60, 10, 5, 1]) {
        0 => 1,
        1 => 2,
        2 => u64::MAX,
        _ => 0,
    }
}

/// An opcode of no line of document 01. The later ones count as unknown
/// too, so that the cases made before them stay as they were.
pub fn unknown_opcode(random: &mut Random) -> u8 {
    loop {
        let opcode = random.next() as u8;
        if row_of(opcode).is_none_or(|row| !row.family.is_of_01()) {
            return opcode;
        }
    }
}

/// Some list of either zone is too long or too short by one.
pub fn some_length(random: &mut Random, world: &mut World) {
    if random.flip() {
        one_length(random, world, GLYPH_LISTS);
    } else {
        one_length(random, world, TWILIGHT_LISTS);
    }
}

/// One of the given lists is too long or too short by one.
pub fn one_length(random: &mut Random, world: &mut World, lists: RangeInclusive<usize>) {
    let count = lists.end() - lists.start() + 1;
    let list = &mut world.lists[lists.start() + random.below(count)];
    if random.flip() || list.is_empty() {
        list.push(random.next() as u32 & 7);
    } else {
        list.pop();
    }
}
