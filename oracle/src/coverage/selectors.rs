//! Which selectors came up, and what rounded by them, told from what was given
//! and from the state before each line. Nothing here decides an outcome.

use super::branches::keeps_control_value;
use crate::{
    case::{Case, Outcome},
    direct::Call,
    lines_of::{finished_lines, ReachedLine},
    opcodes::{codes_of, is_of, name_of, rounding_codes_of, rounds, Family},
    replay,
    world::*,
};
use reference::door;

/// The low byte's fields: period, phase, threshold, each with its lowest bit
/// and how many numbers it has.
const FIELDS: [(&str, u32, u32); 3] = [("period", 6, 4), ("phase", 4, 4), ("threshold", 0, 16)];
const ABOVE_THE_BYTE: [&str; 3] = [
    "nothing",
    "bits of a positive word",
    "bits of a negative word",
];

/// What the run's finished lines say of selectors.
pub fn keys(case: &Case, outcome: &Outcome) -> Vec<String> {
    let lines = finished_lines(case, outcome);
    let mut keys = Vec::new();
    let mut set_by = None;
    for (number, line) in lines.iter().enumerate() {
        match (line.opcode, &line.operands[..]) {
            (opcode, [operand]) if is_of(opcode, Family::Selector) => {
                keys.push(byte_key(opcode, *operand as u8));
                keys.push(above_key(opcode, above(*operand)));
                set_by = Some(opcode);
            }
            (0x18 | 0x19 | 0x3D | 0x7A | 0x7C | 0x7D, _) => set_by = None,
            (opcode, _) if is_of(opcode, Family::Outline) && rounds(opcode) => {
                let kind = set_by.map(|selector| (selector, opcode));
                keys.extend(kind.and_then(|kind| rounded(case, number, line, kind)));
            }
            _ => {}
        }
    }
    keys
}

/// Every selector of both kinds; every kind of bits above it; lines that round
/// by either kind, both signs, short of the first step and past it.
pub fn required() -> Vec<String> {
    let mut keys = Vec::new();
    for opcode in codes_of(Family::Selector) {
        keys.extend((0..=255).map(|byte| byte_key(opcode, byte)));
        keys.extend(ABOVE_THE_BYTE.map(|above| above_key(opcode, above)));
        for rounder in rounding_codes_of(Family::Outline) {
            for negative in [false, true] {
                for short in [false, true] {
                    keys.push(rounded_key((opcode, rounder), negative, short));
                }
            }
        }
    }
    keys
}

fn above(operand: i32) -> &'static str {
    match operand {
        0..=255 => ABOVE_THE_BYTE[0],
        256.. => ABOVE_THE_BYTE[1],
        _ => ABOVE_THE_BYTE[2],
    }
}

/// What a line that rounds met, by the world before it.
fn rounded(case: &Case, number: usize, line: &ReachedLine, kind: (u8, u8)) -> Option<String> {
    let world = world_before(case, number);
    let distance = distance_rounded(&world, line)?;
    let door::Rounding {
        threshold, phase, ..
    } = world.state.rounding;
    let size = i64::from(distance).abs();
    let short = size < i64::from(phase) - i64::from(threshold);
    Some(rounded_key(kind, distance < 0, short))
}

/// The run again, up to the line of that number.
pub fn world_before(case: &Case, number: usize) -> World {
    let Call::Run { start, rules, .. } = case.call else {
        unreachable!("only runs have lines");
    };
    let mut world = case.world.clone();
    replay::run(&mut world, rules, start, number as u64);
    world
}

/// MDAP's point as a distance, or MIAP's control value if it is kept; none
/// where nothing is rounded.
fn distance_rounded(world: &World, line: &ReachedLine) -> Option<i32> {
    if world.state.native_cleartype_x {
        return None;
    }
    if line.opcode == 0x3F {
        let value = world.lists[CONTROL_VALUES][line.operands[0] as usize];
        return keeps_control_value(world, line).then_some(value as i32);
    }
    let x = if world.state.zones[0] == 0 {
        TWILIGHT_CURRENT_X
    } else {
        CURRENT_X
    };
    let along = |list: usize| {
        let number = world.lists[list].get(line.operands[0] as usize)?;
        Some(*number as i32)
    };
    let point = (along(x)?, along(x + 1)?);
    Some(door::project(world.state.vectors, point, (0, 0)))
}

fn byte_key(opcode: u8, byte: u8) -> String {
    let fields = FIELDS.map(|(name, shift, count)| {
        let number = u32::from(byte) >> shift & (count - 1);
        format!("{name} {number}")
    });
    format!("{}: {}", name_of(opcode), fields.join(", "))
}

fn above_key(opcode: u8, above: &str) -> String {
    format!("{}: above the byte {above}", name_of(opcode))
}

fn rounded_key((selector, rounder): (u8, u8), negative: bool, short: bool) -> String {
    let names = [rounder, selector].map(name_of).join(" by ");
    format!("{names}: negative {negative}, short of the first step {short}")
}
