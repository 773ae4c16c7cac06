//! The names that things are counted under, and the kinds they fall into.

use crate::{
    answer,
    opcodes::{name_of, row_of, Family},
    vectors::VectorKind,
    world::*,
};

/// The calls' names by kind.
pub const CALLS: [&str; 14] = [
    "run",
    "point",
    "original",
    "unscaled",
    "touch",
    "is_touched",
    "untouch",
    "flip_on_curve",
    "set_on_curve",
    "iup",
    "move_original",
    "move_point",
    "move_zp2_point",
    "point_displacement",
];
/// Coordinates near these, and near their negatives, must come up.
pub const TURNS: [i64; 4] = [0, 64, 1 << 30, 1 << 31];
pub const BUDGETS: [&str; 4] = ["0", "1", "between", "enough"];
pub const STARTS: [&str; 4] = ["first word", "inside", "end", "beyond"];
pub const ENDS: [&str; 5] = [
    "none",
    "in order below n",
    "out of order",
    "equal",
    "at or above n",
];
/// The lists of x whose coordinates, and the y after them, are counted.
pub const COORDINATES: [usize; 4] = [UNSCALED_X, ORIGINAL_X, CURRENT_X, TWILIGHT_CURRENT_X];

/// A 7 whose detail isn't the first outside index in document 01's order, an
/// operation of a rounding past 32 bits that can't go there, a 14 that isn't for
/// the ends, is missing, or changes something, an answer that the other rules
/// don't give, an IP, ALIGNPTS or UTP that goes by what it may not read, or a line
/// that sets a vector or a size and goes by such, or is gone by where it may not be.
pub const UNEXPLAINED: &str = "UNEXPLAINED: an answer or a wrapped rounding that can't be";

/// The name that a line's instruction is counted under: a setter's codes are
/// told apart.
pub fn instruction_of(opcode: u8) -> String {
    match row_of(opcode) {
        Some(row) if row.family != Family::Setter => row.name.into(),
        _ => name_of(opcode),
    }
}

pub fn vector_key(name: &str, kind: VectorKind) -> String {
    format!("{name} vector {kind:?}")
}

pub fn facts_key(facts: &[u32]) -> String {
    let digits: Vec<String> = facts.iter().map(|fact| fact.to_string()).collect();
    format!("facts {}", digits.join(""))
}

pub fn coordinate_key(list: usize, near: i32) -> String {
    let name = LIST_NAMES[list].trim_end_matches(" x");
    format!("{name} coordinate near {near}")
}

pub fn zones_key(name: &str, [zp0, zp1, zp2]: [u32; 3]) -> String {
    format!("{name} with zone pointers {zp0}{zp1}{zp2}")
}

pub fn mode_key(name: &str, mode: u32) -> String {
    format!("{name} with round mode {mode}")
}

pub fn opcode_key(opcode: u8, what: &str) -> String {
    format!("opcode {opcode:02X} {}: {what}", name_of(opcode))
}

/// Name, list and limit of each size that is limited.
pub fn sized_lists() -> [(&'static str, usize, usize); 5] {
    [
        ("n", FLAGS, MOST_POINTS),
        ("m", TWILIGHT_FLAGS, MOST_POINTS),
        ("contours", CONTOURS, MOST_CONTOURS),
        ("control values", CONTROL_VALUES, MOST_CONTROL_VALUES),
        ("sheet words", SHEET, MOST_SHEET_WORDS),
    ]
}

pub fn size_key(name: &str, length: usize, most: usize) -> String {
    let kind = match length {
        0..=3 => length.to_string(),
        _ if length < most => "some".into(),
        _ if length == most => "the limit".into(),
        _ => "above the limit".into(),
    };
    format!("{name} is {kind}")
}

/// The lists whose length differs from that of their zone's flags, or of
/// whose zone the flags differ from all others.
pub fn unequal_lists(world: &World) -> Vec<usize> {
    let mut unequal = Vec::new();
    for (lists, flags) in [(GLYPH_LISTS, FLAGS), (TWILIGHT_LISTS, TWILIGHT_FLAGS)] {
        let flag_count = world.lists[flags].len();
        let differing: Vec<usize> = lists
            .clone()
            .filter(|list| world.lists[*list].len() != flag_count)
            .collect();
        if differing.len() == lists.count() - 1 {
            unequal.push(flags);
        } else {
            unequal.extend(differing);
        }
    }
    unequal
}

pub fn loop_kind(loop_counter: u32) -> String {
    match loop_counter {
        0..=3 => loop_counter.to_string(),
        _ => "more".into(),
    }
}

pub fn ends_kind(world: &World) -> &'static str {
    let ends = &world.lists[CONTOURS];
    let points = world.points() as u32;
    if ends.is_empty() {
        ENDS[0]
    } else if ends.iter().any(|end| *end >= points) {
        ENDS[4]
    } else if ends.windows(2).any(|pair| pair[0] > pair[1]) {
        ENDS[2]
    } else if ends.windows(2).any(|pair| pair[0] == pair[1]) {
        ENDS[3]
    } else {
        ENDS[1]
    }
}

pub fn start_kind(start: u64, length: u64) -> &'static str {
    if start > length {
        STARTS[3]
    } else if start == length {
        STARTS[2]
    } else if start > 0 {
        STARTS[1]
    } else {
        STARTS[0]
    }
}

pub fn budget_kind(budget: u64, number: u32) -> &'static str {
    match budget {
        0 => BUDGETS[0],
        1 => BUDGETS[1],
        _ if number == answer::BUDGET => BUDGETS[2],
        _ => BUDGETS[3],
    }
}

pub fn alone_key(instruction: &str, number: u32) -> String {
    format!("{instruction} at the start: answer {number}")
}
