//! What must come up in a run of the generator and in the sample.

use super::{
    branches, distances, ends, keys::*, largest, lengths, rows, rules, selectors, settings, shifts,
    singles, wraps,
};
use crate::{
    answer,
    opcodes::{name_of, rounds, row_of, Family, Row, TABLE},
    vectors,
    world::*,
};

/// The points of a loop that are told apart.
const LOOPED: usize = 3;

/// Everything that must come up.
pub fn required() -> Vec<String> {
    let mut keys = Vec::new();
    keys.extend((0..=14).map(|number| format!("answer {number:2}")));
    keys.extend(required_calls());
    keys.extend(required_states());
    keys.extend(required_sizes());
    keys.extend(required_opcodes());
    keys.extend(required_steps());
    keys.extend(required_alone());
    keys.extend(branches::required());
    keys.extend(shifts::required());
    keys.extend(selectors::required());
    keys.extend(lengths::required());
    keys.extend(rows::required());
    keys.extend(wraps::required());
    keys.extend(largest::required());
    keys.extend(distances::required());
    keys.extend(ends::required());
    keys.extend(rules::required());
    keys.extend(singles::required());
    keys.extend(settings::required());
    keys
}

fn required_calls() -> Vec<String> {
    let mut keys = Vec::new();
    for (kind, name) in CALLS.iter().enumerate() {
        let numbers: &[u32] = match kind {
            0 => &[0, 1, 2, 3, 4, 5, 6, 7, 8, 9, 10, 11, 12, 13, 14],
            3 => &[0, 2],
            8 => &[0, 2, 11],
            9 => &[0, 2, 14],
            10..=13 => &[0, 2, 3, 7],
            _ => &[0, 2, 7],
        };
        keys.extend(
            numbers
                .iter()
                .map(|number| format!("call {name}: answer {number}")),
        );
        if !matches!(kind, 1..=3 | 5 | 13) {
            keys.push(format!("call {name}: changed something"));
        }
    }
    for why in [
        "start beyond the sheet",
        "opcode word outside 0 to 255",
        "unknown opcode",
        "no count word",
        "negative count",
        "count past the end",
    ] {
        keys.push(format!("unreadable: {why}"));
    }
    keys.extend(STARTS.iter().map(|kind| format!("start {kind}")));
    keys.extend(BUDGETS.iter().map(|kind| format!("budget {kind}")));
    keys
}

fn required_states() -> Vec<String> {
    let mut keys = Vec::new();
    for name in ["projection", "dual", "freedom"] {
        keys.extend(vectors::KINDS.iter().map(|kind| vector_key(name, *kind)));
    }
    keys.extend((0..8).map(|mode| format!("round mode {mode}")));
    for bits in 0..32 {
        let facts = [0, 1, 2, 3, 4].map(|place| bits >> place & 1);
        keys.push(facts_key(&facts));
    }
    for kind in ["0", "1", "2", "3", "more"] {
        keys.push(format!("loop counter {kind}"));
    }
    keys.extend(ENDS.iter().map(|kind| format!("contour ends {kind}")));
    for list in COORDINATES {
        for turn in TURNS {
            keys.push(coordinate_key(list, turn as i32));
            keys.push(coordinate_key(list, (-turn) as i32));
        }
    }
    let vectors = &STATE_NAMES[..6];
    keys.extend(vectors.iter().map(|name| format!("refused for {name}")));
    keys.push("refused for Super45 with period 0".into());
    keys
}

fn required_sizes() -> Vec<String> {
    let mut keys = Vec::new();
    for (name, _, most) in sized_lists() {
        for length in [0, 1, 2, 3, 4, most, most + 1] {
            keys.push(size_key(name, length, most));
        }
    }
    for list in GLYPH_LISTS.chain(TWILIGHT_LISTS) {
        keys.push(format!("refused for the length of {}", LIST_NAMES[list]));
    }
    keys
}

/// Each of the 256 opcodes: done or unknown; refusals; modes and pointers.
fn required_opcodes() -> Vec<String> {
    let mut keys = Vec::new();
    for opcode in 0..=255 {
        let Some(row) = row_of(opcode) else {
            keys.push(opcode_key(opcode, "unknown"));
            continue;
        };
        keys.push(opcode_key(opcode, "done"));
        let refused = |number| opcode_key(opcode, &format!("refused {number}"));
        keys.extend(refusals(row).map(refused));
    }
    for row in TABLE.iter().filter(|row| !row.family.sets_the_state()) {
        for opcode in row.picked_codes() {
            let pointers = (0..8).map(|bits| [bits & 1, bits >> 1 & 1, bits >> 2]);
            keys.extend(pointers.map(|zones| zones_key(&name_of(opcode), zones)));
        }
    }
    for opcode in (0..=255).filter(|opcode| rounds(*opcode)) {
        keys.extend((0..8).map(|mode| mode_key(&name_of(opcode), mode)));
    }
    keys
}

/// The answers that a line of the row can give of itself.
fn refusals(row: &Row) -> impl Iterator<Item = u32> {
    let too_few = row.takes_operands().then_some(6);
    let own = row.refusals.iter().copied();
    [5].into_iter().chain(too_few).chain(own)
}

/// The instructions that are looked at one by one.
fn instructions() -> impl Iterator<Item = &'static Row> {
    TABLE.iter().filter(|row| row.family != Family::Setter)
}

/// Each step that can refuse: 7 by each access, 6 after each number of operands.
fn required_steps() -> Vec<String> {
    let mut keys = Vec::new();
    for row in instructions() {
        let steps = row.steps(LOOPED).into_iter();
        keys.extend(steps.map(|step| format!("{}: 7 by {step}", row.name)));
    }
    for row in instructions() {
        let operands = 0..row.most_operands(LOOPED as u32);
        keys.extend(operands.map(|given| format!("{}: 6 after {given} operands", row.name)));
    }
    keys
}

/// Each instruction alone: every answer it can give.
fn required_alone() -> Vec<String> {
    let mut keys = Vec::new();
    for row in instructions() {
        let numbers = (0..=4).chain(refusals(row)).chain([answer::ENDS]);
        keys.extend(numbers.map(|number| alone_key(row.name, number)));
    }
    keys
}
