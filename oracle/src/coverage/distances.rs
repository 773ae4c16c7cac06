//! Which ways GC, MD, MDRP and MIRP went, told from what they were given and
//! from the same line with one thing changed. Nothing here decides an outcome.

use super::{
    keys::UNEXPLAINED,
    wraps::{count_key, count_kind, rounding_key, rounding_keys, COUNTS},
};
use crate::{
    answer,
    case::{Case, Outcome},
    direct::{Call, Returned},
    lines_of::{first_line, first_outside, ReachedLine},
    opcodes::{name_of, rounds, row_of, rows_of, Family, Row},
    replay::{self, Step},
    shadow::{self, CAN_PASS},
    words::widened,
    world::*,
};

/// The bits of a MDRP's or MIRP's code that say something, and what they ask for.
const BITS: [(u8, &str); 3] = [(16, "rp0"), (8, "the minimum distance"), (4, "rounding")];
/// The two that are for the engine: nothing may come of them.
const SILENT: [u8; 2] = [1, 2];
const SIGNS: [&str; 3] = ["below 0", "0", "above 0"];
/// Lines that keep the count of wrapped roundings, by what becomes of them.
const KEPT: [&str; 6] = [
    "done",
    "native",
    "let pass",
    "refused 6",
    "refused 7",
    "refused 7 after it wrapped",
];

/// A thing that a line may depend on, and the world without it.
type Change = (&'static str, fn(&mut World));

/// For both.
const OF_BOTH: [Change; 3] = [
    ("the single width", |world| {
        world.state.single_width_cut_in = i32::MIN;
    }),
    ("the dual vector", |world| {
        let vectors = &mut world.state.vectors;
        (vectors[2], vectors[3]) = (vectors[0], vectors[1]);
    }),
    ("native ClearType x", |world| {
        world.state.native_cleartype_x = !world.state.native_cleartype_x;
    }),
];
const OF_MDRP: [Change; 2] = [
    ("the scale", |world| world.state.scale = 0),
    ("the unscaled points", |world| {
        copy_pairs(world, ORIGINAL_X, UNSCALED_X);
    }),
];
const OF_MIRP: [Change; 3] = [
    ("auto flip", |world| {
        world.state.auto_flip = !world.state.auto_flip;
    }),
    ("the cut-in", |world| world.state.cut_in = i32::MAX),
    ("the original points", |world| {
        copy_pairs(world, CURRENT_X, ORIGINAL_X);
        copy_pairs(world, TWILIGHT_CURRENT_X, TWILIGHT_ORIGINAL_X);
    }),
];
/// Numbers of which one more or less turns the line, where it stands at its edge.
const EDGES: [(&str, fn(&mut World) -> &mut i32); 2] = [
    ("single width cut-in", |world| {
        &mut world.state.single_width_cut_in
    }),
    ("cut-in", |world| &mut world.state.cut_in),
];

pub fn keys(case: &Case, outcome: &Outcome) -> Vec<String> {
    let Call::Run {
        start,
        budget,
        rules,
    } = case.call
    else {
        let pushed = case.world.state.pushes > 0;
        return pushed.then(direct_call_key).into_iter().collect();
    };
    let mut keys = first_line_keys(case, outcome);
    let native = case.world.state.native_cleartype_x;
    replay::watched(&mut case.world.clone(), rules, start, budget, |step| {
        keys.extend(pushing_keys(outcome, &step));
        keys.extend(counting_keys(outcome, &step, native));
    });
    keys
}

pub fn required() -> Vec<String> {
    let mut keys = vec![direct_call_key(), other_line_key()];
    for row in rows_of(Family::Distances) {
        for code in row.codes() {
            let name = name_of(code);
            if row.pushes > 0 {
                keys.extend(required_pushes(&name));
            } else {
                keys.extend(changes_of(code).map(|(what, _)| decides_key(&name, what)));
                keys.extend(bits_of(code).map(|(_, what)| decides_key(&name, what)));
            }
        }
        if row.pushes == 0 {
            keys.extend(required_counts(row));
        }
    }
    for more in [false, true] {
        keys.extend(["MDRP", "MIRP"].map(|name| edge_key(name, EDGES[0].0, more, false)));
        for native in [false, true] {
            keys.push(edge_key("MIRP", EDGES[1].0, more, native));
        }
    }
    keys.push(unscaled_key());
    for name in ["MDRP", "MIRP"] {
        keys.extend(["point", "rp0"].map(|what| let_pass_key(name, what)));
    }
    keys.push(let_pass_key("MIRP", "control value"));
    keys.push(no_control_value_key());
    keys
}

/// How often at least a run's first line must be one of these and decide.
pub fn fewest() -> Vec<(String, usize)> {
    let mut fewest = Vec::new();
    for row in rows_of(Family::Distances) {
        let each = if row.pushes > 0 { 150 } else { 30 };
        let codes = row.codes().map(name_of);
        fewest.extend(codes.map(|name| (first_key(&name), each)));
        if row.pushes > 0 {
            fewest.push((first_key(row.name), 400));
        }
    }
    fewest
}

fn required_pushes(name: &str) -> Vec<String> {
    let mut keys: Vec<String> = COUNTS.iter().map(|kind| push_key(name, kind)).collect();
    keys.extend(SIGNS.map(|sign| pushed_key(name, sign)));
    keys.extend([6, 7].map(|number| refused_key(name, number)));
    keys.push(zero_key(name));
    keys
}

/// Every mode and sign that a rounding has, wrapped or not; every kind of count
/// and of line that keeps it.
fn required_counts(row: &Row) -> Vec<String> {
    let mut keys = Vec::new();
    for (mode, signs) in CAN_PASS.iter().enumerate() {
        for (negative, can_pass) in [(false, signs[0]), (true, signs[1])] {
            keys.push(rounding_key(row.name, mode, negative, false));
            if !can_pass.is_empty() {
                keys.push(rounding_key(row.name, mode, negative, true));
            }
        }
    }
    keys.extend(COUNTS.map(|kind| count_key(row.name, kind)));
    // MIRP looks for its points before it rounds.
    let kept = if row.name == "MDRP" { 6 } else { 5 };
    keys.extend(KEPT[..kept].iter().map(|way| kept_key(row, way)));
    if row.refusals.contains(&answer::CONTROL_VALUE) {
        keys.push(kept_key(row, "refused 8"));
    }
    keys
}

/// The first line, if it is one of these and more than its count decided.
fn first_line_keys(case: &Case, outcome: &Outcome) -> Vec<String> {
    let answer = outcome.returned.answer;
    let Some(line) = first_line(case, outcome) else {
        return Vec::new();
    };
    let too_many = answer.lines == 0 && answer.number == answer::TOO_MANY;
    let Some(row) = row_of(line.opcode).filter(|row| row.family == Family::Distances) else {
        return Vec::new();
    };
    if too_many {
        return Vec::new();
    }
    let name = name_of(line.opcode);
    let mut keys = vec![first_key(&name), first_key(row.name)];
    if answer.lines > 0 {
        keys.extend(leniency_keys(case, &line, row));
    }
    let words = case.world.lists[SHEET].len();
    if answer.lines == 1 && words == 2 + line.operands.len() && line.opcode >= 0xC0 {
        keys.extend(change_keys(case, &line, row));
    }
    keys
}

/// What a line that was done met that isn't there.
fn leniency_keys(case: &Case, line: &ReachedLine, row: &Row) -> Vec<String> {
    let state = &case.world.state;
    let outside = first_outside(case, line).map(|access| access.name);
    let mut keys = Vec::new();
    match (row.name, outside) {
        ("GC" | "MD", Some(_)) => keys.push(zero_key(&name_of(line.opcode))),
        ("MDRP" | "MIRP", Some(what)) => keys.push(let_pass_key(row.name, &what)),
        _ => {}
    }
    if row.name == "MIRP" {
        let entry = widened(line.operands[0].wrapping_add(1));
        match entry {
            0 => keys.push(no_control_value_key()),
            _ if entry > case.world.lists[CONTROL_VALUES].len() as u64 => {
                keys.push(let_pass_key(row.name, "control value"));
            }
            _ => {}
        }
    }
    let points = case.world.points() as u64;
    let is_wild = |operand: &i32| widened(*operand) >= points;
    if line.opcode == 0x4A && state.zones[..2] == [1, 1] && line.operands.iter().any(is_wild) {
        keys.push(if state.pedantic {
            unscaled_key()
        } else {
            zero_key(&name_of(line.opcode))
        });
    }
    keys
}

/// What of a line alone decides: it is run again without each thing in turn.
fn change_keys(case: &Case, line: &ReachedLine, row: &Row) -> Vec<String> {
    let name = name_of(line.opcode);
    let left = left_by(case, |_| {});
    let differs = |change: &dyn Fn(&mut World)| left_by(case, change) != left;
    let with_opcode =
        |opcode: u8| differs(&move |world: &mut World| world.lists[SHEET][0] = u32::from(opcode));
    let mut keys = Vec::new();
    for (bit, what) in bits_of(line.opcode) {
        if with_opcode(line.opcode ^ bit) {
            keys.push(decides_key(&name, what));
        }
    }
    if SILENT.iter().any(|bit| with_opcode(line.opcode ^ bit)) {
        keys.push(UNEXPLAINED.into());
    }
    for (what, change) in changes_of(line.opcode) {
        if differs(&change) {
            keys.push(decides_key(&name, what));
        }
    }
    let native = case.world.state.native_cleartype_x;
    for (what, number) in EDGES {
        for more in [false, true] {
            let by = if more { 1 } else { -1 };
            let edge = |world: &mut World| {
                let number = number(world);
                *number = number.saturating_add(by);
            };
            if differs(&edge) {
                let native = native && what == EDGES[1].0;
                keys.push(edge_key(row.name, what, more, native));
            }
        }
    }
    keys
}

/// What a run leaves, but for what was changed before it.
pub fn left_by(
    case: &Case,
    change: impl Fn(&mut World),
) -> (Returned, Vec<Vec<u32>>, [u64; 3], u32) {
    let mut world = case.world.clone();
    change(&mut world);
    let returned = case.call.perform(&mut world);
    // Unscaled and original glyph points are never changed by a line.
    let lists = [CURRENT_X..=FLAGS, TWILIGHT_CURRENT_X..=TWILIGHT_FLAGS];
    let lists = lists.into_iter().flatten();
    (
        returned,
        lists.map(|list| world.lists[list].clone()).collect(),
        world.state.references,
        world.state.wrapped_roundings,
    )
}

/// The bits that the code has set.
fn bits_of(code: u8) -> impl Iterator<Item = (u8, &'static str)> {
    BITS.into_iter().filter(move |(bit, _)| code & bit != 0)
}

/// What a line of the code may depend on.
fn changes_of(code: u8) -> impl Iterator<Item = Change> {
    let own: &[Change] = if code < 0xE0 { &OF_MDRP } else { &OF_MIRP };
    let changes = OF_BOTH.iter().chain(own).copied();
    changes.filter(move |(what, _)| match *what {
        "the cut-in" => code & 4 != 0,
        "native ClearType x" => code & (4 | 8) != 0,
        _ => true,
    })
}

pub fn copy_pairs(world: &mut World, from: usize, to: usize) {
    for axis in 0..2 {
        world.lists[to + axis] = world.lists[from + axis].clone();
    }
}

/// What was pushed, and what kept it.
fn pushing_keys(outcome: &Outcome, step: &Step) -> Vec<String> {
    let name = name_of(step.opcode);
    let mut keys = Vec::new();
    for value in &step.pushed {
        keys.push(push_key(&name, count_kind(step.pushes_before)));
        keys.push(pushed_key(&name, SIGNS[(value.signum() + 1) as usize]));
    }
    if step.pushes_before == 0 {
        return keys;
    }
    match row_of(step.opcode) {
        Some(row) if row.pushes > 0 && !step.done => {
            keys.push(refused_key(&name, outcome.returned.answer.number));
        }
        Some(row) if row.pushes == 0 && step.done => keys.push(other_line_key()),
        _ => {}
    }
    keys
}

/// The roundings of a MDRP or MIRP, and what the count did.
fn counting_keys(outcome: &Outcome, step: &Step, native: bool) -> Vec<String> {
    let own = |row: &&Row| row.family == Family::Distances && row.pushes == 0;
    let Some(row) = row_of(step.opcode).filter(own) else {
        return Vec::new();
    };
    let [before, after] = step.counts;
    let wrapped = step.roundings.iter().any(shadow::wrapped);
    let mut keys = Vec::new();
    if step.done {
        for rounded in &step.roundings {
            keys.extend(rounding_keys(row.name, "line", rounded));
        }
        if wrapped {
            keys.push(count_key(row.name, count_kind(before)));
        }
    }
    if before > 0 && before == after && (!step.done || step.roundings.is_empty()) {
        let refused = format!("refused {}", outcome.returned.answer.number);
        let way = match (step.done, rounds(step.opcode), native) {
            (false, ..) => &refused,
            (true, false, _) => KEPT[0],
            (true, true, true) => KEPT[1],
            (true, true, false) => KEPT[2],
        };
        keys.push(kept_key(row, way));
        if !step.done && wrapped {
            keys.push(kept_key(row, &format!("{way} after it wrapped")));
        }
    }
    keys
}

fn first_key(name: &str) -> String {
    format!("{name}: a run's first line, and it decides")
}

fn decides_key(name: &str, what: &str) -> String {
    format!("{name}: {what} decides")
}

fn edge_key(name: &str, what: &str, more: bool, native: bool) -> String {
    let by = if more { "more" } else { "less" };
    format!("{name}: one {by} of the {what} turns it, native {native}")
}

fn let_pass_key(name: &str, what: &str) -> String {
    format!("{name} is let pass for its {what}")
}

fn no_control_value_key() -> String {
    "MIRP of control value -1".into()
}

fn unscaled_key() -> String {
    "MD[1] of glyph points takes one that isn't there, pedantic".into()
}

fn zero_key(name: &str) -> String {
    format!("{name} pushes 0 for what isn't there")
}

fn push_key(name: &str, kind: &str) -> String {
    format!("{name} pushes, the count {kind}")
}

fn pushed_key(name: &str, sign: &str) -> String {
    format!("{name} pushes a number {sign}")
}

fn refused_key(name: &str, number: u32) -> String {
    format!("{name} refused {number} keeps what was pushed")
}

fn other_line_key() -> String {
    "another line keeps what was pushed".into()
}

fn direct_call_key() -> String {
    "a direct call keeps what was pushed".into()
}

fn kept_key(row: &Row, way: &str) -> String {
    format!("{} keeps a count above 0: {way}", row.name)
}
