//! Which roundings wrapped, and what the count did, told from the Rust's own
//! roundings on the way. Nothing here decides an outcome.

use super::keys::UNEXPLAINED;
use crate::{
    case::{Case, Outcome},
    direct::Call,
    math_rows::MathRow,
    opcodes::{name_of, rounding_codes_of, rounds, Family},
    replay::{self, Step},
    shadow::{passed, CAN_PASS, MODES},
};
use reference::door::Rounded;

const ROW: &str = "row";
const LINE: &str = "line";
/// What a wrapped rounding does to the count, by what it was.
pub const COUNTS: [&str; 4] = ["from 0", "between", "to its end", "at its end"];
/// Lines that keep a count above 0, by opcode and by what becomes of them.
const KEPT: [(u8, &[&str]); 4] = [
    (0x2E, &["done"]),
    (0x2F, &["native", "let pass", "refused 6", "refused 7"]),
    (0x3E, &["done"]),
    (0x3F, &["native", "refused 6", "refused 7", "refused 8"]),
];

pub fn row_keys(row: &MathRow) -> Vec<String> {
    let rounded = row.rounding();
    let keys = |rounded: Rounded| rounding_keys(ROW, ROW, &rounded);
    rounded.map(keys).unwrap_or_default()
}

pub fn keys(case: &Case, outcome: &Outcome) -> Vec<String> {
    let Call::Run {
        start,
        budget,
        rules,
    } = case.call
    else {
        let counted = case.world.state.wrapped_roundings > 0;
        let key = "a direct call keeps a count above 0";
        return counted.then(|| key.into()).into_iter().collect();
    };
    let mut keys = Vec::new();
    let mut steps = 0;
    replay::watched(&mut case.world.clone(), rules, start, budget, |step| {
        steps += 1;
        if matches!(step.opcode, 0x2E | 0x2F | 0x3E | 0x3F) {
            keys.extend(step_keys(case, outcome, &step, steps == 1));
        }
    });
    keys
}

/// Every mode and sign, wrapped or not, by rows and by each line that rounds;
/// every operation that can go past; every kind of count and of line that keeps it.
pub fn required() -> Vec<String> {
    let rounders = rounding_codes_of(Family::Outline);
    let names: Vec<String> = rounders.iter().map(|opcode| name_of(*opcode)).collect();
    let mut keys = vec!["a direct call keeps a count above 0".to_string()];
    for (mode, signs) in CAN_PASS.iter().enumerate() {
        for (negative, can_pass) in [(false, signs[0]), (true, signs[1])] {
            for by in names.iter().map(String::as_str).chain([ROW]) {
                keys.push(rounding_key(by, mode, negative, false));
                if !can_pass.is_empty() {
                    keys.push(rounding_key(by, mode, negative, true));
                }
            }
            for by in [ROW, LINE] {
                keys.extend(
                    can_pass
                        .iter()
                        .map(|one| passed_key(by, mode, negative, one)),
                );
            }
        }
    }
    for name in names {
        keys.extend(COUNTS.map(|kind| count_key(&name, kind)));
        keys.push(would_key(&name));
    }
    for (opcode, ways) in KEPT {
        keys.extend(ways.iter().map(|way| kept_key(opcode, way)));
    }
    keys
}

fn step_keys(case: &Case, outcome: &Outcome, step: &Step, is_first: bool) -> Vec<String> {
    let name = name_of(step.opcode);
    let mut keys = Vec::new();
    let [before, after] = step.counts;
    if step.done {
        for rounded in &step.roundings {
            keys.extend(rounding_keys(&name, LINE, rounded));
            if !passed(rounded).is_empty() {
                keys.push(count_key(&name, count_kind(before)));
            }
        }
    }
    let native = case.world.state.native_cleartype_x;
    if before > 0 && before == after && (!step.done || step.roundings.is_empty()) {
        let refused = format!("refused {}", outcome.returned.answer.number);
        let way = match (step.done, rounds(step.opcode), native) {
            (false, ..) => &refused,
            (true, false, _) => "done",
            (true, true, true) => "native",
            (true, true, false) => "let pass",
        };
        keys.push(kept_key(step.opcode, way));
    }
    if is_first && step.done && native && wraps_without_native(case) {
        keys.push(would_key(&name));
    }
    keys
}

/// Whether the first line's rounding wraps where native ClearType x is off.
fn wraps_without_native(case: &Case) -> bool {
    let mut world = case.world.clone();
    world.state.native_cleartype_x = false;
    world.state.wrapped_roundings = 0;
    let Call::Run { start, rules, .. } = case.call else {
        return false;
    };
    replay::run(&mut world, rules, start, 1);
    world.state.wrapped_roundings > 0
}

pub fn rounding_keys(by: &str, kind: &str, rounded: &Rounded) -> Vec<String> {
    let (mode, negative) = (rounded.rounding.mode as usize, rounded.distance < 0);
    let passed = passed(rounded);
    let mut keys = vec![rounding_key(by, mode, negative, !passed.is_empty())];
    for one in passed {
        keys.push(passed_key(kind, mode, negative, one));
        if !CAN_PASS[mode][usize::from(negative)].contains(&one) {
            keys.push(UNEXPLAINED.into());
        }
    }
    keys
}

pub fn count_kind(before: u32) -> &'static str {
    match before {
        0 => COUNTS[0],
        u32::MAX => COUNTS[3],
        _ if before == u32::MAX - 1 => COUNTS[2],
        _ => COUNTS[1],
    }
}

fn sign(negative: bool) -> &'static str {
    if negative {
        "below 0"
    } else {
        "from 0 on"
    }
}

pub fn rounding_key(by: &str, mode: usize, negative: bool, wrapped: bool) -> String {
    let (mode, sign) = (MODES[mode], sign(negative));
    format!("{by} rounds by {mode} {sign}: wrapped {wrapped}")
}

fn passed_key(by: &str, mode: usize, negative: bool, operation: &str) -> String {
    let (mode, sign) = (MODES[mode], sign(negative));
    format!("{by} rounds by {mode} {sign}: past 32 bits by {operation}")
}

pub fn count_key(name: &str, kind: &str) -> String {
    format!("{name} counts {kind}")
}

fn kept_key(opcode: u8, way: &str) -> String {
    format!("{} keeps a count above 0: {way}", name_of(opcode))
}

fn would_key(name: &str) -> String {
    format!("{name} under native ClearType x doesn't round what would wrap")
}
