//! SROUND and S45ROUND of document 02: every selector of both kinds, and lines
//! that round by what they set.

use crate::{
    case::Case,
    direct::Call,
    opcodes::{codes_of, Family},
    scene::Scene,
    world::fresh_state,
};
use reference::door::Rounding;

/// What may stand above a selector's byte, and doesn't count.
pub const ABOVE_THE_BYTE: [i32; 5] = [-0x100, 0x7FFF_FF00, 0x100, i32::MIN, 0x0055_AA00];

const WHOLE_RUN: Call = Call::run(0, u64::MAX);

/// Each byte as the operand of each kind, from a state of which every number
/// is set anew.
pub fn every_selector() -> Vec<Case> {
    let set = |(opcode, byte)| {
        Scene::new(&[(10, -20)])
            .state(|state| state.rounding = some_rounding(byte))
            .sheet(&[opcode, 1, byte])
            .case(WHOLE_RUN)
    };
    every_byte().map(set).collect()
}

/// Each byte again, below bits that don't count, and lines that round by what
/// it sets, around the distances where that rounding turns.
pub fn rounds_by_every_selector() -> Vec<Case> {
    let rounds = |(opcode, byte): (i32, i32)| {
        let above = ABOVE_THE_BYTE[(opcode + byte) as usize % ABOVE_THE_BYTE.len()];
        let turns = turns_of(set_by(opcode, byte));
        let points = turns.map(|turn| (turn, 5));
        Scene::new(&points)
            .control_values(&turns.map(|turn| -turn))
            .state(|state| {
                state.rounding = some_rounding(byte);
                state.cut_in = i32::MAX;
            })
            .sheet(&sheet_that_rounds(&[opcode, 1, above | byte], turns.len()))
            .case(WHOLE_RUN)
    };
    every_byte().map(rounds).collect()
}

/// Every count of operands and every way to be no line, from states that
/// callers bring; a line that rounds comes after.
pub fn selector_counts() -> Vec<Case> {
    let mut cases = Vec::new();
    for opcode in opcodes() {
        let lines: [&[i32]; 8] = [
            &[opcode, 1, 0x48],
            &[opcode, 0],
            &[opcode, 2, 0x48, 0x48],
            &[opcode, 3, -1, 0, 1],
            &[opcode],
            &[opcode, -1],
            &[opcode, 4, 0x48],
            &[0x2F, 1, 0, opcode, 1, 0x9B],
        ];
        for (row, rounding) in brought_roundings().into_iter().enumerate() {
            for (column, line) in lines.iter().enumerate() {
                let scene = Scene::new(&[(75, -75)]).state(|state| {
                    state.rounding = rounding;
                    state.pedantic = (row + column) % 2 == 1;
                });
                let sheet: Vec<i32> = line.iter().chain(&[0x2F, 1, 0]).copied().collect();
                cases.push(scene.sheet(&sheet).case(WHOLE_RUN));
            }
        }
    }
    cases
}

fn opcodes() -> impl Iterator<Item = i32> {
    codes_of(Family::Selector).into_iter().map(i32::from)
}

/// Both kinds, each with all bytes.
fn every_byte() -> impl Iterator<Item = (i32, i32)> {
    opcodes().flat_map(|opcode| (0..=255).map(move |byte| (opcode, byte)))
}

/// A rounding of any mode, its numbers odd and far above what a selector sets.
fn some_rounding(byte: i32) -> Rounding {
    Rounding {
        mode: (byte / 3) as u32 % 8,
        threshold: 1001 + 2 * byte,
        phase: -2001 - 2 * byte,
        period: 4001 + 2 * byte,
    }
}

/// Roundings that callers bring: Super45 with period 0 alone is refused.
fn brought_roundings() -> [Rounding; 5] {
    let rounding = |mode, threshold, phase, period| Rounding {
        mode,
        threshold,
        phase,
        period,
    };
    [
        fresh_state().rounding,
        rounding(6, 5, 3, 0),
        rounding(7, 5, 3, 0),
        rounding(7, -9, 11, 22),
        rounding(1, -7, i32::MIN, 0),
    ]
}

/// What the Rust sets for the operand.
fn set_by(opcode: i32, operand: i32) -> Rounding {
    let played = Scene::new(&[]).sheet(&[opcode, 1, operand]).play();
    played.world.state.rounding
}

/// Distances around two steps of a rounding: the first above zero, and the one
/// after the distances that are all taken to the phase.
fn turns_of(rounding: Rounding) -> [i32; 6] {
    let Rounding {
        threshold,
        phase,
        period,
        ..
    } = rounding;
    let first = phase - threshold;
    let above_zero = first.rem_euclid(period);
    let far = first.max(above_zero) + period;
    [0, above_zero - 1, above_zero, far - 1, far, first]
}

/// The line, then along x each point rounded by itself, then along y each to
/// the control value of its number.
fn sheet_that_rounds(line: &[i32], points: usize) -> Vec<i32> {
    let mut sheet = line.to_vec();
    sheet.extend((0..points as i32).flat_map(|point| [0x2F, 1, point]));
    sheet.extend([0x00, 0]);
    sheet.extend((0..points as i32).flat_map(|point| [0x3F, 2, point, point]));
    sheet
}
