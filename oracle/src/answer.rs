//! Answers, and how the Rust's refusals read as answers.

use crate::words::widened;
use reference::door::Refused;

pub const END: u32 = 0;
pub const BUDGET: u32 = 1;
pub const SIZES: u32 = 2;
pub const STATE: u32 = 3;
pub const LINE: u32 = 4;
pub const TOO_MANY: u32 = 5;
pub const TOO_FEW: u32 = 6;
pub const POINT: u32 = 7;
pub const CONTROL_VALUE: u32 = 8;
pub const ZONE: u32 = 9;
pub const LOOP: u32 = 10;
pub const RANGE: u32 = 11;
pub const CONTOUR: u32 = 12;
pub const SHIFT_BY_PIXELS: u32 = 13;
pub const ENDS: u32 = 14;

#[derive(Copy, Clone, PartialEq, Eq, Default, Debug)]
pub struct Answer {
    pub number: u32,
    pub place: u64,
    pub lines: u64,
    pub detail: u64,
}

impl Answer {
    /// A direct call's answer: place and lines are 0.
    pub fn of_call(number: u32, detail: u64) -> Self {
        Self {
            number,
            detail,
            ..Self::default()
        }
    }
}

impl std::fmt::Display for Answer {
    fn fmt(&self, f: &mut std::fmt::Formatter) -> std::fmt::Result {
        let Self {
            number,
            place,
            lines,
            detail,
        } = self;
        write!(f, "{number} {place} {lines} {detail}")
    }
}

/// Number and detail of a refusal by the Rust. The loop counter's refusal
/// doesn't say its operand, so the driver gives the line's first one.
pub fn of_refusal(refused: &Refused, first_operand: i32) -> (u32, u64) {
    match refused {
        Refused::ValueStackUnderflow => (TOO_FEW, 0),
        Refused::InvalidPointIndex(index) => (POINT, *index as u64),
        Refused::InvalidCvtIndex(index) => (CONTROL_VALUE, *index as u64),
        Refused::InvalidZoneIndex(operand) => (ZONE, widened(*operand)),
        Refused::NegativeLoopCounter => (LOOP, widened(first_operand)),
        Refused::InvalidPointRange(start, _) => (RANGE, *start as u64),
        other => unreachable!("no line of ours is refused with {other:?}"),
    }
}
