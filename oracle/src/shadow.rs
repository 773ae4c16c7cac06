//! round.rs again in exact integers, operation by operation and in its order,
//! beside the Rust: its number must be the Rust's, and it says what went past 32 bits.

use reference::door::{Rounded, Rounding};

/// The modes in round.rs order.
pub const MODES: [&str; 8] = [
    "Grid",
    "HalfGrid",
    "DoubleGrid",
    "DownToGrid",
    "UpToGrid",
    "Off",
    "Super",
    "Super45",
];
const GRID: u32 = 0;
const HALF_GRID: u32 = 1;
const DOUBLE_GRID: u32 = 2;
const DOWN_TO_GRID: u32 = 3;
const UP_TO_GRID: u32 = 4;
const OFF: u32 = 5;
const SUPER: u32 = 6;

/// What can go past 32 bits in each mode: for a distance from 0 on, and below.
pub const CAN_PASS: [[&[&str]; 2]; 8] = [
    [&["sum"], &["-distance", "sum", "negation"]],
    [&[], &["-distance"]],
    [&["sum"], &["-distance", "sum", "negation"]],
    [&[], &["-distance", "negation"]],
    [&["sum"], &["-distance", "sum", "negation"]],
    [&[], &[]],
    [
        &["bias", "distance + bias", "-period", "+ phase"],
        &[
            "bias",
            "bias - distance",
            "-period",
            "negation",
            "- phase",
            "-phase",
        ],
    ],
    [
        &["bias", "distance + bias", "quotient", "product", "+ phase"],
        &[
            "bias",
            "bias - distance",
            "quotient",
            "product",
            "negation",
            "- phase",
            "-phase",
        ],
    ],
];

/// The operations of a rounding that went past 32 bits, by name. Of a rounding
/// that the Rust did otherwise there is nothing to say.
pub fn passed(rounded: &Rounded) -> Vec<&'static str> {
    let mut exact = Exact { passed: Vec::new() };
    let result = exact.round(rounded.rounding, i64::from(rounded.distance));
    if result != i64::from(rounded.result) {
        panic!("the shadow of round.rs comes to {result}: {rounded:?}");
    }
    exact.passed
}

pub fn wrapped(rounded: &Rounded) -> bool {
    !passed(rounded).is_empty()
}

/// Operations on 32-bit numbers: each is worked out in full, noted where it
/// went past 32 bits, and cut as the Rust cuts it.
struct Exact {
    passed: Vec<&'static str>,
}

impl Exact {
    fn cut(&mut self, operation: &'static str, exact: i64) -> i64 {
        let word = i64::from(exact as i32);
        if word != exact {
            self.passed.push(operation);
        }
        word
    }

    fn round(&mut self, by: Rounding, distance: i64) -> i64 {
        match (by.mode, distance >= 0) {
            (OFF, _) => distance,
            (GRID..=UP_TO_GRID, true) => self.to_grid(by.mode, distance).max(0),
            (GRID..=UP_TO_GRID, false) => {
                let neg_distance = self.cut("-distance", -distance);
                let size = self.to_grid(by.mode, neg_distance);
                self.cut("negation", -size).min(0)
            }
            _ => self.by_super(by, distance),
        }
    }

    /// math.rs: floor, round, ceil and round_pad to 32.
    fn to_grid(&mut self, mode: u32, x: i64) -> i64 {
        match mode {
            GRID => floor(self.cut("sum", x + 32)),
            HALF_GRID => self.cut("sum", floor(x) + 32),
            DOUBLE_GRID => self.cut("sum", x + 16) & !31,
            DOWN_TO_GRID => floor(x),
            _ => floor(self.cut("sum", x + 63)),
        }
    }

    fn by_super(&mut self, by: Rounding, distance: i64) -> i64 {
        let [threshold, phase] = [by.threshold, by.phase].map(i64::from);
        let round_bias = self.cut("bias", threshold - phase);
        if distance >= 0 {
            let sum = self.cut("distance + bias", distance + round_bias);
            let snapped = self.snap(by, sum);
            let val = self.cut("+ phase", snapped + phase);
            if val < 0 {
                phase
            } else {
                val
            }
        } else {
            let difference = self.cut("bias - distance", round_bias - distance);
            let snapped = self.snap(by, difference);
            let negated = self.cut("negation", -snapped);
            let val = self.cut("- phase", negated - phase);
            if val > 0 {
                self.cut("-phase", -phase)
            } else {
                val
            }
        }
    }

    /// Super masks, Super45 divides and multiplies.
    fn snap(&mut self, by: Rounding, x: i64) -> i64 {
        let period = i64::from(by.period);
        if by.mode == SUPER {
            x & self.cut("-period", -period)
        } else {
            let quotient = self.cut("quotient", x / period);
            self.cut("product", quotient * period)
        }
    }
}

fn floor(x: i64) -> i64 {
    x & !63
}
