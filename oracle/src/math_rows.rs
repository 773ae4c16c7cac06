//! The math helpers and the eight rounding modes: rows of eight words.

use crate::{
    numbers::{any_word, corners, everyday, mixed, near_corner},
    random::Random,
    shadow, wraps,
};
use reference::door::{self, Rounded, Rounding};
use std::ops::Range;

pub const ROW_WORDS: usize = 8;
/// Where a row's outcome stands: whether a rounding wrapped, the answer and the
/// result.
pub const OUTCOME: Range<usize> = 5..8;
/// What of it a program has that knows nothing of wrapping.
pub const ANSWER_AND_RESULT: Range<usize> = 6..8;

const FLOOR: u32 = 0;
const ROUND: u32 = 1;
const CEIL: u32 = 2;
const ROUND_PAD: u32 = 3;
const MUL14: u32 = 4;
const MUL: u32 = 5;
const DIV: u32 = 6;
const MUL_DIV: u32 = 7;
/// The first rounding op; the mode is added to it.
const MODES: u32 = 16;
const GRID: u32 = MODES;
const HALF_GRID: u32 = MODES + 1;
const DOUBLE_GRID: u32 = MODES + 2;
const DOWN_TO_GRID: u32 = MODES + 3;
const UP_TO_GRID: u32 = MODES + 4;
const OFF: u32 = MODES + 5;
const SUPER: u32 = MODES + 6;
const SUPER45: u32 = MODES + 7;

/// Every op, helpers first.
pub const OPS: [u32; 16] = [
    FLOOR,
    ROUND,
    CEIL,
    ROUND_PAD,
    MUL14,
    MUL,
    DIV,
    MUL_DIV,
    GRID,
    HALF_GRID,
    DOUBLE_GRID,
    DOWN_TO_GRID,
    UP_TO_GRID,
    OFF,
    SUPER,
    SUPER45,
];

const HELPERS: [&str; 8] = [
    "floor",
    "round",
    "ceil",
    "round_pad",
    "mul14",
    "mul",
    "div",
    "mul_div",
];

/// Roundings of each kind of wrap, and of any wild ones, in the sample.
const WRAPS_EACH: usize = 8;
const WILD_ROWS: usize = 500;

/// Seed of the rows that no corner fixes.
const SEED: u64 = 0x6D61_7468;

#[derive(Copy, Clone, PartialEq, Eq, Debug)]
pub struct MathRow {
    pub op: u32,
    pub arguments: [i32; 4],
}

/// Whether a rounding wrapped, the answer's number, and the result where it is 0.
#[derive(Copy, Clone, PartialEq, Eq, Debug)]
pub struct MathOutcome {
    pub wrapped: bool,
    pub answer: u32,
    pub result: i32,
}

impl MathRow {
    pub fn new(op: u32, arguments: [i32; 4]) -> Self {
        Self { op, arguments }
    }

    pub fn is_known(&self) -> bool {
        OPS.contains(&self.op)
    }

    pub fn outcome(&self) -> MathOutcome {
        let [a, b, c, _] = self.arguments;
        let result = match self.op {
            FLOOR => door::floor(a),
            ROUND => door::round(a),
            CEIL => door::ceil(a),
            ROUND_PAD => door::round_pad(a, b),
            MUL14 => door::mul14(a, b),
            MUL => door::mul(a, b),
            DIV => door::div(a, b),
            MUL_DIV => door::mul_div(a, b, c),
            _ => return self.rounded(),
        };
        MathOutcome {
            wrapped: false,
            answer: 0,
            result,
        }
    }

    fn rounded(&self) -> MathOutcome {
        match self.rounding() {
            Some(rounded) => MathOutcome {
                wrapped: shadow::wrapped(&rounded),
                answer: 0,
                result: rounded.result,
            },
            None => MathOutcome {
                wrapped: false,
                answer: 3,
                result: 0,
            },
        }
    }

    /// The Rust's rounding that the row asks for; none for a division by 0 and
    /// for the ops that don't round.
    pub fn rounding(&self) -> Option<Rounded> {
        let [distance, threshold, phase, period] = self.arguments;
        if self.op < MODES || self.op == SUPER45 && period == 0 {
            return None;
        }
        let rounding = Rounding {
            mode: self.op - MODES,
            threshold,
            phase,
            period,
        };
        let (_, told) = door::with_roundings(|| door::round_distance(rounding, distance));
        let [rounded] = told[..] else {
            panic!("one rounding was asked for, and round.rs tells of {told:?}");
        };
        Some(rounded)
    }

    pub fn words(&self) -> [u32; ROW_WORDS] {
        let [a, b, c, d] = self.arguments.map(|argument| argument as u32);
        let [wrapped, answer, result] = self.outcome().words();
        [self.op, a, b, c, d, wrapped, answer, result]
    }

    pub fn from_words(words: &[u32]) -> Self {
        let argument = |index: usize| words[1 + index] as i32;
        Self::new(words[0], [0, 1, 2, 3].map(argument))
    }

    pub fn name(&self) -> &'static str {
        if self.op < MODES {
            HELPERS[self.op as usize]
        } else {
            shadow::MODES[(self.op - MODES) as usize]
        }
    }

    /// How many of the four arguments the op reads.
    pub fn argument_count(&self) -> usize {
        match self.op {
            FLOOR..=CEIL => 1,
            ROUND_PAD..=DIV => 2,
            MUL_DIV => 3,
            _ => 4,
        }
    }

    /// Size for sorting: small numbers first.
    pub fn weight(&self) -> u64 {
        let magnitude = |argument: &i32| u64::from(argument.unsigned_abs());
        self.arguments.iter().map(magnitude).sum()
    }
}

impl std::fmt::Display for MathRow {
    fn fmt(&self, f: &mut std::fmt::Formatter) -> std::fmt::Result {
        let read = &self.arguments[..self.argument_count()];
        write!(f, "{} {read:?}", self.name())
    }
}

impl MathOutcome {
    fn words(&self) -> [u32; 3] {
        [u32::from(self.wrapped), self.answer, self.result as u32]
    }

    pub fn of_words(words: &[u32]) -> Self {
        Self {
            wrapped: words[0] != 0,
            answer: words[1],
            result: words[2] as i32,
        }
    }
}

impl std::fmt::Display for MathOutcome {
    fn fmt(&self, f: &mut std::fmt::Formatter) -> std::fmt::Result {
        let wrapped = if self.wrapped { ", wrapped" } else { "" };
        write!(f, "answer {} result {}{wrapped}", self.answer, self.result)
    }
}

/// Document 01's rows of rounding and math, with what it says comes out.
pub fn rows_of_01() -> Vec<(MathRow, i32)> {
    let plain = |op, distance, out| (MathRow::new(op, [distance, 0, 0, 64]), out);
    let by_super = |distance, out| (MathRow::new(SUPER, [distance, 32, 16, 64]), out);
    let ratio = |a, b, c, out| (MathRow::new(MUL_DIV, [a, b, c, 0]), out);
    let half = |a, out| (MathRow::new(MUL14, [a, 0x2000, 0, 0]), out);
    vec![
        plain(GRID, 31, 0),
        plain(GRID, 32, 64),
        plain(GRID, -31, 0),
        plain(GRID, -32, -64),
        plain(GRID, i32::MAX, 0),
        plain(GRID, i32::MIN, i32::MIN),
        plain(HALF_GRID, 0, 32),
        plain(HALF_GRID, 63, 32),
        plain(HALF_GRID, 64, 96),
        plain(HALF_GRID, -1, -32),
        plain(DOUBLE_GRID, 15, 0),
        plain(DOUBLE_GRID, 16, 32),
        plain(UP_TO_GRID, 1, 64),
        plain(UP_TO_GRID, -1, -64),
        plain(DOWN_TO_GRID, 63, 0),
        plain(DOWN_TO_GRID, -64, -64),
        by_super(0, 16),
        by_super(-1, -16),
        ratio(7, 1, 2, 4),
        ratio(-7, 1, 2, -4),
        ratio(-5, 3, 0, -2147483647),
        half(64, 32),
        half(1, 1),
        half(-1, -1),
    ]
}

/// The committed sample: 01's rows, every corner, then random rows.
pub fn sample() -> Vec<MathRow> {
    let mut rows: Vec<MathRow> = rows_of_01().into_iter().map(|(row, _)| row).collect();
    rows.extend(helper_corners());
    rows.extend(mul_div_corners());
    rows.extend(rounding_corners());
    rows.extend(exact_halves());
    rows.extend(rounded_to_zero());
    rows.extend(wrapped_sums());
    let mut random = Random::new(SEED);
    rows.extend((0..700).map(|_| plain_row(&mut random)));
    rows.extend(square_grid());
    rows.extend(of_each_wrap());
    rows.extend((0..WILD_ROWS).map(|_| wild_row(&mut random)));
    without_repeats(rows)
}

/// One-argument helpers at each corner, two-argument ones at each pair.
fn helper_corners() -> Vec<MathRow> {
    let corners = corners();
    let mut rows = Vec::new();
    for a in &corners {
        for op in [FLOOR, ROUND, CEIL] {
            rows.push(MathRow::new(op, [*a, 0, 0, 0]));
        }
        for b in &corners {
            for op in [ROUND_PAD, MUL14, MUL, DIV] {
                rows.push(MathRow::new(op, [*a, *b, 0, 0]));
            }
        }
    }
    rows
}

/// Each corner in each place, beside corners and beside ordinary factors.
fn mul_div_corners() -> Vec<MathRow> {
    let mut random = Random::new(SEED ^ MUL_DIV as u64);
    let corners = corners();
    let mut rows = Vec::new();
    for corner in &corners {
        for place in 0..3 {
            for _ in 0..8 {
                let mut arguments = [0; 4];
                for other in &mut arguments[..3] {
                    *other = if random.flip() {
                        random.pick(&corners)
                    } else {
                        mixed(&mut random)
                    };
                }
                arguments[place] = *corner;
                rows.push(MathRow::new(MUL_DIV, arguments));
            }
        }
    }
    rows
}

/// Quotients by 1 as a 2.14 number, the divisor of a square grid: each pair of corners, each exact half, and 1, -1
/// and their neighbours for a divisor too.
fn square_grid() -> Vec<MathRow> {
    const ONE: i32 = 0x4000;
    const HALVES: [i32; 4] = [0x2000, -0x2000, 0x6000, -0x6000];
    let mut rows = Vec::new();
    for a in corners() {
        for b in corners().into_iter().chain(HALVES) {
            rows.push(MathRow::new(MUL_DIV, [a, b, ONE, 0]));
        }
        for c in [ONE - 1, ONE + 1, -ONE - 1, -ONE, -ONE + 1] {
            for b in [ONE, -ONE] {
                rows.push(MathRow::new(MUL_DIV, [a, b, c, 0]));
            }
        }
    }
    rows
}

/// Each corner in each place of each mode, beside usable and wild numbers.
fn rounding_corners() -> Vec<MathRow> {
    let mut random = Random::new(SEED ^ MODES as u64);
    let mut rows = Vec::new();
    for mode in 0..8 {
        for corner in corners() {
            for place in 0..4 {
                let mut arguments = rounding_arguments(&mut random);
                arguments[place] = corner;
                rows.push(MathRow::new(MODES + mode, arguments));
            }
        }
    }
    rows
}

/// Products that lie exactly between two results.
fn exact_halves() -> Vec<MathRow> {
    let mut rows = Vec::new();
    for a in corners() {
        for (op, half) in [(MUL14, 0x2000), (MUL, 0x8000)] {
            for factor in [half, -half] {
                rows.push(MathRow::new(op, [a, factor, 0, 0]));
            }
        }
        rows.push(MathRow::new(MUL_DIV, [a, 1, 2, 0]));
        rows.push(MathRow::new(MUL_DIV, [a, 3, -2, 0]));
    }
    rows
}

/// Super modes whose snapped distance and phase cancel, and nearly so.
fn rounded_to_zero() -> Vec<MathRow> {
    let mut rows = Vec::new();
    for op in [SUPER, SUPER45] {
        for period in [1, 32, 64, 128] {
            for phase in [period, -period, 2 * period] {
                for distance in [phase, phase + 1, phase - 1] {
                    rows.push(MathRow::new(op, [distance, phase, phase, period]));
                    rows.push(MathRow::new(op, [-distance, phase, phase, period]));
                }
            }
        }
    }
    rows
}

/// Super modes whose sums go past the ends.
fn wrapped_sums() -> Vec<MathRow> {
    let mut rows = Vec::new();
    for op in [SUPER, SUPER45] {
        for distance in [i32::MAX, i32::MAX - 1, i32::MIN, i32::MIN + 1, 1 << 30] {
            for threshold in [i32::MAX, i32::MIN, 63, -63] {
                for phase in [0, -1, i32::MIN] {
                    for period in [45, -45, 3, 64] {
                        let arguments = [distance, threshold, phase, period];
                        rows.push(MathRow::new(op, arguments));
                    }
                }
            }
        }
    }
    rows
}

/// Each mode and sign with each set of operations that go past 32 bits, and
/// near misses.
fn of_each_wrap() -> Vec<MathRow> {
    let asked = |rounded: &Rounded| {
        let by = rounded.rounding;
        let arguments = [rounded.distance, by.threshold, by.phase, by.period];
        MathRow::new(MODES + by.mode, arguments)
    };
    let roundings = [wraps::of_each_kind(WRAPS_EACH), wraps::near_misses()].concat();
    roundings.iter().map(asked).collect()
}

/// Distance, threshold, phase and period: as SROUND makes them, or wild.
fn rounding_arguments(random: &mut Random) -> [i32; 4] {
    let distance = mixed(random);
    if random.flip() {
        let period = random.pick(&[32, 64, 128, 22, 45, 90, 1]);
        let phase = period * random.between(0, 3) / 4;
        let threshold = period * random.between(-4, 12) / 8;
        [distance, threshold, phase, period]
    } else {
        [distance, mixed(random), mixed(random), mixed(random)]
    }
}

/// A random row of any op, a wild rounding now and then, for comparisons.
pub fn random_row(random: &mut Random) -> MathRow {
    if random.once_in(4) {
        wild_row(random)
    } else {
        plain_row(random)
    }
}

/// The same for a program that may stop at -2^31 divided by -1.
pub fn row_without_trap(random: &mut Random) -> MathRow {
    loop {
        let row = random_row(random);
        if row.op != SUPER45 || row.arguments[3] != -1 {
            return row;
        }
    }
}

/// A rounding whose numbers are likely to wrap.
fn wild_row(random: &mut Random) -> MathRow {
    let by = wraps::wild_rounding(random);
    let arguments = [wraps::wild(random), by.threshold, by.phase, by.period];
    MathRow::new(MODES + by.mode, arguments)
}

fn plain_row(random: &mut Random) -> MathRow {
    if random.flip() {
        let mode = random.below(8) as u32;
        return MathRow::new(MODES + mode, rounding_arguments(random));
    }
    let op = random.pick(&[
        FLOOR, ROUND, CEIL, ROUND_PAD, MUL14, MUL, DIV, MUL_DIV, MUL_DIV,
    ]);
    let mut row = MathRow::new(op, [0; 4]);
    for index in 0..row.argument_count() {
        row.arguments[index] = match random.below(3) {
            0 => near_corner(random),
            1 => any_word(random),
            _ => everyday(random),
        };
    }
    row
}

fn without_repeats(rows: Vec<MathRow>) -> Vec<MathRow> {
    let mut seen = std::collections::HashSet::new();
    rows.into_iter()
        .filter(|row| seen.insert((row.op, row.arguments)))
        .collect()
}
