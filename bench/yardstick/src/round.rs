//! Rounding: round.rs of the Rust, with document 02's word whether an operation went past 32 bits.

use crate::math::floor;

#[derive(Copy, Clone, PartialEq, Eq, Debug)]
pub enum RoundMode {
    Grid,
    HalfGrid,
    DoubleGrid,
    DownToGrid,
    UpToGrid,
    Off,
    Super,
    Super45,
}

#[derive(Copy, Clone, PartialEq, Eq, Debug)]
pub struct RoundState {
    pub mode: RoundMode,
    pub threshold: i32,
    pub phase: i32,
    pub period: i32,
}

/// A number, and whether an operation on the way to it wrapped.
pub type Tracked = (i32, bool);

impl RoundState {
    pub fn is_usable(&self) -> bool {
        self.mode != RoundMode::Super45 || self.period != 0
    }

    pub fn round(&self, distance: i32) -> Tracked {
        match self.mode {
            RoundMode::Grid => by_size(distance, |size| floored(size.overflowing_add(32))),
            RoundMode::HalfGrid => by_size(distance, |size| floor(size).overflowing_add(32)),
            RoundMode::DoubleGrid => by_size(distance, |size| {
                let (sum, wrapped) = size.overflowing_add(16);
                (sum & !31, wrapped)
            }),
            RoundMode::DownToGrid => by_size(distance, |size| (floor(size), false)),
            RoundMode::UpToGrid => by_size(distance, |size| floored(size.overflowing_add(63))),
            RoundMode::Off => (distance, false),
            RoundMode::Super => self.round_super(distance, |sum| {
                let (mask, wrapped) = self.period.overflowing_neg();
                (sum & mask, wrapped)
            }),
            RoundMode::Super45 => self.round_super(distance, |sum| {
                let (quotient, quotient_wrapped) = sum.overflowing_div(self.period);
                let (product, product_wrapped) = quotient.overflowing_mul(self.period);
                (product, quotient_wrapped | product_wrapped)
            }),
        }
    }

    fn round_super(&self, distance: i32, to_period: impl Fn(i32) -> Tracked) -> Tracked {
        let (bias, wrapped_bias) = self.threshold.overflowing_sub(self.phase);
        if distance >= 0 {
            let (sum, wrapped_sum) = distance.overflowing_add(bias);
            let (at, wrapped_at) = to_period(sum);
            let (value, wrapped_value) = at.overflowing_add(self.phase);
            let wrapped = wrapped_bias | wrapped_sum | wrapped_at | wrapped_value;
            (if value < 0 { self.phase } else { value }, wrapped)
        } else {
            let (sum, wrapped_sum) = bias.overflowing_sub(distance);
            let (at, wrapped_at) = to_period(sum);
            let (back, wrapped_back) = at.overflowing_neg();
            let (value, wrapped_value) = back.overflowing_sub(self.phase);
            let wrapped = wrapped_bias | wrapped_sum | wrapped_at | wrapped_back | wrapped_value;
            if value > 0 {
                let (phase, wrapped_phase) = self.phase.overflowing_neg();
                (phase, wrapped | wrapped_phase)
            } else {
                (value, wrapped)
            }
        }
    }
}

fn floored((x, wrapped): Tracked) -> Tracked {
    (floor(x), wrapped)
}

/// The modes that go by the grid: of a distance below 0 its size is rounded and put back.
fn by_size(distance: i32, round: impl Fn(i32) -> Tracked) -> Tracked {
    if distance >= 0 {
        let (rounded, wrapped) = round(distance);
        (rounded.max(0), wrapped)
    } else {
        let (size, wrapped_size) = distance.overflowing_neg();
        let (rounded, wrapped) = round(size);
        let (back, wrapped_back) = rounded.overflowing_neg();
        (back.min(0), wrapped_size | wrapped | wrapped_back)
    }
}
