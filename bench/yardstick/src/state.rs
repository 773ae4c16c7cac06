//! The graphics state, and what is worked out from its vectors.

use crate::{
    math::dot14,
    round::{RoundMode, RoundState},
};

pub const STATE_WORDS: usize = 34;
const ONE: i32 = 0x4000;

#[derive(Copy, Clone, PartialEq, Eq, Default, Debug)]
pub struct Point {
    pub x: i32,
    pub y: i32,
}

#[derive(Copy, Clone, PartialEq, Eq, Debug)]
pub enum Axis {
    X,
    Y,
    Both,
}

#[derive(Copy, Clone, PartialEq, Eq, Debug)]
pub enum ZonePointer {
    Twilight,
    Glyph,
}

#[derive(Clone, Debug)]
pub struct State {
    pub projection: Point,
    pub dual: Point,
    pub freedom: Point,
    /// Worked out from the vectors by `update_projection`.
    pub projection_axis: Axis,
    pub dual_axis: Axis,
    pub freedom_axis: Axis,
    pub fdotp: i32,
    pub round: RoundState,
    pub rp0: usize,
    pub rp1: usize,
    pub rp2: usize,
    pub loop_counter: u32,
    pub zp0: ZonePointer,
    pub zp1: ZonePointer,
    pub zp2: ZonePointer,
    pub backward_compatibility: bool,
    pub pedantic: bool,
    pub native_clear_type_x: bool,
    pub did_iup_x: bool,
    pub did_iup_y: bool,
    pub cut_in: i32,
    pub wrapped_roundings: u32,
    pub minimum_distance: i32,
    pub single_width: i32,
    pub single_width_cut_in: i32,
    pub auto_flip: bool,
    pub scale: i32,
    pub last_pushed: i32,
    pub pushes: u32,
}

impl State {
    /// The state that words stand for, if they are one.
    pub fn read(words: &[u32]) -> Option<Self> {
        let words: &[u32; STATE_WORDS] = words.try_into().ok()?;
        let number = |at: usize| words[at] as i32;
        let point = |at: usize| Point {
            x: number(at),
            y: number(at + 1),
        };
        let index = |at: usize| (u64::from(words[at]) | u64::from(words[at + 1]) << 32) as usize;
        let mut state = Self {
            projection: point(0),
            dual: point(2),
            freedom: point(4),
            projection_axis: Axis::Both,
            dual_axis: Axis::Both,
            freedom_axis: Axis::Both,
            fdotp: ONE,
            round: RoundState {
                mode: mode_of(words[6])?,
                threshold: number(7),
                phase: number(8),
                period: number(9),
            },
            rp0: index(10),
            rp1: index(12),
            rp2: index(14),
            loop_counter: words[16],
            zp0: zone_of(words[17])?,
            zp1: zone_of(words[18])?,
            zp2: zone_of(words[19])?,
            backward_compatibility: fact_of(words[20])?,
            pedantic: fact_of(words[21])?,
            native_clear_type_x: fact_of(words[22])?,
            did_iup_x: fact_of(words[23])?,
            did_iup_y: fact_of(words[24])?,
            cut_in: number(25),
            wrapped_roundings: words[26],
            minimum_distance: number(27),
            single_width: number(28),
            single_width_cut_in: number(29),
            auto_flip: fact_of(words[30])?,
            scale: number(31),
            last_pushed: number(32),
            pushes: words[33],
        };
        state.update_projection();
        Some(state)
    }

    pub fn write(&self, words: &mut [u32]) {
        let [rp0, rp1, rp2] = [self.rp0, self.rp1, self.rp2].map(|index| index as u64);
        words.copy_from_slice(&[
            self.projection.x as u32,
            self.projection.y as u32,
            self.dual.x as u32,
            self.dual.y as u32,
            self.freedom.x as u32,
            self.freedom.y as u32,
            self.round.mode as u32,
            self.round.threshold as u32,
            self.round.phase as u32,
            self.round.period as u32,
            rp0 as u32,
            (rp0 >> 32) as u32,
            rp1 as u32,
            (rp1 >> 32) as u32,
            rp2 as u32,
            (rp2 >> 32) as u32,
            self.loop_counter,
            self.zp0 as u32,
            self.zp1 as u32,
            self.zp2 as u32,
            u32::from(self.backward_compatibility),
            u32::from(self.pedantic),
            u32::from(self.native_clear_type_x),
            u32::from(self.did_iup_x),
            u32::from(self.did_iup_y),
            self.cut_in as u32,
            self.wrapped_roundings,
            self.minimum_distance as u32,
            self.single_width as u32,
            self.single_width_cut_in as u32,
            u32::from(self.auto_flip),
            self.scale as u32,
            self.last_pushed as u32,
            self.pushes,
        ]);
    }

    pub fn is_usable(&self) -> bool {
        let in_range = |v: Point| v.x.unsigned_abs() <= 0x4000 && v.y.unsigned_abs() <= 0x4000;
        in_range(self.projection)
            && in_range(self.dual)
            && in_range(self.freedom)
            && self.round.is_usable()
    }

    /// The axes and fdotp, after a vector has changed.
    pub fn update_projection(&mut self) {
        let fdotp = if self.freedom.x == ONE {
            self.projection.x
        } else if self.freedom.y == ONE {
            self.projection.y
        } else {
            let x = self.projection.x.wrapping_mul(self.freedom.x);
            let y = self.projection.y.wrapping_mul(self.freedom.y);
            x.wrapping_add(y) >> 14
        };
        self.projection_axis = axis_of(self.projection);
        self.dual_axis = axis_of(self.dual);
        self.freedom_axis = if fdotp == ONE {
            axis_of(self.freedom)
        } else {
            Axis::Both
        };
        self.fdotp = if fdotp.wrapping_abs() < 0x400 {
            ONE
        } else {
            fdotp
        };
    }

    pub fn project(&self, a: Point, b: Point) -> i32 {
        along(self.projection, self.projection_axis, a, b)
    }

    pub fn dual_project(&self, a: Point, b: Point) -> i32 {
        along(self.dual, self.dual_axis, a, b)
    }

    pub fn did_both_iups(&self) -> bool {
        self.backward_compatibility && self.did_iup_x && self.did_iup_y
    }

    pub fn count_rounding(&mut self, wrapped: bool) {
        self.wrapped_roundings = self.wrapped_roundings.saturating_add(u32::from(wrapped));
    }

    pub fn push(&mut self, value: i32) {
        self.last_pushed = value;
        self.pushes = self.pushes.saturating_add(1);
    }
}

fn along(vector: Point, axis: Axis, a: Point, b: Point) -> i32 {
    let dx = a.x.wrapping_sub(b.x);
    let dy = a.y.wrapping_sub(b.y);
    match axis {
        Axis::X => dx,
        Axis::Y => dy,
        Axis::Both => dot14(dx, dy, vector.x, vector.y),
    }
}

fn axis_of(vector: Point) -> Axis {
    if vector.x == ONE {
        Axis::X
    } else if vector.y == ONE {
        Axis::Y
    } else {
        Axis::Both
    }
}

fn mode_of(word: u32) -> Option<RoundMode> {
    Some(match word {
        0 => RoundMode::Grid,
        1 => RoundMode::HalfGrid,
        2 => RoundMode::DoubleGrid,
        3 => RoundMode::DownToGrid,
        4 => RoundMode::UpToGrid,
        5 => RoundMode::Off,
        6 => RoundMode::Super,
        7 => RoundMode::Super45,
        _ => return None,
    })
}

fn zone_of(word: u32) -> Option<ZonePointer> {
    match word {
        0 => Some(ZonePointer::Twilight),
        1 => Some(ZonePointer::Glyph),
        _ => None,
    }
}

fn fact_of(word: u32) -> Option<bool> {
    match word {
        0 => Some(false),
        1 => Some(true),
        _ => None,
    }
}
