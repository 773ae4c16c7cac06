//! The two zones, and the moves along the freedom vector: zone.rs of the Rust.

use crate::{
    math::mul_div,
    run::{Refusal, Replayer},
    state::{Axis, Point, ZonePointer},
};

pub const ON_CURVE: u8 = 1;
pub const TOUCHED_X: u8 = 2;
pub const TOUCHED_Y: u8 = 4;

pub struct Glyph<'a> {
    pub unscaled_x: &'a [i32],
    pub unscaled_y: &'a [i32],
    pub original_x: &'a [i32],
    pub original_y: &'a [i32],
    pub x: &'a mut [i32],
    pub y: &'a mut [i32],
    pub flags: &'a mut [u8],
    pub contours: &'a [u16],
}

pub struct Twilight<'a> {
    pub original_x: &'a mut [i32],
    pub original_y: &'a mut [i32],
    pub x: &'a mut [i32],
    pub y: &'a mut [i32],
    pub flags: &'a mut [u8],
}

/// How far a reference point was moved, and which one it is.
pub struct Displacement {
    pub zone: ZonePointer,
    pub index: usize,
    pub by: Point,
}

fn point_at(xs: &[i32], ys: &[i32], index: usize) -> Result<Point, Refusal> {
    match (xs.get(index), ys.get(index)) {
        (Some(x), Some(y)) => Ok(Point { x: *x, y: *y }),
        _ => Err(Refusal::Point(index)),
    }
}

impl Replayer<'_> {
    pub fn size(&self, zone: ZonePointer) -> usize {
        match zone {
            ZonePointer::Glyph => self.glyph.x.len(),
            ZonePointer::Twilight => self.twilight.x.len(),
        }
    }

    pub fn has_point(&self, zone: ZonePointer, index: usize) -> bool {
        index < self.size(zone)
    }

    pub fn point(&self, zone: ZonePointer, index: usize) -> Result<Point, Refusal> {
        match zone {
            ZonePointer::Glyph => point_at(self.glyph.x, self.glyph.y, index),
            ZonePointer::Twilight => point_at(self.twilight.x, self.twilight.y, index),
        }
    }

    pub fn original(&self, zone: ZonePointer, index: usize) -> Result<Point, Refusal> {
        match zone {
            ZonePointer::Glyph => point_at(self.glyph.original_x, self.glyph.original_y, index),
            ZonePointer::Twilight => {
                point_at(self.twilight.original_x, self.twilight.original_y, index)
            }
        }
    }

    /// The twilight zone has none, and outside is (0, 0).
    pub fn unscaled(&self, zone: ZonePointer, index: usize) -> Point {
        match zone {
            ZonePointer::Glyph => {
                point_at(self.glyph.unscaled_x, self.glyph.unscaled_y, index).unwrap_or_default()
            }
            ZonePointer::Twilight => Point::default(),
        }
    }

    /// The lists that a move changes.
    pub fn lists(&mut self, zone: ZonePointer) -> (&mut [i32], &mut [i32], &mut [u8]) {
        match zone {
            ZonePointer::Glyph => (self.glyph.x, self.glyph.y, self.glyph.flags),
            ZonePointer::Twilight => (self.twilight.x, self.twilight.y, self.twilight.flags),
        }
    }

    /// A twilight point, original and current.
    pub fn make_twilight_point(&mut self, index: usize, place: Point) {
        self.twilight.original_x[index] = place.x;
        self.twilight.original_y[index] = place.y;
        self.twilight.x[index] = place.x;
        self.twilight.y[index] = place.y;
    }

    /// Where a point of the original outline comes to by a distance.
    pub fn moved_original(&self, from: Point, distance: i32) -> Point {
        let state = &self.state;
        let mut place = from;
        match state.freedom_axis {
            Axis::X => place.x = place.x.wrapping_add(distance),
            Axis::Y => place.y = place.y.wrapping_add(distance),
            Axis::Both => {
                let Point { x, y } = state.freedom;
                if x != 0 {
                    place.x = place.x.wrapping_add(mul_div(distance, x, state.fdotp));
                }
                if y != 0 {
                    place.y = place.y.wrapping_add(mul_div(distance, y, state.fdotp));
                }
            }
        }
        place
    }

    pub fn move_point(
        &mut self,
        zone: ZonePointer,
        index: usize,
        distance: i32,
    ) -> Result<(), Refusal> {
        let (axis, freedom, fdotp) = (
            self.state.freedom_axis,
            self.state.freedom,
            self.state.fdotp,
        );
        let horizontal = self.state.projection.y == 0;
        let holds_x = self.state.backward_compatibility;
        let holds_y = self.state.did_both_iups();
        let (xs, ys, flags) = self.lists(zone);
        if index >= xs.len() {
            return Err(Refusal::Point(index));
        }
        match axis {
            Axis::X => {
                if !holds_x {
                    xs[index] = xs[index].wrapping_add(distance);
                }
                flags[index] |= TOUCHED_X;
            }
            Axis::Y => {
                if !holds_y {
                    ys[index] = ys[index].wrapping_add(distance);
                }
                flags[index] |= TOUCHED_Y;
            }
            Axis::Both => {
                if freedom.x != 0 {
                    if !holds_x || horizontal {
                        xs[index] = xs[index].wrapping_add(mul_div(distance, freedom.x, fdotp));
                    }
                    flags[index] |= TOUCHED_X;
                }
                if freedom.y != 0 {
                    if !holds_y || horizontal {
                        ys[index] = ys[index].wrapping_add(mul_div(distance, freedom.y, fdotp));
                    }
                    flags[index] |= TOUCHED_Y;
                }
            }
        }
        Ok(())
    }

    pub fn move_zp2_point(
        &mut self,
        index: usize,
        by: Point,
        touches: bool,
    ) -> Result<(), Refusal> {
        let freedom = self.state.freedom;
        let holds_x = self.state.backward_compatibility;
        let holds_y = self.state.did_both_iups();
        let (xs, ys, flags) = self.lists(self.state.zp2);
        let outside = Refusal::Point(index);
        if freedom.x != 0 {
            if !holds_x {
                let x = xs.get_mut(index).ok_or(outside)?;
                *x = x.wrapping_add(by.x);
            }
            if touches {
                *flags.get_mut(index).ok_or(outside)? |= TOUCHED_X;
            }
        }
        if freedom.y != 0 {
            if !holds_y {
                let y = ys.get_mut(index).ok_or(outside)?;
                *y = y.wrapping_add(by.y);
            }
            if touches {
                *flags.get_mut(index).ok_or(outside)? |= TOUCHED_Y;
            }
        }
        Ok(())
    }

    pub fn displacement(&self, opcode: u8) -> Result<Displacement, Refusal> {
        let state = &self.state;
        let (zone, index) = if opcode & 1 != 0 {
            (state.zp0, state.rp1)
        } else {
            (state.zp1, state.rp2)
        };
        let current = self.point(zone, index)?;
        let original = self.original(zone, index)?;
        let distance = state.project(current, original);
        let by = Point {
            x: mul_div(distance, state.freedom.x, state.fdotp),
            y: mul_div(distance, state.freedom.y, state.fdotp),
        };
        Ok(Displacement { zone, index, by })
    }
}
