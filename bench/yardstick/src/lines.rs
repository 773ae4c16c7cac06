//! The lines: engine/outline.rs, engine/data.rs and engine/graphics.rs of the Rust, and what documents 01 and 02 decide otherwise.

use crate::{
    iup::Stretch,
    math::{mul, mul14, mul_div, unit},
    round::{RoundMode, RoundState},
    run::{Refusal, Replayer, Rules},
    state::{Point, ZonePointer},
    zones::{ON_CURVE, TOUCHED_X, TOUCHED_Y},
};

type Done = Result<(), Refusal>;

/// The operands that a line takes, all before its first step.
fn taken<const N: usize>(operands: &[i32]) -> Result<[i32; N], Refusal> {
    operands.try_into().map_err(|_| Refusal::Missing)
}

fn index_of(operand: i32) -> usize {
    operand as usize
}

fn indices<const N: usize>(operands: &[i32]) -> Result<[usize; N], Refusal> {
    taken(operands).map(|numbers| numbers.map(index_of))
}

fn zone_of(operand: i32) -> Result<ZonePointer, Refusal> {
    match operand {
        0 => Ok(ZonePointer::Twilight),
        1 => Ok(ZonePointer::Glyph),
        _ => Err(Refusal::ZonePointer(index_of(operand))),
    }
}

fn unit_vector(x: i32, y: i32) -> Point {
    let (x, y) = unit(x, y);
    Point { x, y }
}

/// Along the line between two points, or for an odd opcode across it; the x axis where they are one.
fn line_vector(opcode: u8, to: Point, start: Point) -> Point {
    let x = to.x.wrapping_sub(start.x);
    let y = to.y.wrapping_sub(start.y);
    match (x, y) {
        (0, 0) => Point { x: 0x4000, y: 0 },
        _ if opcode & 1 == 1 => unit_vector(y.wrapping_neg(), x),
        _ => unit_vector(x, y),
    }
}

/// The operands of a line that takes as many as the loop counter says, each as it is wanted.
fn each(operands: &[i32], count: u32, mut point: impl FnMut(usize) -> Done) -> Done {
    let count = count as usize;
    for operand in operands.iter().take(count) {
        point(index_of(*operand))?;
    }
    if operands.len() < count {
        return Err(Refusal::Missing);
    }
    Ok(())
}

impl Replayer<'_> {
    pub fn perform(&mut self, opcode: u8, operands: &[i32]) -> Done {
        match opcode {
            0x00..=0x05 => self.svtca(opcode),
            0x06..=0x09 => self.svtl(opcode, operands)?,
            0x0A | 0x0B => self.svfs(opcode, operands)?,
            0x0E => {
                self.state.freedom = self.state.projection;
                self.state.update_projection();
            }
            0x0F => self.isect(operands)?,
            0x10 => self.state.rp0 = index_of(taken::<1>(operands)?[0]),
            0x11 => self.state.rp1 = index_of(taken::<1>(operands)?[0]),
            0x12 => self.state.rp2 = index_of(taken::<1>(operands)?[0]),
            0x13 => self.state.zp0 = zone_of(taken::<1>(operands)?[0])?,
            0x14 => self.state.zp1 = zone_of(taken::<1>(operands)?[0])?,
            0x15 => self.state.zp2 = zone_of(taken::<1>(operands)?[0])?,
            0x16 => {
                let zone = zone_of(taken::<1>(operands)?[0])?;
                self.state.zp0 = zone;
                self.state.zp1 = zone;
                self.state.zp2 = zone;
            }
            0x17 => self.sloop(operands)?,
            0x18 => self.state.round.mode = RoundMode::Grid,
            0x19 => self.state.round.mode = RoundMode::HalfGrid,
            0x1A => self.state.minimum_distance = taken::<1>(operands)?[0],
            0x1D => self.state.cut_in = taken::<1>(operands)?[0],
            0x1E => self.state.single_width_cut_in = taken::<1>(operands)?[0],
            0x1F => self.state.single_width = mul(taken::<1>(operands)?[0], self.state.scale),
            0x3D => self.state.round.mode = RoundMode::DoubleGrid,
            0x7D => self.state.round.mode = RoundMode::DownToGrid,
            0x7C => self.state.round.mode = RoundMode::UpToGrid,
            0x7A => self.state.round.mode = RoundMode::Off,
            0x76 => self.sround(RoundMode::Super, 0x4000, operands)?,
            0x77 => self.sround(RoundMode::Super45, 0x2D41, operands)?,
            0x27 => self.alignpts(operands)?,
            0x29 => self.utp(operands)?,
            0x2E | 0x2F => self.mdap(opcode, operands)?,
            0x30 | 0x31 => self.iup(opcode),
            0x32 | 0x33 => self.shp(opcode, operands)?,
            0x34 | 0x35 => self.shc(opcode, operands)?,
            0x36 | 0x37 => self.shz(opcode, operands)?,
            0x38 => self.shpix(operands)?,
            0x39 => self.ip(operands)?,
            0x3A | 0x3B => self.msirp(opcode, operands)?,
            0x3C => self.alignrp(operands)?,
            0x3E | 0x3F => self.miap(opcode, operands)?,
            0x46 | 0x47 => self.gc(opcode, operands)?,
            0x49 | 0x4A => self.md(opcode, operands)?,
            0x4D => self.state.auto_flip = true,
            0x4E => self.state.auto_flip = false,
            0x80 => self.flippt(operands)?,
            0x81 => self.fliprg(true, operands)?,
            0x82 => self.fliprg(false, operands)?,
            0x86 | 0x87 => self.sdpvtl(opcode, operands)?,
            0xC0..=0xDF => self.mdrp(opcode, operands)?,
            0xE0..=0xFF => self.mirp(opcode, operands)?,
            _ => return Err(Refusal::Line),
        }
        Ok(())
    }

    // ---- the state
    fn svtca(&mut self, opcode: u8) {
        let x = i32::from(opcode & 1) << 14;
        let axis = Point { x, y: x ^ 0x4000 };
        if opcode < 4 {
            self.state.projection = axis;
            self.state.dual = axis;
        }
        if opcode & 2 == 0 {
            self.state.freedom = axis;
        }
        self.state.update_projection();
    }

    fn svtl(&mut self, opcode: u8, operands: &[i32]) -> Done {
        let [second, first] = indices(operands)?;
        let to = self.point(self.state.zp1, first)?;
        let vector = line_vector(opcode, to, self.point(self.state.zp2, second)?);
        if opcode < 8 {
            self.state.projection = vector;
            self.state.dual = vector;
        } else {
            self.state.freedom = vector;
        }
        self.state.update_projection();
        Ok(())
    }

    fn sdpvtl(&mut self, opcode: u8, operands: &[i32]) -> Done {
        let [second, first] = indices(operands)?;
        let (zp1, zp2) = (self.state.zp1, self.state.zp2);
        let was = self.original(zp1, first)?;
        self.state.dual = line_vector(opcode, was, self.original(zp2, second)?);
        let is = self.point(zp1, first)?;
        self.state.projection = line_vector(opcode, is, self.point(zp2, second)?);
        self.state.update_projection();
        Ok(())
    }

    fn svfs(&mut self, opcode: u8, operands: &[i32]) -> Done {
        let [y, x] = taken(operands)?.map(|part| i32::from(part as i16));
        let of_projection = opcode == 0x0A;
        let vector = match (x, y) {
            (0, 0) if of_projection => self.state.projection,
            (0, 0) => self.state.freedom,
            _ => unit_vector(x, y),
        };
        if of_projection {
            self.state.projection = vector;
            self.state.dual = vector;
        } else {
            self.state.freedom = vector;
        }
        self.state.update_projection();
        Ok(())
    }

    fn sloop(&mut self, operands: &[i32]) -> Done {
        let [count] = taken(operands)?;
        if count < 0 {
            return Err(Refusal::LoopCount(index_of(count)));
        }
        self.state.loop_counter = (count as u32).min(0xFFFF);
        Ok(())
    }

    fn sround(&mut self, mode: RoundMode, grid_period: i32, operands: &[i32]) -> Done {
        let [selector] = taken(operands)?;
        let period = match selector & 0xC0 {
            0 => grid_period / 2,
            0x80 => grid_period * 2,
            _ => grid_period,
        };
        let phase = match selector & 0x30 {
            0 => 0,
            0x10 => period / 4,
            0x20 => period / 2,
            _ => period * 3 / 4,
        };
        let threshold = match selector & 0x0F {
            0 => period - 1,
            eighths => (eighths - 4) * period / 8,
        };
        self.state.round = RoundState {
            mode,
            threshold: threshold >> 8,
            phase: phase >> 8,
            period: period >> 8,
        };
        Ok(())
    }

    /// The loop counter, which is 1 afterwards.
    fn take_loop_counter(&mut self) -> u32 {
        std::mem::replace(&mut self.state.loop_counter, 1)
    }

    // ---- flags
    fn flippt(&mut self, operands: &[i32]) -> Done {
        let count = self.take_loop_counter();
        if self.state.did_both_iups() {
            return each(operands, count, |_| Ok(()));
        }
        each(operands, count, |index| {
            let flag = self.glyph.flags.get_mut(index);
            *flag.ok_or(Refusal::Point(index))? ^= ON_CURVE;
            Ok(())
        })
    }

    fn fliprg(&mut self, on: bool, operands: &[i32]) -> Done {
        let [high, low] = indices(operands)?;
        let end = high.checked_add(1).ok_or(Refusal::Range(low))?;
        if self.state.did_both_iups() {
            return Ok(());
        }
        let flags = self.glyph.flags.get_mut(low..end);
        for flag in flags.ok_or(Refusal::Range(low))? {
            if on {
                *flag |= ON_CURVE;
            } else {
                *flag &= !ON_CURVE;
            }
        }
        Ok(())
    }

    // ---- shifts
    fn shp(&mut self, opcode: u8, operands: &[i32]) -> Done {
        let by = self.displacement(opcode)?.by;
        let count = self.take_loop_counter();
        each(operands, count, |index| {
            self.move_zp2_point(index, by, true)
        })
    }

    fn shpix(&mut self, operands: &[i32]) -> Done {
        if self.state.backward_compatibility {
            return Err(Refusal::Compatibility);
        }
        let (amount, points) = operands.split_first().ok_or(Refusal::Missing)?;
        let by = Point {
            x: mul14(*amount, self.state.freedom.x),
            y: mul14(*amount, self.state.freedom.y),
        };
        let count = self.take_loop_counter();
        each(points, count, |index| self.move_zp2_point(index, by, true))
    }

    fn shc(&mut self, opcode: u8, operands: &[i32]) -> Done {
        let [contour] = indices(operands)?;
        let in_twilight = self.state.zp2 == ZonePointer::Twilight;
        let count = if in_twilight {
            1
        } else {
            self.glyph.contours.len()
        };
        if contour >= count {
            return if self.state.pedantic {
                Err(Refusal::Contour(contour))
            } else {
                Ok(())
            };
        }
        let (start, end) = if in_twilight {
            (0, self.twilight.x.len())
        } else {
            let start = match contour {
                0 => 0,
                _ => usize::from(self.glyph.contours[contour - 1]) + 1,
            };
            (start, usize::from(self.glyph.contours[contour]) + 1)
        };
        self.shift_range(opcode, start, end, true)
    }

    fn shz(&mut self, opcode: u8, operands: &[i32]) -> Done {
        let [zone] = taken(operands)?;
        zone_of(zone)?;
        let end = match self.state.zp2 {
            ZonePointer::Twilight => self.twilight.x.len(),
            ZonePointer::Glyph => match self.glyph.contours.last() {
                Some(end) => usize::from(*end) + 1,
                None => 0,
            },
        };
        self.shift_range(opcode, 0, end, false)
    }

    /// All points of a range but the reference point.
    fn shift_range(&mut self, opcode: u8, start: usize, end: usize, touches: bool) -> Done {
        let displacement = self.displacement(opcode)?;
        for index in start..end {
            if displacement.zone != self.state.zp2 || displacement.index != index {
                self.move_zp2_point(index, displacement.by, touches)?;
            }
        }
        Ok(())
    }

    // ---- distances
    fn mdap(&mut self, opcode: u8, operands: &[i32]) -> Done {
        let [index] = indices(operands)?;
        let zone = self.state.zp0;
        if self.state.pedantic || self.has_point(zone, index) {
            let (distance, wrapped) = if opcode & 1 != 0 && !self.state.native_clear_type_x {
                let current = self
                    .state
                    .project(self.point(zone, index)?, Point::default());
                let (rounded, wrapped) = self.state.round.round(current);
                (rounded.wrapping_sub(current), wrapped)
            } else {
                (0, false)
            };
            self.move_point(zone, index, distance)?;
            self.state.count_rounding(wrapped);
        }
        self.state.rp0 = index;
        self.state.rp1 = index;
        Ok(())
    }

    fn miap(&mut self, opcode: u8, operands: &[i32]) -> Done {
        let [control, index] = indices(operands)?;
        let value = self.controls.get(control).copied();
        let mut distance = value.ok_or(Refusal::ControlValue(control))?;
        let zone = self.state.zp0;
        if zone == ZonePointer::Twilight {
            if !self.has_point(zone, index) {
                return Err(Refusal::Point(index));
            }
            let place = Point {
                x: mul14(distance, self.state.freedom.x),
                y: mul14(distance, self.state.freedom.y),
            };
            self.make_twilight_point(index, place);
        }
        let current = self
            .state
            .project(self.point(zone, index)?, Point::default());
        let mut wrapped = false;
        if opcode & 1 != 0 {
            if distance.wrapping_sub(current).wrapping_abs() > self.cut_in() {
                distance = current;
            }
            (distance, wrapped) = self.rounded(distance);
        }
        self.move_point(zone, index, distance.wrapping_sub(current))?;
        self.state.count_rounding(wrapped);
        self.state.rp0 = index;
        self.state.rp1 = index;
        Ok(())
    }

    fn cut_in(&self) -> i32 {
        if self.state.native_clear_type_x {
            self.state.cut_in >> 4
        } else {
            self.state.cut_in
        }
    }

    /// Rounded, but not under native ClearType.
    fn rounded(&self, distance: i32) -> (i32, bool) {
        if self.state.native_clear_type_x {
            (distance, false)
        } else {
            self.state.round.round(distance)
        }
    }

    /// Not nearer than the minimum distance, on the side of the original one.
    fn at_least(&self, distance: i32, original: i32) -> i32 {
        let minimum = if self.state.native_clear_type_x {
            self.state.minimum_distance >> 1
        } else {
            self.state.minimum_distance
        };
        if original >= 0 {
            distance.max(minimum)
        } else {
            distance.min(minimum.wrapping_neg())
        }
    }

    /// The references of MSIRP, MDRP and MIRP.
    fn relate(&mut self, index: usize, sets_rp0: bool) {
        self.state.rp1 = self.state.rp0;
        self.state.rp2 = index;
        if sets_rp0 {
            self.state.rp0 = index;
        }
    }

    /// Whether a point of zp1 and rp0 of zp0 are both there.
    fn are_both_there(&self, index: usize) -> bool {
        self.has_point(self.state.zp1, index) && self.has_point(self.state.zp0, self.state.rp0)
    }

    fn msirp(&mut self, opcode: u8, operands: &[i32]) -> Done {
        let [distance, point] = taken(operands)?;
        let index = index_of(point);
        let (zone, reference_zone, rp0) = (self.state.zp1, self.state.zp0, self.state.rp0);
        if !self.state.pedantic && !self.are_both_there(index) {
            return Ok(());
        }
        if zone == ZonePointer::Twilight {
            let reference = self.original(reference_zone, rp0)?;
            let own = self.original(zone, index)?;
            let from = match self.rules {
                Rules::Skrifa => own,
                Rules::FreeType => reference,
            };
            self.make_twilight_point(index, self.moved_original(from, distance));
        }
        let current = self
            .state
            .project(self.point(zone, index)?, self.point(reference_zone, rp0)?);
        self.move_point(zone, index, distance.wrapping_sub(current))?;
        self.relate(index, opcode & 1 != 0);
        Ok(())
    }

    fn alignrp(&mut self, operands: &[i32]) -> Done {
        let count = self.take_loop_counter();
        let (zone, reference_zone, rp0) = (self.state.zp1, self.state.zp0, self.state.rp0);
        each(operands, count, |index| {
            let point = self.point(zone, index)?;
            let distance = self.state.project(point, self.point(reference_zone, rp0)?);
            self.move_point(zone, index, distance.wrapping_neg())
        })
    }

    /// How far a point of one zone is from one of another in the original outline, unscaled where neither is twilight.
    fn outline_distance(
        &self,
        (zone, index): (ZonePointer, usize),
        (other_zone, other): (ZonePointer, usize),
    ) -> Result<i32, Refusal> {
        if zone == ZonePointer::Twilight || other_zone == ZonePointer::Twilight {
            let point = self.original(zone, index)?;
            Ok(self
                .state
                .dual_project(point, self.original(other_zone, other)?))
        } else {
            let distance = self
                .state
                .dual_project(self.unscaled(zone, index), self.unscaled(other_zone, other));
            Ok(mul(distance, self.state.scale))
        }
    }

    fn mdrp(&mut self, opcode: u8, operands: &[i32]) -> Done {
        let [index] = indices(operands)?;
        let (zone, reference_zone, rp0) = (self.state.zp1, self.state.zp0, self.state.rp0);
        if self.state.pedantic || self.are_both_there(index) {
            let mut original = self.outline_distance((zone, index), (reference_zone, rp0))?;
            let (width, cut_in) = (self.state.single_width, self.state.single_width_cut_in);
            if cut_in > 0
                && original < width.wrapping_add(cut_in)
                && original > width.wrapping_sub(cut_in)
            {
                original = if original >= 0 {
                    width
                } else {
                    width.wrapping_neg()
                };
            }
            let (mut distance, wrapped) = if opcode & 4 != 0 {
                self.rounded(original)
            } else {
                (original, false)
            };
            if opcode & 8 != 0 {
                distance = self.at_least(distance, original);
            }
            let current = self
                .state
                .project(self.point(zone, index)?, self.point(reference_zone, rp0)?);
            self.move_point(zone, index, distance.wrapping_sub(current))?;
            self.state.count_rounding(wrapped);
        }
        self.relate(index, opcode & 16 != 0);
        Ok(())
    }

    fn mirp(&mut self, opcode: u8, operands: &[i32]) -> Done {
        let [control, point] = taken(operands)?;
        let (after_control, index) = (index_of(control.wrapping_add(1)), index_of(point));
        let (zone, reference_zone, rp0) = (self.state.zp1, self.state.zp0, self.state.rp0);
        let is_there = self.are_both_there(index) && after_control <= self.controls.len();
        if self.state.pedantic || is_there {
            let mut wanted = match after_control {
                0 => 0,
                _ => {
                    let control = after_control - 1;
                    let value = self.controls.get(control).copied();
                    value.ok_or(Refusal::ControlValue(control))?
                }
            };
            let width = self.state.single_width;
            if wanted.wrapping_sub(width).wrapping_abs() < self.state.single_width_cut_in {
                wanted = if wanted >= 0 {
                    width
                } else {
                    width.wrapping_neg()
                };
            }
            if zone == ZonePointer::Twilight {
                let reference = self.original(reference_zone, rp0)?;
                self.original(zone, index)?;
                let place = Point {
                    x: reference.x.wrapping_add(mul(wanted, self.state.freedom.x)),
                    y: reference.y.wrapping_add(mul(wanted, self.state.freedom.y)),
                };
                self.make_twilight_point(index, place);
            }
            let original = self.state.dual_project(
                self.original(zone, index)?,
                self.original(reference_zone, rp0)?,
            );
            let current = self
                .state
                .project(self.point(zone, index)?, self.point(reference_zone, rp0)?);
            if self.state.auto_flip && (original ^ wanted) < 0 {
                wanted = wanted.wrapping_neg();
            }
            let (mut distance, mut wrapped) = (wanted, false);
            if opcode & 4 != 0 {
                if reference_zone == zone
                    && wanted.wrapping_sub(original).wrapping_abs() > self.cut_in()
                {
                    distance = original;
                }
                (distance, wrapped) = self.rounded(distance);
            }
            if opcode & 8 != 0 {
                distance = self.at_least(distance, original);
            }
            self.move_point(zone, index, distance.wrapping_sub(current))?;
            self.state.count_rounding(wrapped);
        }
        self.relate(index, opcode & 16 != 0);
        Ok(())
    }

    // ---- measures
    fn gc(&mut self, opcode: u8, operands: &[i32]) -> Done {
        let [index] = indices(operands)?;
        let zone = self.state.zp2;
        let value = if !self.state.pedantic && !self.has_point(zone, index) {
            0
        } else if opcode & 1 != 0 {
            self.state
                .dual_project(self.original(zone, index)?, Point::default())
        } else {
            self.state
                .project(self.point(zone, index)?, Point::default())
        };
        self.state.push(value);
        Ok(())
    }

    fn md(&mut self, opcode: u8, operands: &[i32]) -> Done {
        let [first, second] = indices(operands)?;
        let (zone, other_zone) = (self.state.zp0, self.state.zp1);
        let are_there = self.has_point(zone, second) && self.has_point(other_zone, first);
        let value = if !self.state.pedantic && !are_there {
            0
        } else if opcode & 1 != 0 {
            let point = self.point(zone, second)?;
            self.state.project(point, self.point(other_zone, first)?)
        } else {
            self.outline_distance((zone, second), (other_zone, first))?
        };
        self.state.push(value);
        Ok(())
    }

    // ---- single points
    fn alignpts(&mut self, operands: &[i32]) -> Done {
        let [second, first] = indices(operands)?;
        let (zone, other_zone) = (self.state.zp0, self.state.zp1);
        let point = self.point(zone, second)?;
        let half = self.state.project(point, self.point(other_zone, first)?) / 2;
        self.move_point(other_zone, first, half)?;
        self.move_point(zone, second, half.wrapping_neg())
    }

    fn utp(&mut self, operands: &[i32]) -> Done {
        let [index] = indices(operands)?;
        let freedom = self.state.freedom;
        let mut marks = 0;
        if freedom.x != 0 {
            marks |= TOUCHED_X;
        }
        if freedom.y != 0 {
            marks |= TOUCHED_Y;
        }
        if marks != 0 {
            let (_, _, flags) = self.lists(self.state.zp0);
            *flags.get_mut(index).ok_or(Refusal::Point(index))? &= !marks;
        }
        Ok(())
    }

    /// Where a point lay in the original outline, unscaled where no zone pointer is at twilight.
    fn outline_place(&self, zone: ZonePointer, index: usize) -> Result<Point, Refusal> {
        let pointers = [self.state.zp0, self.state.zp1, self.state.zp2];
        if pointers.contains(&ZonePointer::Twilight) {
            self.original(zone, index)
        } else {
            Ok(self.unscaled(zone, index))
        }
    }

    fn ip(&mut self, operands: &[i32]) -> Done {
        let count = self.take_loop_counter();
        let (zp0, zp1, zone) = (self.state.zp0, self.state.zp1, self.state.zp2);
        let (rp1, rp2) = (self.state.rp1, self.state.rp2);
        let pedantic = self.state.pedantic;
        if !pedantic && !(self.has_point(zp0, rp1) && self.has_point(zp1, rp2)) {
            return Ok(());
        }
        let outline_base = self.outline_place(zp0, rp1)?;
        let base = self.point(zp0, rp1)?;
        let outline_range = self
            .state
            .dual_project(self.outline_place(zp1, rp2)?, outline_base);
        let range = self.state.project(self.point(zp1, rp2)?, base);
        each(operands, count, |index| {
            if !pedantic && !self.has_point(zone, index) {
                return Ok(());
            }
            let lay = self
                .state
                .dual_project(self.outline_place(zone, index)?, outline_base);
            let lies = self.state.project(self.point(zone, index)?, base);
            let goes = match (lay, outline_range) {
                (0, _) => 0,
                (lay, 0) => lay,
                (lay, outline_range) => mul_div(lay, range, outline_range),
            };
            self.move_point(zone, index, goes.wrapping_sub(lies))
        })
    }

    // ---- points
    fn isect(&mut self, operands: &[i32]) -> Done {
        let [b1, b0, a1, a0, index] = indices(operands)?;
        let a0 = self.point(self.state.zp1, a0)?;
        let a1 = self.point(self.state.zp1, a1)?;
        let b0 = self.point(self.state.zp0, b0)?;
        let b1 = self.point(self.state.zp0, b1)?;
        let (dbx, dby) = (b1.x.wrapping_sub(b0.x), b1.y.wrapping_sub(b0.y));
        let (dax, day) = (a1.x.wrapping_sub(a0.x), a1.y.wrapping_sub(a0.y));
        let (dx, dy) = (b0.x.wrapping_sub(a0.x), b0.y.wrapping_sub(a0.y));
        let cross = |x: i32, y: i32| {
            mul_div(x, dby.wrapping_neg(), 0x40).wrapping_add(mul_div(y, dbx, 0x40))
        };
        let discriminant = cross(dax, day);
        let dot_product = mul_div(dax, dbx, 0x40).wrapping_add(mul_div(day, dby, 0x40));
        let place = if discriminant.wrapping_abs().wrapping_mul(19) > dot_product.wrapping_abs() {
            let v = cross(dx, dy);
            Point {
                x: a0.x.wrapping_add(mul_div(v, dax, discriminant)),
                y: a0.y.wrapping_add(mul_div(v, day, discriminant)),
            }
        } else {
            let middle = |a: i32, b: i32, c: i32, d: i32| {
                a.wrapping_add(b).wrapping_add(c).wrapping_add(d) / 4
            };
            Point {
                x: middle(a0.x, a1.x, b0.x, b1.x),
                y: middle(a0.y, a1.y, b0.y, b1.y),
            }
        };
        let (xs, ys, flags) = self.lists(self.state.zp2);
        if index >= xs.len() {
            return Err(Refusal::Point(index));
        }
        xs[index] = place.x;
        ys[index] = place.y;
        flags[index] |= TOUCHED_X | TOUCHED_Y;
        Ok(())
    }

    fn iup(&mut self, opcode: u8) {
        let is_x = opcode & 1 != 0;
        if self.state.backward_compatibility {
            if self.state.did_iup_x && self.state.did_iup_y {
                return;
            }
            if is_x {
                self.state.did_iup_x = true;
            } else {
                self.state.did_iup_y = true;
            }
        }
        let glyph = &mut self.glyph;
        let mut stretch = if is_x {
            Stretch {
                unscaled: glyph.unscaled_x,
                original: glyph.original_x,
                current: glyph.x,
                flags: glyph.flags,
                touched: TOUCHED_X,
            }
        } else {
            Stretch {
                unscaled: glyph.unscaled_y,
                original: glyph.original_y,
                current: glyph.y,
                flags: glyph.flags,
                touched: TOUCHED_Y,
            }
        };
        stretch.interpolate_contours(glyph.contours);
    }
}
