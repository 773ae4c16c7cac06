//! IUP on one axis: zone.rs of the Rust, over the lists of that axis.

use crate::math::{div, mul};
use std::ops::Range;

/// One axis of a glyph, or of one of its contours.
pub struct Stretch<'a> {
    pub unscaled: &'a [i32],
    pub original: &'a [i32],
    pub current: &'a mut [i32],
    pub flags: &'a [u8],
    /// The flag's bit of a touched point.
    pub touched: u8,
}

impl Stretch<'_> {
    pub fn interpolate_contours(&mut self, contours: &[u16]) {
        let mut start = 0;
        for end in contours {
            let end = usize::from(*end) + 1;
            Stretch {
                unscaled: &self.unscaled[start..end],
                original: &self.original[start..end],
                current: &mut self.current[start..end],
                flags: &self.flags[start..end],
                touched: self.touched,
            }
            .interpolate_contour();
            start = end;
        }
    }

    fn interpolate_contour(&mut self) {
        let (flags, touched) = (self.flags, self.touched);
        let is_touched = |flag: &u8| flag & touched != 0;
        let Some(first) = flags.iter().position(is_touched) else {
            return;
        };
        let mut last = first;
        for (index, flag) in flags.iter().enumerate().skip(first + 1) {
            if is_touched(flag) {
                self.interpolate(last + 1..index, last, index);
                last = index;
            }
        }
        if last == first {
            self.shift(first);
        } else {
            self.interpolate(last + 1..flags.len(), last, first);
            self.interpolate(0..first, last, first);
        }
    }

    /// All points but one by how far that one was moved.
    fn shift(&mut self, by: usize) {
        let delta = self.current[by].wrapping_sub(self.original[by]);
        if delta == 0 {
            return;
        }
        let (before, after) = self.current.split_at_mut(by);
        for current in before.iter_mut().chain(&mut after[1..]) {
            *current = current.wrapping_add(delta);
        }
    }

    /// The points of a range, none of them touched, between two that are.
    fn interpolate(&mut self, range: Range<usize>, from: usize, to: usize) {
        if range.is_empty() {
            return;
        }
        let (low, high) = if self.unscaled[from] > self.unscaled[to] {
            (to, from)
        } else {
            (from, to)
        };
        let (unscaled1, unscaled2) = (self.unscaled[low], self.unscaled[high]);
        let (original1, original2) = (self.original[low], self.original[high]);
        let (current1, current2) = (self.current[low], self.current[high]);
        let delta1 = current1.wrapping_sub(original1);
        let delta2 = current2.wrapping_sub(original2);
        let points = self.original[range.clone()]
            .iter()
            .zip(&self.unscaled[range.clone()])
            .zip(&mut self.current[range]);
        if current1 == current2 || unscaled1 == unscaled2 {
            for ((original, _), current) in points {
                *current = if *original <= original1 {
                    original.wrapping_add(delta1)
                } else if *original >= original2 {
                    original.wrapping_add(delta2)
                } else {
                    current1
                };
            }
        } else {
            let scale = div(
                current2.wrapping_sub(current1),
                unscaled2.wrapping_sub(unscaled1),
            );
            for ((original, unscaled), current) in points {
                *current = if *original <= original1 {
                    original.wrapping_add(delta1)
                } else if *original >= original2 {
                    original.wrapping_add(delta2)
                } else {
                    current1.wrapping_add(mul(unscaled.wrapping_sub(unscaled1), scale))
                };
            }
        }
    }
}
