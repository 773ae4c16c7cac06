//! The tests that come before any step: sizes for answer 2, contour ends for
//! answer 14, state for answer 3.

use crate::{vectors, world::*};
use reference::door::State;
use std::ops::RangeInclusive;

const SUPER45: u32 = 7;

/// Lists of one zone: of one length, and that within the limit.
pub fn lists_fit(world: &World, lists: &[usize]) -> bool {
    let mut lengths = lists.iter().map(|list| world.lists[*list].len());
    let first = lengths.next().unwrap_or_default();
    first <= MOST_POINTS && lengths.all(|length| length == first)
}

pub fn contours_fit(world: &World) -> bool {
    world.lists[CONTOURS].len() <= MOST_CONTOURS
}

fn zone_fits(world: &World, lists: RangeInclusive<usize>) -> bool {
    lists_fit(world, &lists.collect::<Vec<_>>())
}

/// All that a run is given.
pub fn everything_fits(world: &World) -> bool {
    zone_fits(world, GLYPH_LISTS)
        && zone_fits(world, TWILIGHT_LISTS)
        && contours_fit(world)
        && world.lists[CONTROL_VALUES].len() <= MOST_CONTROL_VALUES
        && world.lists[SHEET].len() <= MOST_SHEET_WORDS
}

/// Whether each contour ends behind the one before it, and at a point: document
/// 02, K8. The Rust takes any ends.
pub fn ends_rise(world: &World) -> bool {
    let ends = &world.lists[CONTOURS];
    let rise = ends.windows(2).all(|pair| pair[0] < pair[1]);
    rise && ends
        .last()
        .is_none_or(|end| (*end as usize) < world.points())
}

pub fn state_is_sound(state: &State) -> bool {
    let divides_by_zero = state.rounding.mode == SUPER45 && state.rounding.period == 0;
    vectors::in_range(state.vectors) && !divides_by_zero
}
