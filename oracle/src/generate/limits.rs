//! Worlds at the sizes' limits and one above them.

use super::states::sound_state;
use crate::{case::Case, direct::Call, random::Random, world::*};
use std::ops::RangeInclusive;

/// Each size at its limit and one above it, in runs and in direct calls.
pub fn limit_cases(random: &mut Random) -> Vec<Case> {
    let sizes = [
        (GLYPH_LISTS, MOST_POINTS),
        (TWILIGHT_LISTS, MOST_POINTS),
        (CONTOURS..=CONTOURS, MOST_CONTOURS),
        (CONTROL_VALUES..=CONTROL_VALUES, MOST_CONTROL_VALUES),
        (SHEET..=SHEET, MOST_SHEET_WORDS),
    ];
    let mut cases = Vec::new();
    for (lists, most) in sizes {
        for size in [most, most + 1] {
            let world = world_with(random, lists.clone(), size);
            for call in calls_on(random, &lists, size) {
                let world = world.clone();
                cases.push(Case { call, world });
            }
        }
    }
    cases
}

/// A touched point at each end of one long contour.
pub fn long_iup_case(random: &mut Random, points: usize) -> Case {
    let mut world = long_glyph(random, points, 37);
    for flag in [0, points - 1] {
        world.lists[FLAGS][flag] |= 6;
    }
    iup_on(world, 1 + random.below(2) as u32)
}

/// One touched point in one long contour, so that all others shift.
pub fn long_iup_shift_case(random: &mut Random, points: usize) -> Case {
    // Coordinates all alike take no room in a file.
    let step = if points < MOST_POINTS { 37 } else { 0 };
    let mut world = long_glyph(random, points, step);
    world.lists[FLAGS][points / 2] |= 6;
    iup_on(world, 1 + random.below(2) as u32)
}

fn iup_on(world: World, axis: u32) -> Case {
    Case {
        call: Call::Iup { axis },
        world,
    }
}

/// Points in a row, both ends and the middle moved by different distances.
fn long_glyph(random: &mut Random, points: usize, step: u32) -> World {
    let mut world = World {
        state: sound_state(random),
        lists: Default::default(),
    };
    for list in UNSCALED_X..=CURRENT_Y {
        world.lists[list] = (0..points).map(|point| step * point as u32).collect();
    }
    for list in [CURRENT_X, CURRENT_Y] {
        for point in [0, points / 2, points - 1] {
            world.lists[list][point] += 1 + random.below(90) as u32;
        }
    }
    world.lists[FLAGS] = vec![1; points];
    world.lists[CONTOURS] = vec![points as u32 - 1];
    world
}

/// Lists of one word each, over and over, of the given size.
fn world_with(random: &mut Random, lists: RangeInclusive<usize>, size: usize) -> World {
    let mut world = World {
        state: sound_state(random),
        lists: Default::default(),
    };
    world.state.references = [0, size as u64 - 1, size as u64];
    world.state.zones = [zone_of(&lists); 3];
    world.lists[SHEET] = sheet_on(&lists, size);
    for list in lists {
        // Contour ends of 0 and sheets of SVTCA[y] lines are sound.
        let word = if list == CONTOURS || list == SHEET {
            0
        } else {
            random.next() as u32 & 7
        };
        world.lists[list] = vec![word; size];
    }
    world
}

fn zone_of(lists: &RangeInclusive<usize>) -> u32 {
    u32::from(*lists.start() != TWILIGHT_ORIGINAL_X)
}

/// A line that reads the last element.
fn sheet_on(lists: &RangeInclusive<usize>, size: usize) -> Vec<u32> {
    let last = size as u32 - 1;
    match *lists.start() {
        CONTROL_VALUES => vec![0x3E, 2, last, 0],
        CONTOURS => vec![0x30, 0],
        _ => vec![0x2E, 1, last],
    }
}

fn calls_on(random: &mut Random, lists: &RangeInclusive<usize>, size: usize) -> Vec<Call> {
    let run = Call::run(0, u64::MAX);
    let mut calls = vec![run];
    if lists.start() >= &CONTROL_VALUES {
        return calls;
    }
    let zone = zone_of(lists);
    let last = size as u64 - 1;
    calls.push(Call::Point { zone, index: last });
    calls.push(Call::Point {
        zone,
        index: last + 1,
    });
    calls.push(Call::MovePoint {
        zone,
        index: last,
        distance: random.between(-64, 64),
    });
    calls.push(Call::SetOnCurve {
        zone,
        start: last - 1,
        end: last + 1,
        on: random.flip(),
    });
    if zone == 1 {
        calls.push(Call::Iup { axis: 1 });
        calls.push(Call::Iup { axis: 2 });
    }
    calls
}
