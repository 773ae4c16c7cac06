//! Glyphs, twilight points, contour ends and control values.

use crate::{
    numbers::{any_word, everyday, mixed, near_corner},
    random::Random,
    world::*,
};
use reference::door::State;

/// A world around a state: everything small, and every length as it should be.
pub fn small_world(random: &mut Random, state: State) -> World {
    let points = small_count(random);
    let twilight_points = small_count(random).min(4);
    let mut world = World {
        state,
        lists: Default::default(),
    };
    fill_glyph(random, &mut world, points);
    fill_twilight(random, &mut world, twilight_points);
    world.lists[CONTROL_VALUES] = control_values(random);
    bring_references_inside(random, &mut world);
    world
}

/// Most references become points of the zones that lines look for them in.
pub fn bring_references_inside(random: &mut Random, world: &mut World) {
    let [zp0, zp1, _] = world.state.zones;
    for (place, zone) in [zp0, zp0, zp1].into_iter().enumerate() {
        let points = world.points_of(zone) as u64;
        if points > 0 && !random.once_in(6) {
            world.state.references[place] %= points;
        }
    }
}

/// Mostly a handful, now and then none or a score.
pub fn small_count(random: &mut Random) -> usize {
    if random.once_in(250) {
        return 17 + random.below(10);
    }
    random.weighted(&[2, 3, 5, 6, 3, 2, 1])
}

pub fn fill_glyph(random: &mut Random, world: &mut World, points: usize) {
    for axis in 0..2 {
        let unscaled = coordinates(random, points);
        let original = originals(random, &unscaled);
        let current = moved(random, &original);
        world.lists[UNSCALED_X + axis] = unscaled;
        world.lists[ORIGINAL_X + axis] = original;
        world.lists[CURRENT_X + axis] = current;
    }
    world.lists[FLAGS] = flags(random, points);
    world.lists[CONTOURS] = contours(random, points);
}

pub fn fill_twilight(random: &mut Random, world: &mut World, points: usize) {
    for axis in 0..2 {
        let original = coordinates(random, points);
        let current = moved(random, &original);
        world.lists[TWILIGHT_ORIGINAL_X + axis] = original;
        world.lists[TWILIGHT_CURRENT_X + axis] = current;
    }
    world.lists[TWILIGHT_FLAGS] = flags(random, points);
}

/// Coordinates of one style.
fn coordinates(random: &mut Random, count: usize) -> Vec<u32> {
    let number = match random.weighted(&[6, 2, 1, 2, 2]) {
        0 => everyday,
        1 => near_corner,
        2 => any_word,
        3 => mixed,
        _ => often_equal,
    };
    (0..count).map(|_| number(random) as u32).collect()
}

/// One of a few numbers, so that points share a coordinate.
fn often_equal(random: &mut Random) -> i32 {
    64 * random.between(-1, 2)
}

/// Originals that a scale makes of the unscaled ones, or that none does.
fn originals(random: &mut Random, unscaled: &[u32]) -> Vec<u32> {
    if random.once_in(3) {
        return coordinates(random, unscaled.len());
    }
    let scale = random.between(1, 200);
    let scaled = |word: &u32| (i64::from(*word as i32) * i64::from(scale) / 64) as u32;
    unscaled.iter().map(scaled).collect()
}

/// Current coordinates: near the originals, on them, or anywhere.
fn moved(random: &mut Random, original: &[u32]) -> Vec<u32> {
    match random.below(4) {
        0 => original.to_vec(),
        1 => coordinates(random, original.len()),
        _ => {
            let mut nudge = |word: &u32| word.wrapping_add(random.between(-70, 70) as u32);
            original.iter().map(&mut nudge).collect()
        }
    }
}

/// Flags touched not at all, once, here and there, or everywhere; the bits
/// that nobody knows are set now and then.
fn flags(random: &mut Random, count: usize) -> Vec<u32> {
    let touched = match random.below(4) {
        0 => 0,
        1 => 6,
        _ => 7,
    };
    let unknown = if random.once_in(3) { 0xF8 } else { 0 };
    let mut flags: Vec<u32> = (0..count)
        .map(|_| random.next() as u32 & (1 | touched | unknown))
        .collect();
    if touched == 6 {
        leave_one_touched(random, &mut flags);
    }
    flags
}

fn leave_one_touched(random: &mut Random, flags: &mut [u32]) {
    for flag in flags.iter_mut() {
        *flag &= !6;
    }
    if !flags.is_empty() {
        flags[random.below(flags.len())] |= 6;
    }
}

/// Contour ends: a glyph's own, or wild ones.
pub fn contours(random: &mut Random, points: usize) -> Vec<u32> {
    match random.weighted(&[2, 5, 4, 2, 2, 2]) {
        0 => Vec::new(),
        1 => vec![points.saturating_sub(1) as u32],
        2 => rising_ends(random, points),
        3 => (0..random.below(4))
            .map(|_| wild_end(random, points))
            .collect(),
        4 => equal_ends(random, points),
        _ => {
            let mut ends = rising_ends(random, points);
            ends.push(wild_end(random, points));
            ends
        }
    }
}

/// Ends in order, each contour with a point or more, all below the count.
pub fn rising_ends(random: &mut Random, points: usize) -> Vec<u32> {
    (0..points)
        .filter(|point| *point + 1 == points || random.once_in(3))
        .map(|point| point as u32)
        .collect()
}

fn equal_ends(random: &mut Random, points: usize) -> Vec<u32> {
    let end = random.below(points + 1) as u32;
    vec![end; 2 + random.below(2)]
}

pub fn wild_end(random: &mut Random, points: usize) -> u32 {
    match random.below(4) {
        0 => points as u32,
        1 => 0xFFFF,
        2 => random.next() as u32 & 0xFFFF,
        _ => random.below(points + 2) as u32,
    }
}

fn control_values(random: &mut Random) -> Vec<u32> {
    let count = random.weighted(&[3, 3, 4, 3, 1]);
    coordinates(random, count)
}
