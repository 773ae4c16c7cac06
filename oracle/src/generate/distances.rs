//! GC, MD, MDRP and MIRP of document 02: random lines, alone and among others,
//! from states whose numbers for them are anything.

use super::{
    operands::line,
    runs::{run_of, setter_or, ALL_MOVERS},
    spoil,
    states::calm_state,
    worlds::{bring_references_inside, fill_glyph, fill_twilight, small_world},
};
use crate::{
    case::Case,
    direct::Call,
    notable::{along, X, Y},
    numbers::{any_word, everyday, mixed, near_corner},
    opcodes::{rows_of, Family, Row},
    random::Random,
    world::*,
    wraps::{count, wild, wild_rounding},
};
use reference::door::{self, Pair, State};

const MOST_POINTS_EACH: usize = 4;
/// 1.0 in 16.16: what is scaled by it stays.
const UNIT: i32 = 0x1_0000;

/// A line alone, or a run of them among others.
pub fn any_distance(random: &mut Random) -> Case {
    if random.once_in(3) {
        return distance_run_case(random);
    }
    let row = random.pick(&rows_of(Family::Distances));
    distance_case(random, row)
}

/// What a state has for these lines alone: the minimum distance, the single
/// width and its cut-in, auto flip, the scale, and what was pushed so far.
pub fn set_words(random: &mut Random, state: &mut State) {
    state.min_distance = match random.below(5) {
        0 => random.between(-5, 200),
        1 => near_corner(random),
        2 => any_word(random),
        _ => 64,
    };
    state.single_width = match random.below(4) {
        0 => 0,
        1 => mixed(random),
        _ => everyday(random),
    };
    state.single_width_cut_in = match random.below(5) {
        0 => 0,
        1 => near_corner(random),
        2 => any_word(random),
        _ => random.between(0, 300),
    };
    state.auto_flip = random.flip();
    state.scale = match random.weighted(&[4, 1, 4, 1, 1]) {
        0 => UNIT,
        1 => 0,
        2 => random.between(1, 200) << 10,
        3 => near_corner(random),
        _ => any_word(random),
    };
    state.last_pushed = mixed(random);
    state.pushes = count(random);
}

/// A sheet of one line of the instruction; seldom spoilt, so that mostly the
/// line's own rule decides.
pub fn distance_case(random: &mut Random, row: &Row) -> Case {
    let opcode = random.pick(&row.picked_codes());
    let mut world = distance_world(random);
    let line = line(random, &world, opcode);
    bring_near(random, &mut world, &line);
    let start = spoil::seldom(random, &mut world, line, 90);
    let budget = spoil::budget_for_one(random);
    Case {
        call: Call::run(start, budget),
        world,
    }
}

/// A sheet of any lines, every other one of these.
pub fn distance_run_case(random: &mut Random) -> Case {
    let mut state = distance_state(random);
    if random.once_in(4) {
        state.rounding = wild_rounding(random);
    }
    run_of(random, state, |random, _| {
        if random.flip() {
            distance_code(random)
        } else {
            setter_or(random, &ALL_MOVERS)
        }
    })
}

/// Each of the four instructions as likely as the others.
fn distance_code(random: &mut Random) -> u8 {
    let row = random.pick(&rows_of(Family::Distances));
    random.pick(&row.codes().collect::<Vec<_>>())
}

fn distance_state(random: &mut Random) -> State {
    let mut state = calm_state(random, 3);
    state.wrapped_roundings = count(random);
    set_words(random, &mut state);
    state
}

/// Some points in each zone, or whatever a small world has.
fn distance_world(random: &mut Random) -> World {
    let mut state = distance_state(random);
    let is_wild = random.once_in(5);
    if is_wild {
        state.rounding = wild_rounding(random);
    }
    let mut world = small_world(random, state);
    if random.once_in(8) {
        return world;
    }
    let points = 1 + random.below(MOST_POINTS_EACH);
    let twilight_points = 1 + random.below(MOST_POINTS_EACH);
    fill_glyph(random, &mut world, points);
    fill_twilight(random, &mut world, twilight_points);
    if world.lists[CONTROL_VALUES].is_empty() && !random.once_in(8) {
        world.lists[CONTROL_VALUES] = vec![mixed(random) as u32; 2];
    }
    if is_wild {
        make_wild(random, &mut world);
    }
    bring_references_inside(random, &mut world);
    world
}

/// Numbers at the ends, so that what is measured wraps.
fn make_wild(random: &mut Random, world: &mut World) {
    if random.flip() {
        world.state.scale = UNIT;
    }
    for list in &mut world.lists[..SHEET] {
        if !random.once_in(3) {
            continue;
        }
        for word in list {
            *word = wild(random) as u32;
        }
    }
    // These two hold no coordinates.
    for list in [FLAGS, TWILIGHT_FLAGS] {
        for word in &mut world.lists[list] {
            *word &= 0xFF;
        }
    }
    for word in &mut world.lists[CONTOURS] {
        *word &= 0xFFFF;
    }
}

/// Brings the state's numbers near the place where a MDRP or MIRP turns: the
/// single width, the minimum distance or the control value near what it
/// measures.
fn bring_near(random: &mut Random, world: &mut World, line: &[i32]) {
    let (entry, point) = match (line[0], &line[2..]) {
        (0xC0..=0xDF, [point, ..]) => (None, *point),
        (0xE0..=0xFF, [entry, point, ..]) => (Some(*entry), *point),
        _ => return,
    };
    if random.flip() {
        put_on_an_axis(random, &mut world.state);
    }
    let Some(measured) = measured(world, point, entry.is_some()) else {
        return;
    };
    let near = |random: &mut Random, number: i32| {
        number.wrapping_add(random.pick(&[-1, 0, 0, 1, -64, 32]))
    };
    let state = &mut world.state;
    match random.below(5) {
        0 => {
            let apart = turned(random, state.single_width_cut_in);
            state.single_width = near(random, measured.wrapping_add(apart));
        }
        1 => state.min_distance = near(random, measured.wrapping_abs()),
        2 => state.min_distance = near(random, measured.wrapping_abs() << 1),
        _ => {
            let cut_in = random.pick(&[state.cut_in, state.cut_in, state.cut_in >> 4]);
            let apart = turned(random, cut_in);
            let signed = turned(random, measured);
            let value = near(random, signed.wrapping_add(apart));
            let values = &mut world.lists[CONTROL_VALUES];
            if let Some(word) = entry.and_then(|entry| values.get_mut(entry as usize)) {
                *word = value as u32;
            }
        }
    }
}

fn turned(random: &mut Random, number: i32) -> i32 {
    if random.flip() {
        number
    } else {
        number.wrapping_neg()
    }
}

fn put_on_an_axis(random: &mut Random, state: &mut State) {
    let axis = random.pick(&[X, Y]);
    state.vectors = along(axis, axis, axis);
}

/// What MDRP measures, or MIRP of its originals; none where a point isn't there.
fn measured(world: &World, point: i32, by_original: bool) -> Option<i32> {
    let state = &world.state;
    let [zp0, zp1, _] = state.zones;
    let point = usize::try_from(point).ok()?;
    let reference = usize::try_from(state.references[0]).ok()?;
    if by_original || zp0 == 0 || zp1 == 0 {
        let to = pair_of(world, original_of(zp1), point)?;
        let start = pair_of(world, original_of(zp0), reference)?;
        return Some(door::dual_project(state.vectors, to, start));
    }
    let to = pair_of(world, UNSCALED_X, point)?;
    let start = pair_of(world, UNSCALED_X, reference)?;
    let measured = door::dual_project(state.vectors, to, start);
    Some(door::mul(measured, state.scale))
}

fn original_of(zone: u32) -> usize {
    match zone {
        0 => TWILIGHT_ORIGINAL_X,
        _ => ORIGINAL_X,
    }
}

fn pair_of(world: &World, x: usize, index: usize) -> Option<Pair> {
    let along = |list: usize| world.lists[list].get(index).map(|word| *word as i32);
    Some((along(x)?, along(x + 1)?))
}
