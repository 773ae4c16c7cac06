//! IP, ALIGNPTS and UTP of document 02: random lines, alone and among others.

use super::{
    distances::set_words,
    ends::mended,
    operands::line,
    runs::{run_of, setter_or, ALL_MOVERS},
    spoil,
    states::calm_state,
    worlds::{bring_references_inside, fill_glyph, fill_twilight, small_world},
};
use crate::{
    case::Case,
    direct::Call,
    opcodes::{codes_of, rows_of, Family, Row},
    random::Random,
    rules::ALL as ALL_RULES,
    world::*,
    wraps::wild,
};

const MOST_POINTS_EACH: usize = 6;
const MSIRP: [u8; 2] = [0x3A, 0x3B];
const IUP: [u8; 2] = [0x30, 0x31];

/// A line alone, or a run of them among others, by either of the rules.
pub fn any_single(random: &mut Random) -> Case {
    let case = if random.once_in(3) {
        single_run_case(random)
    } else {
        let row = random.pick(&rows_of(Family::Single));
        single_case(random, row)
    };
    case.under(random.pick(&ALL_RULES))
}

/// A sheet of one line of the instruction.
pub fn single_case(random: &mut Random, row: &Row) -> Case {
    let opcode = random.pick(&row.picked_codes());
    let world = single_world(random);
    alone(random, world, opcode)
}

/// A sheet of one line; seldom spoilt, so that mostly the line's own rule decides.
pub fn alone(random: &mut Random, mut world: World, opcode: u8) -> Case {
    let line = line(random, &world, opcode);
    let start = spoil::seldom(random, &mut world, line, 90);
    let budget = random.pick(&[1, 1, 1, 1, 1, 1, 2, u64::MAX]);
    let call = Call::run(start, budget);
    let case = Case { call, world };
    if random.once_in(40) {
        return case;
    }
    mended(case)
}

/// A sheet of any lines, every other one of these; now and then a twilight point
/// is made for them, or an IUP comes behind.
pub fn single_run_case(random: &mut Random) -> Case {
    let mut state = calm_state(random, 4);
    if random.once_in(3) {
        set_words(random, &mut state);
    }
    let case = run_of(random, state, |random, _| {
        match random.weighted(&[5, 1, 1, 3]) {
            0 => random.pick(&codes_of(Family::Single)),
            1 => random.pick(&MSIRP),
            2 => random.pick(&IUP),
            _ => setter_or(random, &ALL_MOVERS),
        }
    });
    mended(case)
}

/// Some points in each zone, or whatever a small world has; of some the coordinates are level.
fn single_world(random: &mut Random) -> World {
    let state = calm_state(random, 3);
    let world = small_world(random, state);
    peopled(
        random,
        world,
        MOST_POINTS_EACH,
        UNSCALED_X,
        |random, world| {
            if random.once_in(6) {
                make_level(random, world);
            }
        },
    )
}

/// Up to so many points in each zone, now and then with coordinates at the ends from a list on, then
/// bent; once in a while the world as it is.
pub fn peopled(
    random: &mut Random,
    mut world: World,
    most: usize,
    first: usize,
    bend: impl FnOnce(&mut Random, &mut World),
) -> World {
    if random.once_in(8) {
        return world;
    }
    let points = 1 + random.below(most);
    let twilight_points = 1 + random.below(most);
    fill_glyph(random, &mut world, points);
    fill_twilight(random, &mut world, twilight_points);
    if random.once_in(4) {
        make_wild(random, &mut world, first);
    }
    bend(random, &mut world);
    bring_references_inside(random, &mut world);
    world
}

/// Coordinates at the ends, from this list of the glyph on, so that what is measured wraps.
fn make_wild(random: &mut Random, world: &mut World, first: usize) {
    let twilight = TWILIGHT_ORIGINAL_X..TWILIGHT_FLAGS;
    for list in (first..FLAGS).chain(twilight) {
        if random.flip() {
            for word in &mut world.lists[list] {
                *word = wild(random) as u32;
            }
        }
    }
}

/// Points of which some were level along an axis.
fn make_level(random: &mut Random, world: &mut World) {
    let axis = random.below(2);
    for x in [UNSCALED_X, ORIGINAL_X, TWILIGHT_ORIGINAL_X] {
        for word in &mut world.lists[x + axis] {
            *word = 64 * random.below(2) as u32;
        }
    }
}
