//! The lines that set vectors and sizes: random ones, alone and among others that
//! go by what they set.

use super::{
    distances::set_words,
    ends::mended,
    runs::{run_of, setter_or, ALL_MOVERS},
    singles::{alone, peopled},
    states::calm_state,
    worlds::small_world,
};
use crate::{
    case::Case,
    opcodes::{codes_of, is_of, rows_of, Family, Row},
    random::Random,
    rules::ALL as ALL_RULES,
    world::*,
};

const MOST_POINTS_EACH: usize = 5;
const MIAP: [u8; 2] = [0x3E, 0x3F];

/// A line alone, or a run of them among others, by either of the rules.
pub fn any_setting(random: &mut Random) -> Case {
    let case = if random.flip() {
        setting_run_case(random)
    } else {
        let row = random.pick(&setting_rows());
        setting_case(random, row)
    };
    case.under(random.pick(&ALL_RULES))
}

/// Those of vectors, then those of sizes.
pub fn setting_rows() -> Vec<&'static Row> {
    [rows_of(Family::Vector), rows_of(Family::Size)].concat()
}

/// A sheet of one line of the instruction.
pub fn setting_case(random: &mut Random, row: &Row) -> Case {
    let opcode = random.pick(&row.picked_codes());
    let world = setting_world(random);
    alone(random, world, opcode)
}

/// A sheet of any lines, every other one of these, mostly with one behind it that
/// goes by what it set.
pub fn setting_run_case(random: &mut Random) -> Case {
    let mut state = calm_state(random, 6);
    if !random.once_in(3) {
        set_words(random, &mut state);
    }
    let case = run_of(random, state, |random, before| match before {
        Some(code) if is_of(code, Family::Size) && !random.once_in(4) => measurer(random),
        Some(code) if is_of(code, Family::Vector) && !random.once_in(4) => reader(random),
        _ if random.flip() => setting_code(random),
        _ => setter_or(random, &ALL_MOVERS),
    });
    mended(case)
}

/// Each instruction as likely as the others.
fn setting_code(random: &mut Random) -> u8 {
    let row = random.pick(&setting_rows());
    random.pick(&row.codes().collect::<Vec<_>>())
}

/// A line that goes by a size.
fn measurer(random: &mut Random) -> u8 {
    if random.once_in(5) {
        return random.pick(&MIAP);
    }
    random.pick(&codes_of(Family::Distances)[4..])
}

/// A line that goes by a vector.
fn reader(random: &mut Random) -> u8 {
    match random.weighted(&[3, 2, 2, 1]) {
        0 => random.pick(&ALL_MOVERS),
        1 => random.pick(&codes_of(Family::Distances)),
        2 => random.pick(&codes_of(Family::Single)),
        _ => random.pick(&codes_of(Family::Vector)),
    }
}

/// Some points in each zone, or whatever a small world has; some of them in one place.
fn setting_world(random: &mut Random) -> World {
    let mut state = calm_state(random, 3);
    set_words(random, &mut state);
    let world = small_world(random, state);
    peopled(
        random,
        world,
        MOST_POINTS_EACH,
        ORIGINAL_X,
        |random, world| {
            if random.once_in(4) {
                make_equal(random, world);
            }
        },
    )
}

/// Points that are or were on one place, or on a line along an axis.
fn make_equal(random: &mut Random, world: &mut World) {
    for x in [
        ORIGINAL_X,
        CURRENT_X,
        TWILIGHT_ORIGINAL_X,
        TWILIGHT_CURRENT_X,
    ] {
        for list in [x, x + 1] {
            if !random.once_in(3) {
                world.lists[list].fill(64);
            }
        }
    }
}
