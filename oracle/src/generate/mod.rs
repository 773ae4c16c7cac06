//! Makes cases of every kind from a seed.

mod calls;
mod distance_grid;
mod distances;
mod ends;
mod far;
mod largest;
mod lengths;
mod limits;
mod lines;
mod operands;
mod rules;
mod runs;
mod selectors;
mod setting_grid;
mod settings;
mod shift_grid;
mod shifts;
mod single_grid;
mod singles;
mod spoil;
mod states;
mod turns;
mod worlds;
mod wraps;

pub use calls::{every_call, iup_case, zone_case};
pub use distance_grid::every_distance;
pub use distances::{distance_case, distance_run_case, set_words};
pub use ends::{every_end, mended};
pub use far::{far_calls, far_distances, far_references};
pub use largest::largest_faces;
pub use lengths::{every_length, every_limit, length_case};
pub use limits::{limit_cases, long_iup_case, long_iup_shift_case};
pub use lines::line_case;
pub use rules::{every_rule, rules_run_case, under_both};
pub use runs::{
    every_opcode, every_setter, run_case, runs_of_01, selector_run_case, shift_run_case,
    whole_run_of_01,
};
pub use selectors::{every_selector, rounds_by_every_selector, selector_counts};
pub use setting_grid::every_setting;
pub use settings::{setting_case, setting_rows, setting_run_case};
pub use shift_grid::{every_shift, shifts_of_nothing};
pub use shifts::shift_case;
pub use single_grid::every_single;
pub use singles::{single_case, single_run_case};
pub use turns::turns;
pub use wraps::{every_wrap, wrap_case};

use crate::{
    case::Case,
    notable,
    opcodes::{rows_of, Family, Row},
    random::Random,
    rules::ALL as ALL_RULES,
    wraps::count,
};
use distances::any_distance;
use settings::any_setting;
use singles::any_single;

/// The ends of the others are mended.
const SLOPPY_ONCE_IN: usize = 8;
/// Of any cases, those that are made of what tells the rules apart.
const RULES_ONCE_IN: usize = 20;
/// And those that are made of IP, ALIGNPTS and UTP.
const SINGLES_ONCE_IN: usize = 5;
/// And of the others those that are made of lines that set vectors and sizes.
const SETTINGS_ONCE_IN: usize = 4;

/// What no chance is left to: document 01's runs, the scenes of note, each
/// opcode, each setter, each shift, each selector and lines that round by it, the
/// limits, lists that don't fit, far indices, what one rule alone decides, each
/// kind of wrapped rounding, the largest faces, the distances, contour ends, what
/// tells the rules apart, IP, ALIGNPTS and UTP where they turn, and the lines that
/// set vectors and sizes where they do.
pub fn fixed_cases(random: &mut Random) -> Vec<Case> {
    let mut cases = runs_of_01().to_vec();
    cases.extend(notable::lines());
    cases.extend(notable::iups());
    cases.extend(every_opcode());
    cases.extend(every_setter());
    cases.extend(every_shift());
    cases.extend(every_selector());
    cases.extend(rounds_by_every_selector());
    cases.extend(selector_counts());
    cases.extend(limit_cases(random));
    cases.extend(every_length(random));
    cases.extend(every_limit(random));
    cases.extend(far_calls(random));
    cases.extend(far_references());
    cases.extend(turns());
    cases.extend(every_wrap());
    cases.extend(largest_faces());
    cases.extend(every_distance());
    cases.extend(far_distances());
    cases.extend(every_end());
    cases.extend(every_rule());
    cases.extend(every_single());
    cases.extend(every_setting());
    cases.extend(shifts_of_nothing());
    cases
}

/// Any case at all, for comparisons, coverage and searches. Its contour ends may
/// be sloppy, but seldom: such a case is refused before anything is done. Half of
/// the runs go by FreeType's rules, now and then one is rich in what tells them
/// apart, one of five is of IP, ALIGNPTS and UTP, and one of four of the rest is of
/// lines that set vectors and sizes. That is drawn aside, so that the others ask
/// what they asked before.
pub fn any_case(random: &mut Random) -> Case {
    let case = case_of_any_ends(random);
    let case = match random.once_in(SLOPPY_ONCE_IN) {
        true => case,
        false => mended(case),
    };
    let mut aside = random.aside();
    let chosen = aside.pick(&ALL_RULES);
    if aside.once_in(RULES_ONCE_IN) {
        return mended(rules_run_case(&mut aside)).under(chosen);
    }
    if aside.once_in(SINGLES_ONCE_IN) {
        return any_single(&mut aside);
    }
    match aside.once_in(SETTINGS_ONCE_IN) {
        true => any_setting(&mut aside),
        false => case.under(chosen),
    }
}

fn case_of_any_ends(random: &mut Random) -> Case {
    if random.once_in(4) {
        return any_distance(random);
    }
    let mut case = uncounted_case(random);
    case.world.state.wrapped_roundings = count(random);
    if random.once_in(3) {
        set_words(random, &mut case.world.state);
    }
    case
}

fn uncounted_case(random: &mut Random) -> Case {
    match random.weighted(&[5, 4, 8, 5, 5, 4, 1, 4, 1, 8]) {
        0 => zone_case(random),
        1 => iup_case(random),
        2 => {
            let row = any_row(random, Family::Outline);
            line_case(random, row)
        }
        3 => run_case(random),
        4 => {
            let row = any_row(random, Family::Shift);
            shift_case(random, row)
        }
        5 => shift_run_case(random),
        6 => {
            let row = any_row(random, Family::Selector);
            line_case(random, row)
        }
        7 => selector_run_case(random),
        8 => length_case(random),
        _ => wrap_case(random),
    }
}

fn any_row(random: &mut Random, family: Family) -> &'static Row {
    random.pick(&rows_of(family))
}
