//! Direct calls on lists that don't fit: each list that a call takes, and each
//! pair of them, too long or too short by one; and sizes at the limit and one
//! above it, of all that a call takes and of each list alone.

use super::{
    calls::{every_call, leave_out_what_no_direct_call_takes, zone_call},
    spoil,
    states::{make_unsound, sound_state},
    worlds::{fill_glyph, fill_twilight, small_world},
};
use crate::{case::Case, direct::Call, random::Random, world::*};

const POINTS: usize = 3;

/// Every call with every list and every pair of lists that it takes of a zone,
/// at a point that all have, that the shorter lack, and that the longer have.
pub fn every_length(random: &mut Random) -> Vec<Case> {
    let mut cases = Vec::new();
    for index in [POINTS - 2, POINTS - 1, POINTS] {
        for call in every_call(random, index as u64) {
            for zone in 0..2 {
                for misfit in misfits(&call.takes_of(zone)) {
                    let mut world = peopled(random, index as u64);
                    for (list, length) in misfit {
                        world.lists[list].resize(length, 0);
                    }
                    cases.push(Case { call, world });
                }
            }
        }
    }
    cases
}

/// Every call at the limit of points and one above it.
pub fn every_limit(random: &mut Random) -> Vec<Case> {
    let mut cases = Vec::new();
    for index in [MOST_POINTS - 1, MOST_POINTS] {
        for call in every_call(random, index as u64) {
            for zone in 0..2 {
                for lengths in limits(&call.takes_of(zone)) {
                    let mut world = peopled(random, index as u64);
                    for (list, length) in lengths {
                        // Words all alike take no room in a file.
                        world.lists[list] = vec![random.next() as u32 & 7; length];
                    }
                    cases.push(Case { call, world });
                }
            }
        }
    }
    cases
}

/// Any call with one to three lists too long or too short, whether it takes
/// them or not; now and then with a state that is refused.
pub fn length_case(random: &mut Random) -> Case {
    let state = sound_state(random);
    let mut world = small_world(random, state);
    leave_out_what_no_direct_call_takes(&mut world);
    let axis = 1 + random.below(2) as u32;
    let call = match random.below(8) {
        0 => Call::Iup { axis },
        _ => zone_call(random, &world),
    };
    for _ in 0..1 + random.below(3) {
        spoil::some_length(random, &mut world);
    }
    if random.once_in(6) {
        make_unsound(random, &mut world.state);
    }
    Case { call, world }
}

/// A few points in either zone, and every reference at one index.
pub fn peopled(random: &mut Random, reference: u64) -> World {
    let mut world = World {
        state: sound_state(random),
        lists: Default::default(),
    };
    world.state.references = [reference; 3];
    fill_glyph(random, &mut world, POINTS);
    fill_twilight(random, &mut world, POINTS);
    world
}

type Lengths = Vec<(usize, usize)>;

/// Each list alone and each pair, longer and shorter by one.
fn misfits(lists: &[usize]) -> Vec<Lengths> {
    const NEAR: [usize; 2] = [POINTS + 1, POINTS - 1];
    let mut misfits = Vec::new();
    for (place, list) in lists.iter().enumerate() {
        for length in NEAR {
            misfits.push(vec![(*list, length)]);
            for other in &lists[place + 1..] {
                misfits.extend(NEAR.map(|second| vec![(*list, length), (*other, second)]));
            }
        }
    }
    misfits
}

/// All lists at the limit, all above it, and each alone above it.
fn limits(lists: &[usize]) -> Vec<Lengths> {
    let all = |length| lists.iter().map(move |list| (*list, length)).collect();
    let alone = |above: &usize| {
        let length_of = |list| MOST_POINTS + usize::from(list == *above);
        lists.iter().map(|list| (*list, length_of(*list))).collect()
    };
    match lists {
        [] => Vec::new(),
        [_] => vec![all(MOST_POINTS), all(MOST_POINTS + 1)],
        _ => [all(MOST_POINTS), all(MOST_POINTS + 1)]
            .into_iter()
            .chain(lists.iter().map(alone))
            .collect(),
    }
}
