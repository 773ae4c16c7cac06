//! Roundings by what goes past 32 bits in them: each mode, each sign and each
//! set of operations that can go past together.

use crate::{random::Random, shadow};
use reference::door::{round_distance, with_roundings, Rounded, Rounding};
use std::collections::BTreeMap;

const MIN: i32 = i32::MIN;
const MAX: i32 = i32::MAX;
const SUPER: u32 = 6;
const SUPER45: u32 = 7;

/// So many roundings of each kind at most, far apart among those that are known.
pub fn of_each_kind(most: usize) -> Vec<Rounded> {
    let mut kinds: BTreeMap<_, Vec<Rounded>> = BTreeMap::new();
    for rounded in known() {
        let kind = (
            rounded.rounding.mode,
            rounded.distance < 0,
            shadow::passed(&rounded),
        );
        kinds.entry(kind).or_default().push(rounded);
    }
    let some = |kind: &Vec<Rounded>| {
        let count = most.min(kind.len());
        let places = (0..count).map(|number| number * kind.len() / count);
        places.map(|place| kind[place]).collect::<Vec<_>>()
    };
    kinds.values().flat_map(some).collect()
}

/// The plain modes around both ends, where what they add and negate turns, with
/// numbers that only the Super modes may mind; these at all corners.
fn known() -> Vec<Rounded> {
    let mut all = Vec::new();
    for mode in 0..SUPER {
        for from_the_end in [0, 1, 15, 16, 17, 31, 32, 33, 62, 63, 64, 65] {
            for distance in [
                MAX - from_the_end,
                MIN + from_the_end,
                from_the_end,
                -from_the_end - 1,
            ] {
                all.push(rounded(mode, [MAX, MIN, MIN], distance));
            }
        }
    }
    for mode in [SUPER, SUPER45] {
        for distance in [0, 1, 1 << 30, MAX - 1, MAX, -1, -(1 << 30), -MAX, MIN] {
            for threshold in [0, 63, -1, 1 << 30, MAX, MIN] {
                for phase in [0, 1, -1, MAX, MIN + 1, MIN] {
                    for period in [1, -1, 45, 64, -64, MAX, MIN] {
                        all.push(rounded(mode, [threshold, phase, period], distance));
                    }
                }
            }
        }
    }
    all
}

/// Roundings that don't wrap, and would if an operation counted that isn't
/// done: -2^31 negated, the period negated in Super45, the phase from 0 on.
pub fn near_misses() -> Vec<Rounded> {
    let mut all = Vec::new();
    for mode in [SUPER, SUPER45] {
        for threshold in [-1, -65, -(1 << 30), MIN] {
            for period in [1, 45, 64, MAX] {
                all.push(rounded(mode, [threshold, 0, period], MIN));
            }
        }
        for distance in [0, 1] {
            for period in [1, 2, 64] {
                all.push(rounded(mode, [-2, MIN, period], distance));
            }
        }
    }
    for distance in [0, 31, MAX, -1, -64, -MAX] {
        all.push(rounded(SUPER45, [0, 0, MIN], distance));
    }
    assert!(all.iter().all(|one| !shadow::wrapped(one)));
    all
}

/// What the Rust makes of a distance.
fn rounded(mode: u32, [threshold, phase, period]: [i32; 3], distance: i32) -> Rounded {
    let rounding = Rounding {
        mode,
        threshold,
        phase,
        period,
    };
    let (_, told) = with_roundings(|| round_distance(rounding, distance));
    told[0]
}

/// A word that is likely to go past an end, or to meet one that is.
pub fn wild(random: &mut Random) -> i32 {
    let most = random.pick(&[1, 31, 130]);
    let near = random.between(0, most);
    match random.below(8) {
        0 | 1 => MAX - near,
        2 | 3 => MIN + near,
        4 => near - 65,
        5 => random.pick(&[1 << 30, -(1 << 30)]) + near - 65,
        6 => (random.next() as i32) >> random.below(32),
        _ => random.next() as i32,
    }
}

/// A rounding that the entry tests accept, the Super modes more often, its
/// numbers wild or plain.
pub fn wild_rounding(random: &mut Random) -> Rounding {
    let mode = random.pick(&[
        0, 1, 2, 3, 4, 5, SUPER, SUPER, SUPER, SUPER45, SUPER45, SUPER45,
    ]);
    let [threshold, phase] = [(); 2].map(|_| if random.once_in(4) { 0 } else { wild(random) });
    let period = match random.below(3) {
        0 => random.pick(&[64, 45, 1, -1, 2, -64]),
        1 => random.pick(&[MIN, MAX, -MAX, 1 << 30]),
        _ => wild(random),
    };
    let period = if mode == SUPER45 && period == 0 {
        -1
    } else {
        period
    };
    Rounding {
        mode,
        threshold,
        phase,
        period,
    }
}

/// A count of wrapped roundings: mostly none, now and then a few, or at its end.
pub fn count(random: &mut Random) -> u32 {
    match random.weighted(&[10, 3, 1, 1, 1]) {
        0 => 0,
        1 => random.between(1, 5) as u32,
        2 => u32::MAX - 1,
        3 => u32::MAX,
        _ => random.next() as u32,
    }
}
