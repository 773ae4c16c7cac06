//! What tells the rules apart, document 02, K9: MSIRP into twilight in every way,
//! the ways that it isn't done, and lines that read what it made.

use super::{
    distances::set_words,
    runs::{run_of, setter_or, ALL_MOVERS},
    states::calm_state,
};
use crate::{
    case::Case,
    direct::Call,
    notable::{along, msirp_into_twilight, DIAGONAL, NOWHERE, X, Y},
    opcodes::{codes_of, Family},
    random::Random,
    rules,
    scene::Scene,
};
use reference::door::Pair;

const MIN: i32 = i32::MIN;
const MAX: i32 = i32::MAX;
const WHOLE_RUN: Call = Call::run(0, u64::MAX);
const MSIRP: [i32; 2] = [0x3A, 0x3B];
const STEEP: [i32; 2] = [8192, 14189];
/// Projection and freedom: along the axes, between them, apart from each other,
/// nowhere, and with a dot product so small that it is replaced.
const DIRECTIONS: [[[i32; 2]; 2]; 9] = [
    [X, X],
    [Y, Y],
    [DIAGONAL, DIAGONAL],
    [X, STEEP],
    [Y, DIAGONAL],
    [STEEP, X],
    [[-0x4000, 0], [-0x4000, 0]],
    [X, NOWHERE],
    [X, [0x3FF, 16000]],
];
/// Those that most lines are tried in.
const FEW_DIRECTIONS: [[[i32; 2]; 2]; 4] =
    [DIRECTIONS[0], DIRECTIONS[1], DIRECTIONS[2], DIRECTIONS[3]];
/// No point of either zone of the scene, as an index and as a reference, which
/// are told apart.
const OUTSIDE: [(i32, u64); 4] = [(4, 5), (-1, 4), (MIN, 1 << 32), (MAX, u64::MAX)];
/// Lines that read a point that was made before, point 1, or go by it as rp0, rp1
/// or rp2: what zp0, zp1 and zp2 are set to, and the line.
const READERS: [([i32; 3], &[i32]); 17] = [
    ([0, 0, 0], &[0x46, 1, 1]),      // GC[0]
    ([0, 0, 0], &[0x47, 1, 1]),      // GC[1]
    ([0, 0, 1], &[0x49, 2, 1, 2]),   // MD[0]
    ([0, 0, 1], &[0x4A, 2, 1, 2]),   // MD[1]
    ([1, 0, 1], &[0x4A, 2, 1, 0]),   // MD[1] across
    ([0, 1, 1], &[0xC0, 1, 2]),      // MDRP
    ([1, 0, 1], &[0xDF, 1, 1]),      // MDRP of it
    ([0, 1, 1], &[0xE4, 2, 0, 2]),   // MIRP
    ([0, 0, 1], &[0xF8, 2, 1, 3]),   // MIRP into twilight
    ([1, 0, 1], &[0x32, 1, 2]),      // SHP[0]
    ([0, 1, 1], &[0x33, 1, 0]),      // SHP[1]
    ([1, 0, 1], &[0x34, 1, 0]),      // SHC
    ([0, 1, 0], &[0x37, 1, 0]),      // SHZ
    ([0, 1, 1], &[0x3C, 1, 2]),      // ALIGNRP
    ([0, 1, 1], &[0x2F, 1, 1]),      // MDAP
    ([0, 1, 1], &[0x3F, 2, 1, 1]),   // MIAP
    ([0, 1, 1], &[0x3B, 2, -30, 0]), // MSIRP of the glyph
];

/// The case by each of the rules.
pub fn under_both(case: Case) -> Vec<Case> {
    let by = |rules| case.clone().under(rules);
    rules::ALL.map(by).to_vec()
}

/// All of them, each by both rules.
pub fn every_rule() -> Vec<Case> {
    let cases = [
        the_finding(),
        by_zones(),
        from_itself(),
        missing_operands(),
        outside(),
        locked(),
        at_the_ends(),
        one_after_another(),
        stopped_midway(),
        read_afterwards(),
    ];
    cases.concat().into_iter().flat_map(under_both).collect()
}

/// A sheet of any lines, every other one a MSIRP, mostly from a state whose zp1 is
/// the twilight zone.
pub fn rules_run_case(random: &mut Random) -> Case {
    let mut state = calm_state(random, 4);
    state.zones[1] = u32::from(random.once_in(6));
    if random.once_in(3) {
        set_words(random, &mut state);
    }
    run_of(random, state, |random, _| {
        match random.weighted(&[4, 3, 1]) {
            0 => random.pick(&MSIRP) as u8,
            1 => setter_or(random, &ALL_MOVERS),
            _ => random.pick(&codes_of(Family::Distances)),
        }
    })
}

/// Points of both zones whose originals and currents differ, four of each, rp0
/// twilight point 0, and zp0 and zp1 twilight.
fn scene() -> Scene {
    Scene::new(&[(10, 20), (300, -40), (-75, 130), (64, 640)])
        .unscaled(&[(0, 5), (31, -7), (-7, 14), (8, 60)])
        .original(&[(0, 0), (290, -64), (-64, 128), (70, 600)])
        .flags(&[1, 0, 3, 0xF8])
        .contours(&[1, 3])
        .twilight(
            &[(1000, 500), (7, 9), (-300, 64), (33, -1200)],
            &[(1100, 500), (1, 2), (-290, 70), (33, -1300)],
        )
        .control_values(&[100, -45, 700])
        .state(|state| {
            state.zones = [0, 0, 1];
            state.references = [0, 2, 1];
            state.scale = 0x2_0000;
        })
}

fn directed(scene: Scene, [projection, freedom]: [[i32; 2]; 2]) -> Scene {
    scene.state(|state| state.vectors = along(projection, projection, freedom))
}

fn between(scene: Scene, zp0: u32, zp1: u32) -> Scene {
    scene.state(|state| state.zones = [zp0, zp1, 1])
}

/// The smallest input known, by either code.
fn the_finding() -> Vec<Case> {
    let by_code = |code| {
        msirp_into_twilight()
            .sheet(&[code, 2, 64, 1])
            .case(WHOLE_RUN)
    };
    MSIRP.map(by_code).to_vec()
}

/// Each pair of zones, by each code, in each direction, both ways.
fn by_zones() -> Vec<Case> {
    let mut cases = Vec::new();
    for (zp0, zp1) in [(0, 0), (1, 0), (0, 1), (1, 1)] {
        for direction in DIRECTIONS {
            for (code, distance) in MSIRP.into_iter().flat_map(|code| [(code, 64), (code, -71)]) {
                let scene = directed(between(scene(), zp0, zp1), direction);
                cases.push(scene.sheet(&[code, 2, distance, 1]).case(WHOLE_RUN));
            }
        }
    }
    cases
}

/// rp0 is the very point; its number alone where the zones differ.
fn from_itself() -> Vec<Case> {
    let mut cases = Vec::new();
    for (zp0, zp1) in [(0, 0), (1, 0), (1, 1)] {
        for direction in DIRECTIONS {
            for code in MSIRP {
                let scene = directed(between(scene(), zp0, zp1), direction)
                    .state(|state| state.references[0] = 3);
                cases.push(scene.sheet(&[code, 2, 100, 3]).case(WHOLE_RUN));
            }
        }
    }
    cases
}

/// None, one, and one too many.
fn missing_operands() -> Vec<Case> {
    let mut cases = Vec::new();
    for code in MSIRP {
        for line in [&[code, 0][..], &[code, 1, 64], &[code, 3, 64, 1, 1]] {
            for (zp1, pedantic) in [(0, false), (0, true), (1, false), (1, true)] {
                let scene = between(scene(), 0, zp1).state(|state| state.pedantic = pedantic);
                // One that is done first, from a point that stands elsewhere.
                let sheet = [&[code, 2, 64, 2][..], line].concat();
                cases.push(scene.clone().sheet(line).case(WHOLE_RUN));
                cases.push(scene.sheet(&sheet).case(WHOLE_RUN));
            }
        }
    }
    cases
}

/// The point, rp0 or both outside; where that is passed over, a line that is done
/// comes after it.
fn outside() -> Vec<Case> {
    let mut cases = Vec::new();
    for (zp0, zp1) in [(0, 0), (1, 0), (0, 1), (1, 1)] {
        for (place, (far_point, far_reference)) in OUTSIDE.into_iter().enumerate() {
            for (point, reference) in [
                (far_point, 0),
                (1, far_reference),
                (far_point, far_reference),
            ] {
                for pedantic in [false, true] {
                    let scene = between(scene(), zp0, zp1).state(|state| {
                        state.pedantic = pedantic;
                        state.references[0] = reference;
                    });
                    let code = MSIRP[place % 2];
                    let sheet = [code, 2, 64, point, 0x10, 1, 3, code, 2, -9, 2];
                    cases.push(scene.sheet(&sheet).case(WHOLE_RUN));
                }
            }
        }
    }
    cases
}

/// Every combination of backward compatibility and the marks of both IUPs.
fn locked() -> Vec<Case> {
    let mut cases = Vec::new();
    for facts in 0..8 {
        for direction in FEW_DIRECTIONS {
            for zp0 in [0, 1] {
                let scene = directed(between(scene(), zp0, 0), direction).state(|state| {
                    state.backward_compatibility = facts & 1 != 0;
                    state.x_interpolated = facts & 2 != 0;
                    state.y_interpolated = facts & 4 != 0;
                });
                cases.push(scene.sheet(&[0x3A, 2, 90, 1]).case(WHOLE_RUN));
            }
        }
    }
    cases
}

/// Originals and distances at the ends of the numbers, so that sums wrap.
fn at_the_ends() -> Vec<Case> {
    let apart: [(Pair, Pair); 4] = [
        ((MIN, MIN), (0, 0)),
        ((MAX, MAX), (MIN, 5)),
        ((MIN + 1, MAX - 1), (MAX, -1)),
        ((0, -1), (MAX, MIN)),
    ];
    let mut cases = Vec::new();
    for (reference, own) in apart {
        for direction in FEW_DIRECTIONS {
            for distance in [MIN, MAX, MIN + 1, -1] {
                for zp0 in [0, 1] {
                    let scene = directed(between(scene(), zp0, 0), direction)
                        .original(&[reference, own, own, own])
                        .twilight(&[reference, own], &[own, reference]);
                    cases.push(scene.sheet(&[0x3A, 2, distance, 1]).case(WHOLE_RUN));
                }
            }
        }
    }
    cases
}

/// Points made one from another: the odd code makes each the next one's rp0, and
/// the first is made from the glyph or from twilight.
fn one_after_another() -> Vec<Case> {
    let mut cases = Vec::new();
    for direction in DIRECTIONS {
        for zp0 in [0, 1] {
            let scene = directed(between(scene(), zp0, 0), direction);
            for sheet in [chain(0x3B), chain(0x3A), back_and_forth()] {
                cases.push(scene.clone().sheet(&sheet).case(WHOLE_RUN));
            }
        }
    }
    cases
}

/// Each line from the point of the line before, but for the first.
fn chain(code: i32) -> Vec<i32> {
    [
        &[code, 2, 64, 1, 0x13, 1, 0][..],
        &[code, 2, -33, 2, code, 2, 500, 3],
        &[code, 2, 7, 0, code, 2, -1000, 1],
    ]
    .concat()
}

/// Into twilight, onto the glyph, and back into the same point.
fn back_and_forth() -> Vec<i32> {
    [
        &[0x3B, 2, 64, 1, 0x13, 1, 0, 0x14, 1, 1][..],
        &[0x3B, 2, -20, 2, 0x13, 1, 1, 0x14, 1, 0],
        &[0x3B, 2, 128, 1],
    ]
    .concat()
}

/// A chain of six lines that a budget stops after each of them, or that starts
/// after its first, at its end and beyond.
fn stopped_midway() -> Vec<Case> {
    let mut cases = Vec::new();
    for code in MSIRP {
        for zp0 in [0, 1] {
            let scene = between(scene(), zp0, 0).sheet(&chain(code));
            for budget in 0..=7 {
                cases.push(scene.case(Call::run(0, budget)));
            }
            for (start, budget) in [(4, 1), (4, 3), (7, 1), (7, u64::MAX), (23, 1), (24, 1)] {
                cases.push(scene.case(Call::run(start, budget)));
            }
        }
    }
    cases
}

/// A MSIRP into twilight, and behind it a line that reads the point that it made,
/// in the same direction and along an axis that is another.
fn read_afterwards() -> Vec<Case> {
    let mut cases = Vec::new();
    for ([zp0, zp1, zp2], line) in READERS {
        for direction in FEW_DIRECTIONS {
            let across = i32::from(direction != [X, X]);
            for (from, turn) in [(0, &[][..]), (1, &[]), (0, &[across, 0]), (1, &[across, 0])] {
                let scene = directed(between(scene(), from, 0), direction);
                // rp0 and rp2 are then the point, and rp1 too.
                let made = [0x3B, 2, 200, 1, 0x11, 1, 1];
                let zones = [0x13, 1, zp0, 0x14, 1, zp1, 0x15, 1, zp2];
                let sheet = [&made[..], &zones, turn, line].concat();
                cases.push(scene.sheet(&sheet).case(WHOLE_RUN));
            }
        }
    }
    cases
}
