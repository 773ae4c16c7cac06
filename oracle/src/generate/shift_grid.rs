//! Each shift and range flip at the operands and states where it turns.

use crate::{
    case::Case,
    direct::Call,
    notable::{along, DIAGONAL, NOWHERE, X, Y},
    numbers::corners,
    opcodes::{codes_of, Family},
    scene::Scene,
};
use reference::door::State;

/// Backward compatibility, and the marks of both IUPs: none, the first, all.
const LOCKS: [(bool, bool); 3] = [(false, false), (true, false), (true, true)];
const FREEDOMS: [[i32; 2]; 6] = [X, Y, DIAGONAL, NOWHERE, [-0x4000, 0], [0, -0x4000]];
const ENDS: [&[u32]; 7] = [
    &[2, 5],
    &[],
    &[6],
    &[2, 7],
    &[5, 2],
    &[2, 2, 65535],
    &[9, 3],
];
const POINTS: i32 = 7;

/// All of them.
pub fn every_shift() -> Vec<Case> {
    let mut scenes = contours_by_number();
    scenes.extend(contours_by_ends());
    scenes.extend(contours_by_reference());
    scenes.extend(zones_by_number());
    scenes.extend(zones_by_ends());
    scenes.extend(pixels_by_loop());
    scenes.extend(pixels_by_lock());
    scenes.extend(pixels_by_amount());
    scenes.extend(ranges());
    scenes.extend(counts());
    let run = Call::run(0, 1);
    scenes.iter().map(|scene| scene.case(run)).collect()
}

/// SHC of twilight's contour where twilight has no points, with freedom (0, 0), which
/// chance seldom makes.
pub fn shifts_of_nothing() -> Vec<Case> {
    let scenes = [0x34, 0x35].map(|opcode| {
        Scene::new(&[(5, 7)])
            .contours(&[0])
            .state(|state| {
                state.zones = [1, 1, 0];
                state.vectors = along(X, X, NOWHERE);
            })
            .sheet(&[opcode, 1, 0])
    });
    scenes.map(|scene| scene.case(Call::run(0, 1))).to_vec()
}

/// Two contours of three points and a point after them; three twilight points.
/// Reference point 1 and 4, and twilight point 1, have been moved.
fn scene() -> Scene {
    let was = [
        (0, 0),
        (60, 0),
        (64, 64),
        (10, 20),
        (30, 40),
        (50, 60),
        (7, 7),
    ];
    let mut is = was;
    is[1] = (75, -20);
    is[4] = (21, 83);
    Scene::new(&is)
        .original(&was)
        .flags(&[1, 0, 1, 0, 3, 4, 0xF8])
        .contours(ENDS[0])
        .twilight(&[(0, 0), (5, 5), (9, 9)], &[(3, 4), (25, 36), (9, 9)])
        .state(|state| state.references = [0, 1, 4])
}

fn lock((compatible, both_marks): (bool, bool)) -> impl Fn(&mut State) {
    move |state| {
        state.backward_compatibility = compatible;
        state.x_interpolated = both_marks;
        state.y_interpolated = both_marks;
    }
}

/// SHC's operand in and out of range, in both zones, pedantic or not.
fn contours_by_number() -> Vec<Scene> {
    let mut scenes = Vec::new();
    for zone in [0, 1] {
        for pedantic in [false, true] {
            for contour in [0, 1, 2, 3, -1, i32::MIN, i32::MAX] {
                scenes.push(
                    scene()
                        .state(|state| {
                            state.zones = [1, 1, zone];
                            state.pedantic = pedantic;
                        })
                        .sheet(&[0x34 + contour.rem_euclid(2), 1, contour]),
                );
            }
        }
    }
    scenes
}

/// SHC with ends in order, none, above n and out of order, by each freedom.
fn contours_by_ends() -> Vec<Scene> {
    let mut scenes = Vec::new();
    for ends in ENDS {
        for contour in 0..ends.len() as i32 {
            for freedom in [DIAGONAL, NOWHERE] {
                scenes.push(
                    scene()
                        .contours(ends)
                        .state(|state| state.vectors = along(X, X, freedom))
                        .sheet(&[0x34, 1, contour]),
                );
            }
        }
    }
    scenes
}

/// SHC and SHZ with the reference inside and outside what is shifted, in
/// either zone, under each lock.
fn contours_by_reference() -> Vec<Scene> {
    let mut scenes = Vec::new();
    for (line, locks) in [([0x35, 1, 0], LOCKS), ([0x37, 1, 1], LOCKS)] {
        for (zp0, zp2) in [(1, 1), (1, 0), (0, 1), (0, 0)] {
            for reference in [1, 4, 7, u64::MAX] {
                let lock = lock(locks[reference as usize % 3]);
                scenes.push(
                    scene()
                        .state(|state| {
                            lock(state);
                            state.vectors = along(Y, Y, DIAGONAL);
                            state.zones = [zp0, 1, zp2];
                            state.references[1] = reference;
                        })
                        .sheet(&line),
                );
            }
        }
    }
    scenes
}

/// SHZ's operand against the zone of zp2, with a good and a bad reference.
fn zones_by_number() -> Vec<Scene> {
    let mut scenes = Vec::new();
    for zone in [0, 1] {
        for operand in [0, 1, 2, -1, i32::MIN, i32::MAX] {
            for reference in [4, 9] {
                scenes.push(
                    scene()
                        .state(|state| {
                            state.zones = [1, 1, zone];
                            state.references[2] = reference;
                        })
                        .sheet(&[0x36, 1, operand]),
                );
            }
        }
    }
    scenes
}

/// SHZ by the last contour's end, by each freedom, free and locked.
fn zones_by_ends() -> Vec<Scene> {
    let mut scenes = Vec::new();
    for ends in ENDS {
        for (freedom, locks) in [(X, LOCKS[1]), (DIAGONAL, LOCKS[0]), (NOWHERE, LOCKS[0])] {
            let lock = lock(locks);
            scenes.push(
                scene()
                    .contours(ends)
                    .state(|state| {
                        lock(state);
                        state.vectors = along(X, X, freedom);
                    })
                    .sheet(&[0x36, 1, 1]),
            );
        }
    }
    scenes
}

/// SHPIX by the loop counter, with too few operands, all of them and a bad one.
fn pixels_by_loop() -> Vec<Scene> {
    let lines: [&[i32]; 6] = [
        &[0x38, 0],
        &[0x38, 1, 64],
        &[0x38, 2, 64, 0],
        &[0x38, 3, 64, 0, 7],
        &[0x38, 4, 64, 0, 1, 2],
        &[0x38, 5, 64, 0, 1, 2, 3],
    ];
    let mut scenes = Vec::new();
    for loop_counter in [0, 1, 3, 65_535, u32::MAX] {
        for line in lines {
            let looped = scene().state(|state| state.loop_counter = loop_counter);
            scenes.push(looped.sheet(line));
        }
    }
    scenes
}

/// SHPIX by each freedom under each lock, its operands good, bad and missing.
fn pixels_by_lock() -> Vec<Scene> {
    let mut scenes = Vec::new();
    for freedom in FREEDOMS {
        for locks in LOCKS {
            for line in [&[0x38, 2, 100, 3][..], &[0x38, 2, 100, -1], &[0x38, 0]] {
                let lock = lock(locks);
                scenes.push(
                    scene()
                        .state(|state| {
                            lock(state);
                            state.vectors = along(X, X, freedom);
                        })
                        .sheet(line),
                );
            }
        }
    }
    scenes
}

/// SHPIX by amounts at the corners of the numbers.
fn pixels_by_amount() -> Vec<Scene> {
    corners()
        .iter()
        .map(|amount| {
            scene()
                .state(|state| state.vectors = along(X, X, DIAGONAL))
                .sheet(&[0x38, 2, *amount, 3])
        })
        .collect()
}

/// Range flips around where a range is empty, full or outside.
fn ranges() -> Vec<Scene> {
    let ranges = [
        [0, 0],
        [3, 3],
        [5, 2],
        [2, 3],
        [2, 4],
        [2, 5],
        [POINTS - 1, 0],
        [POINTS - 1, POINTS],
        [POINTS - 1, POINTS + 1],
        [POINTS, 0],
        [POINTS, POINTS],
        [-1, 0],
        [-1, -1],
        [-2, 0],
        [-2, -1],
        [3, -1],
        [i32::MAX, i32::MIN],
    ];
    let mut scenes = Vec::new();
    for opcode in [0x81, 0x82] {
        for [high, low] in ranges {
            for locks in [LOCKS[0], LOCKS[2]] {
                let locked = scene().state(lock(locks));
                scenes.push(locked.sheet(&[opcode, 2, high, low]));
            }
        }
    }
    scenes
}

/// Each opcode with no operand, one, and one more than it takes.
fn counts() -> Vec<Scene> {
    let mut scenes = Vec::new();
    for opcode in codes_of(Family::Shift).into_iter().map(i32::from) {
        let lines = [
            vec![opcode, 0],
            vec![opcode, 1, 9],
            vec![opcode, 2, 1, 1],
            vec![opcode, 3, 1, 1, 1],
        ];
        for line in lines {
            scenes.push(scene().sheet(&line));
        }
    }
    scenes
}
