//! Rows that one rule alone decides, some for each rule that random cases
//! seldom reach: take the rule away, and these rows are answered otherwise.

use crate::{
    case::Case,
    direct::Call,
    notable::{along, DIAGONAL, X, Y},
    scene::Scene,
    world::{MOST_CONTOURS, MOST_SHEET_WORDS},
};
use reference::door::{Pair, Rounding};

const MIN: i32 = i32::MIN;
const MAX: i32 = i32::MAX;
const WHOLE_RUN: Call = Call::run(0, u64::MAX);
/// Directions to move in, measured along x.
const FREEDOMS: [[i32; 2]; 4] = [X, [8192, 14189], DIAGONAL, [-16384, 0]];

pub fn turns() -> Vec<Case> {
    [
        isect_steep(),
        isect_flat(),
        isect_order(),
        iup_level(),
        sheet_limit(),
        contour_limit(),
        native_cut_in(),
        alignrp_farthest(),
        msirp_farthest(),
        mdap_farthest(),
        across_zero(),
        sloop_cap(),
        small_fdotp(),
        range_to_the_last(),
    ]
    .concat()
}

/// ISECT of a and b, each given by its two ends, into the last point.
fn isect([a0, a1]: [Pair; 2], [b0, b1]: [Pair; 2]) -> Case {
    Scene::new(&[a0, a1, b0, b1, (9, 9)])
        .sheet(&[0x0F, 5, 3, 2, 1, 0, 4])
        .case(WHOLE_RUN)
}

/// Two points, the second so far from the first, by numbers that wrap.
fn ends((x, y): Pair, (dx, dy): Pair) -> [Pair; 2] {
    [(x, y), (x.wrapping_add(dx), y.wrapping_add(dy))]
}

/// b falls by 2^31, whose negation wraps, and leans to either side.
fn isect_steep() -> Vec<Case> {
    let mut cases = Vec::new();
    for dbx in [
        0,
        1,
        -640,
        1 << 22,
        -(1 << 23),
        1 << 25,
        -0x0123_4567,
        0x0234_5678,
    ] {
        for by in [(1, 0), (3, 5), (-64, 64), (127, -1), (-5, -900), (640, 3)] {
            let a = ends((-1, 128), by);
            cases.push(isect(a, ends((-64, 900), (dbx, MIN))));
        }
    }
    cases
}

/// The same with discriminant 0 and a dot product of -2^31.
fn isect_flat() -> Vec<Case> {
    let mut cases = Vec::new();
    for day in [64, -64, 192, -320] {
        for x in [-1, 0, 63, -200] {
            let a = ends((x, 128), (0, day));
            cases.push(isect(a, ends((-64, 0), (0, MIN))));
        }
    }
    cases
}

/// Two neighbours in the order a0, a1, b0, b1, point are outside.
fn isect_order() -> Vec<Case> {
    const OUTSIDE: [Pair; 6] = [(5, 6), (6, 5), (-1, -2), (-2, 7), (7, MIN), (MAX, 5)];
    let mut cases = Vec::new();
    for first in 0..4 {
        for (place, outside) in OUTSIDE.into_iter().enumerate() {
            for pedantic in [false, true] {
                // The operands in the order of the reads, then in their own.
                let mut read = [0, 1, 2, 3, 4];
                read[first] = outside.0;
                read[first + 1] = outside.1;
                let [a0, a1, b0, b1, point] = read;
                let scene = Scene::new(&[(0, 0), (64, 64), (0, 64), (64, 0), (9, 9)])
                    .twilight(&[(1, 1); 5], &[(0, 5), (7, 9), (30, 2), (4, 40), (8, 8)])
                    .state(|state| {
                        state.pedantic = pedantic;
                        state.zones = [0, 1, 2].map(|zone| (place >> zone & 1) as u32);
                    })
                    .sheet(&[0x0F, 5, b1, b0, a1, a0, point]);
                cases.push(scene.case(WHOLE_RUN));
            }
        }
    }
    cases
}

/// References with one unscaled coordinate, their originals apart: a point
/// between the originals goes to the first, wherever its unscaled one is.
fn iup_level() -> Vec<Case> {
    let mut cases = Vec::new();
    for step in [1, -1, 7, -90, 500, 4000] {
        let both = |number| (number, number);
        let scene = Scene::new(&[20, 30, 70 + step].map(both))
            .unscaled(&[100, 100 + step, 100].map(both))
            .original(&[0, 10, 20].map(both))
            .flags(&[6, 0, 6])
            .contours(&[2]);
        cases.push(scene.case(Call::Iup { axis: 1 }));
        cases.push(scene.case(Call::Iup { axis: 2 }));
        cases.push(scene.clone().sheet(&[0x30, 0]).case(WHOLE_RUN));
        cases.push(scene.clone().sheet(&[0x31, 0]).case(WHOLE_RUN));
    }
    cases
}

/// Sheets of SVTCA[y] lines, as long as the limit and one word longer.
fn sheet_limit() -> Vec<Case> {
    let mut cases = Vec::new();
    for words in [MOST_SHEET_WORDS, MOST_SHEET_WORDS + 1] {
        let scene = Scene::new(&[(3, 4)]).sheet(&vec![0; words]);
        let end = words as u64;
        for start in [0, 2, end - 2, end - 1, end, end + 1] {
            for budget in [0, 1] {
                cases.push(scene.case(Call::run(start, budget)));
            }
        }
    }
    cases
}

/// As many contours as the limit and one more: the first has every point, and
/// no other is left any.
fn contour_limit() -> Vec<Case> {
    let mut cases = Vec::new();
    for contours in [MOST_CONTOURS, MOST_CONTOURS + 1] {
        for points in 2..5 {
            let row: Vec<Pair> = (0..points).map(|point| (point, -point)).collect();
            let mut flags = vec![0; points as usize];
            flags[0] = 6;
            let scene = Scene::new(&row)
                .original(&vec![(-9, 5); points as usize])
                .flags(&flags)
                .contours(&vec![points as u32 - 1; contours]);
            cases.push(scene.case(Call::Iup { axis: 1 }));
            cases.push(scene.case(Call::Iup { axis: 2 }));
            cases.push(scene.clone().sheet(&[0x30, 0]).case(WHOLE_RUN));
            cases.push(scene.clone().sheet(&[0x31, 0]).case(WHOLE_RUN));
        }
    }
    cases
}

/// MIAP[1] under native ClearType x: control values at a sixteenth of the
/// cut-in from the point, and one further.
fn native_cut_in() -> Vec<Case> {
    let mut cases = Vec::new();
    for cut_in in [16, 17, 31, 32, 68, 160, 1000, MAX] {
        for further in [0, 1] {
            for sign in [1, -1] {
                let scene = Scene::new(&[(7, -7)])
                    .control_values(&[7 + sign * ((cut_in >> 4) + further)])
                    .state(|state| {
                        state.native_cleartype_x = true;
                        state.cut_in = cut_in;
                    });
                cases.push(scene.sheet(&[0x3F, 2, 0, 0]).case(WHOLE_RUN));
            }
        }
    }
    cases
}

/// The distance to align is -2^31, whose negation wraps.
fn alignrp_farthest() -> Vec<Case> {
    let mut cases = Vec::new();
    for x in [0, 1, -1, 64, 1000, MAX] {
        for freedom in FREEDOMS {
            let scene = Scene::new(&[(x, 0), (x.wrapping_add(MIN), 5)])
                .state(|state| state.vectors = along(X, X, freedom));
            cases.push(scene.sheet(&[0x3C, 1, 1]).case(WHOLE_RUN));
        }
    }
    cases
}

/// The distance left to move is beyond the numbers at either end, and wraps.
fn msirp_farthest() -> Vec<Case> {
    let mut cases = Vec::new();
    for (apart, distance) in [(1, MIN), (700, MIN + 5), (-1, MAX), (-64, MAX - 9)] {
        for freedom in FREEDOMS {
            for opcode in [0x3A, 0x3B] {
                let scene = Scene::new(&[(30, 0), (30 + apart, 5)])
                    .state(|state| state.vectors = along(X, X, freedom));
                cases.push(scene.sheet(&[opcode, 2, distance, 1]).case(WHOLE_RUN));
            }
        }
    }
    cases
}

/// What a point is rounded to is so far from it that the difference wraps:
/// HalfGrid of -2^31, and phases that a rounding falls back on.
fn mdap_farthest() -> Vec<Case> {
    let mut cases = Vec::new();
    let mut push = |x: i32, freedom, rounding: Rounding| {
        let scene = Scene::new(&[(x, 5)]).state(|state| {
            state.vectors = along(X, X, freedom);
            state.rounding = rounding;
        });
        cases.push(scene.sheet(&[0x2F, 1, 0]).case(WHOLE_RUN));
    };
    let rounding = |mode, phase| Rounding {
        mode,
        threshold: 6000,
        phase,
        period: 64,
    };
    for freedom in FREEDOMS {
        push(MIN, freedom, rounding(1, 0));
    }
    for mode in [6, 7] {
        for phase in [-1000, -4097] {
            for x in [MAX, MAX - 63, MIN + 1, MIN + 70] {
                push(x, X, rounding(mode, phase));
            }
        }
    }
    cases
}

/// DoubleGrid and Up of the largest distances: what wraps below 0 is 0.
fn across_zero() -> Vec<Case> {
    let mut cases = Vec::new();
    for mode in [2, 4] {
        for below in [0, 1, 2, 3, 5, 8, 11, 13, 14, 15] {
            for vector in [X, Y] {
                let scene = Scene::new(&[(MAX - below, MAX - below)]).state(|state| {
                    state.vectors = along(vector, vector, vector);
                    state.rounding.mode = mode;
                });
                cases.push(scene.sheet(&[0x2F, 1, 0]).case(WHOLE_RUN));
            }
        }
    }
    cases
}

/// SLOOP around its cap and far above it.
fn sloop_cap() -> Vec<Case> {
    const COUNTS: [i32; 12] = [
        65_534,
        65_535,
        65_536,
        65_537,
        70_000,
        131_071,
        131_072,
        1 << 20,
        1 << 24,
        1 << 30,
        MAX - 1,
        MAX,
    ];
    let mut cases = Vec::new();
    for count in COUNTS {
        for before in [0, 5] {
            let scene = Scene::new(&[]).state(|state| state.loop_counter = before);
            cases.push(scene.sheet(&[0x17, 1, count]).case(WHOLE_RUN));
        }
    }
    cases
}

/// Moves by an fdotp of 0x3FF, which is replaced, and of 0x400 and 0x401,
/// which aren't, of both signs: MDAP[1], MIAP[0], MSIRP, ALIGNRP and SHP.
fn small_fdotp() -> Vec<Case> {
    const LINES: [&[i32]; 5] = [
        &[0x2F, 1, 1],
        &[0x3E, 2, 0, 1],
        &[0x3A, 2, 70, 1],
        &[0x3C, 1, 1],
        &[0x33, 1, 1],
    ];
    let mut cases = Vec::new();
    for fdotp in [0x3FF, 0x400, 0x401, -0x3FF, -0x400, -0x401] {
        for other in [0, 16000] {
            for line in LINES {
                let scene = Scene::new(&[(3, 4), (41, -90)])
                    .original(&[(-9, 2), (30, -80)])
                    .control_values(&[100])
                    .state(|state| state.vectors = along(X, X, [fdotp, other]));
                cases.push(scene.sheet(line).case(WHOLE_RUN));
            }
        }
    }
    cases
}

/// Range flips up to -1 and -2, before and after both IUPs, with the low point
/// and without: after them -1 alone is refused, and 6 comes before that.
fn range_to_the_last() -> Vec<Case> {
    let mut cases = Vec::new();
    for opcode in [0x81, 0x82] {
        for after_both in [false, true] {
            for high in [-1, -2] {
                let scene = Scene::new(&[(3, 4), (41, -90), (7, 7)])
                    .flags(&[1, 6, 0xF9])
                    .state(|state| {
                        state.backward_compatibility = true;
                        state.x_interpolated = true;
                        state.y_interpolated = after_both;
                    });
                for low in [0, 1, 2, 3, -1, -2, MIN, MAX] {
                    let line = [opcode, 2, high, low];
                    cases.push(scene.clone().sheet(&line).case(WHOLE_RUN));
                }
                for pedantic in [false, true] {
                    let one = scene.clone().state(|state| state.pedantic = pedantic);
                    cases.push(one.sheet(&[opcode, 1, high]).case(WHOLE_RUN));
                }
            }
        }
    }
    cases
}
