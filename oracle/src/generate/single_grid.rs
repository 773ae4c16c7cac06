//! IP, ALIGNPTS and UTP of document 02 at the numbers and states where they turn,
//! at each place of their order of refusals, and behind and before other lines.

use super::{far::FAR, rules::under_both};
use crate::{
    case::Case,
    direct::Call,
    notable::{along, DIAGONAL, NOWHERE, X, Y},
    rules,
    scene::Scene,
    world::*,
};
use reference::door::{Pair, State};

const MIN: i32 = i32::MIN;
const MAX: i32 = i32::MAX;
const IP: i32 = 0x39;
const ALIGNPTS: i32 = 0x27;
const UTP: i32 = 0x29;
const WHOLE_RUN: Call = Call::run(0, u64::MAX);
const STEEP: [i32; 2] = [8192, 14189];
const LEFT: [i32; 2] = [-0x4000, 0];
const DOWN: [i32; 2] = [0, -0x4000];

/// Projection, dual vector and freedom: along the axes and between them, each apart
/// from the others, nowhere, and with a dot product so small that it is replaced.
const DIRECTIONS: [[[i32; 2]; 3]; 16] = [
    [X, X, X],
    [Y, Y, Y],
    [DIAGONAL, DIAGONAL, DIAGONAL],
    [X, Y, X],
    [Y, X, Y],
    [X, STEEP, X],
    [STEEP, X, STEEP],
    [X, X, STEEP],
    [Y, DIAGONAL, X],
    [STEEP, DOWN, Y],
    [LEFT, LEFT, LEFT],
    [DOWN, STEEP, DIAGONAL],
    [X, NOWHERE, X],
    [NOWHERE, X, DIAGONAL],
    [X, STEEP, NOWHERE],
    [X, Y, [0x3FF, 16000]],
];
/// Those that most lines are tried in.
const FEW_DIRECTIONS: [[[i32; 2]; 3]; 5] = [
    DIRECTIONS[0],
    DIRECTIONS[1],
    DIRECTIONS[6],
    DIRECTIONS[9],
    DIRECTIONS[11],
];
/// No point of either zone of the scene, as an index and as a reference, which are
/// told apart.
const OUTSIDE: [(i32, u64); 4] = [(5, 6), (-1, 5), (MIN, 1 << 32), (MAX, u64::MAX)];
/// Freedom vectors that UTP tells apart, and some that it doesn't.
const FREEDOMS: [[i32; 2]; 12] = [
    X,
    Y,
    DIAGONAL,
    NOWHERE,
    LEFT,
    DOWN,
    [1, 0],
    [0, -1],
    [1, 0x4000],
    [0x4000, -1],
    [0x4000, 0x4000],
    STEEP,
];

/// The glyph's points in font units, as they were and as they are, and those of
/// twilight; no coordinate is like another.
const UNITS: [Pair; 5] = [
    (10, 1300),
    (250, -801),
    (-900, 77),
    (512, 640),
    (130, -1000),
];
const WAS: [Pair; 5] = [(25, 650), (110, -222), (-401, 60), (240, 320), (66, -510)];
const IS: [Pair; 5] = [(31, 700), (97, -250), (-420, 90), (260, 333), (5, -64)];
const SHADE_WAS: [Pair; 5] = [(7, 55), (203, -61), (-90, 300), (400, 12), (-33, -700)];
const SHADE_IS: [Pair; 5] = [(12, 40), (150, -33), (-128, 280), (390, 30), (0, -690)];
/// Points of the glyph and of twilight, where one zone has more.
const SIZES: [[usize; 2]; 2] = [[5, 3], [3, 5]];

/// All of them, by either of the rules, in turns that no loop keeps step with; what
/// tells the rules apart by both.
pub fn every_single() -> Vec<Case> {
    let cases = [interpolated(), aligned(), untouched(), at_entry()].concat();
    let turned = cases.into_iter().enumerate().map(|(place, case)| {
        let turn = place.count_ones() as usize % rules::ALL.len();
        case.under(rules::ALL[turn])
    });
    let read = read_behind_msirp().into_iter().flat_map(under_both);
    turned.chain(read).collect()
}

fn interpolated() -> Vec<Case> {
    [
        by_zones(),
        level_references(),
        level_points(),
        at_the_ends(),
        references_outside(),
        references_by_loop(),
        far_references(),
        points_outside(),
        by_size(),
        by_loop(),
        locked(&[IP, 2, 2, 3], 2),
        references_themselves(),
        one_behind_another(),
    ]
    .concat()
}

fn aligned() -> Vec<Case> {
    [
        aligned_by_zones(),
        halves(),
        aligned_at_the_ends(),
        aligned_outside(),
        aligned_by_size(),
        by_operands(ALIGNPTS, &[&[], &[1], &[5], &[1, 2, 3], &[5, 6, 7]]),
        locked(&[ALIGNPTS, 2, 2, 3], 1),
        with_itself(),
    ]
    .concat()
}

fn untouched() -> Vec<Case> {
    [
        by_freedom(),
        untouched_outside(),
        untouched_by_size(),
        by_operands(UTP, &[&[], &[1, 1], &[5, 5]]),
        locked(&[UTP, 1, 2], 1),
        before_iup(),
    ]
    .concat()
}

/// Five points in each zone; rp1 is the first of them, rp2 the second.
fn scene() -> Scene {
    sized(WAS.len(), SHADE_WAS.len())
}

/// The first so many of each zone.
fn sized(points: usize, twilight_points: usize) -> Scene {
    Scene::new(&IS[..points])
        .unscaled(&UNITS[..points])
        .original(&WAS[..points])
        .flags(&[1, 0, 7, 0xFC, 0xFA][..points])
        .contours(&[1, points as u32 - 1])
        .twilight(&SHADE_WAS[..twilight_points], &SHADE_IS[..twilight_points])
        .twilight_flags(&[1, 6, 0xFF, 2, 0x84][..twilight_points])
        .control_values(&[100, -45])
        .state(|state| {
            state.references = [2, 0, 1];
            state.scale = 0x8000;
        })
}

fn directed([projection, dual, freedom]: [[i32; 2]; 3]) -> impl Fn(&mut State) {
    move |state| state.vectors = along(projection, dual, freedom)
}

fn in_zones(zones: [u32; 3]) -> impl Fn(&mut State) {
    move |state| state.zones = zones
}

fn pedantic(is_pedantic: bool) -> impl Fn(&mut State) {
    move |state| state.pedantic = is_pedantic
}

fn looping(count: u32) -> impl Fn(&mut State) {
    move |state| state.loop_counter = count
}

fn referring(rp1: u64, rp2: u64) -> impl Fn(&mut State) {
    move |state| (state.references[1], state.references[2]) = (rp1, rp2)
}

/// Every combination of the three pointers.
fn all_zones() -> impl Iterator<Item = [u32; 3]> {
    (0..8).map(|bits| [bits & 1, bits >> 1 & 1, bits >> 2])
}

fn run(scene: Scene, sheet: &[i32]) -> Case {
    scene.sheet(sheet).case(WHOLE_RUN)
}

/// The opcode, the count and the operands.
fn line(opcode: i32, operands: &[i32]) -> Vec<i32> {
    [&[opcode, operands.len() as i32], operands].concat()
}

/// IP of two points by each combination of zone pointers, in each direction.
fn by_zones() -> Vec<Case> {
    let mut cases = Vec::new();
    for zones in all_zones() {
        for direction in DIRECTIONS {
            let scene = scene().state(in_zones(zones)).state(directed(direction));
            cases.push(run(scene.state(looping(2)), &[IP, 2, 2, 3]));
        }
    }
    cases
}

/// References that were as far from each other as none, so that points keep what
/// they had: one place, one coordinate, one point for both; their current places
/// differ, or don't.
fn level_references() -> Vec<Case> {
    let mut cases = Vec::new();
    let was = |second: Pair| [(10, 20), second, (-75, 130), (64, 640)];
    for zones in all_zones() {
        for (second, direction) in [
            ((10, 20), DIRECTIONS[2]),
            ((10, 500), DIRECTIONS[0]),
            ((-40, 20), DIRECTIONS[1]),
            // Apart along the projection, and level by the dual vector alone.
            ((10, 500), [Y, X, Y]),
            // Level by the projection, and apart by the dual vector.
            ((10, 500), [X, Y, X]),
        ] {
            let scene = Scene::new(&[(12, 30), (99, -40), (-70, 120), (64, 660)])
                .unscaled(&was(second))
                .original(&was(second))
                .twilight(&was(second), &[(12, 30), (99, -40), (-70, 120), (64, 660)])
                .state(in_zones(zones))
                .state(directed(direction))
                .state(referring(0, 1))
                .state(looping(2));
            cases.push(run(scene, &[IP, 2, 2, 3]));
        }
        let scene = scene().state(in_zones(zones)).state(referring(1, 1));
        cases.push(run(scene.state(looping(2)), &[IP, 2, 2, 3]));
    }
    cases
}

/// Points that were level with rp1, between the references, on the second, beyond
/// either; references whose order is the one or the other, and which have come to
/// lie on one place.
fn level_points() -> Vec<Case> {
    let mut cases = Vec::new();
    for zones in [[1, 1, 1], [0, 0, 0], [1, 1, 0], [0, 1, 1]] {
        for [start, end] in [[0, 640], [640, 0], [-64, -65]] {
            for [now, then] in [[0, 700], [320, 320], [900, -13]] {
                let was: Vec<Pair> = [start, end, start, 320, end, -100, 900]
                    .iter()
                    .map(|x| (*x, 7 * x))
                    .collect();
                let mut is = was.clone();
                is[0] = (now, 5);
                is[1] = (then, 8);
                is[2].0 += 31;
                let scene = Scene::new(&is)
                    .unscaled(&was)
                    .original(&was)
                    .twilight(&was, &is)
                    .state(in_zones(zones))
                    .state(referring(0, 1))
                    .state(looping(5));
                cases.push(run(scene, &[IP, 5, 2, 3, 4, 5, 6]));
            }
        }
    }
    cases
}

/// Numbers at the ends: differences that wrap, a product far past 32 bits, and
/// ranges of one.
fn at_the_ends() -> Vec<Case> {
    let apart: [([Pair; 3], [Pair; 3]); 6] = [
        (
            [(MIN, MIN), (MAX, MAX), (0, 0)],
            [(0, 5), (64, 70), (MAX, MIN)],
        ),
        ([(0, 0), (1, 1), (MAX, MIN)], [(0, 0), (MAX, MAX), (5, 5)]),
        (
            [(0, 0), (-1, 1), (1 << 20, -77)],
            [(MIN, 0), (MAX, MIN), (MIN, MAX)],
        ),
        (
            [(MAX, 3), (MIN, 9), (-1, MIN)],
            [(1, MAX), (MIN, MIN), (MIN + 1, 0)],
        ),
        ([(0, 0), (MIN, MIN), (MIN, MAX)], [(7, 7), (7, 8), (MAX, 0)]),
        (
            [(100, -100), (1000, 1000), (12_345, -54_321)],
            [(MIN, MIN), (0, 1), (3, 3)],
        ),
    ];
    let mut cases = Vec::new();
    for zones in [[1, 1, 1], [0, 0, 0], [1, 0, 1]] {
        for (was, is) in apart {
            for direction in FEW_DIRECTIONS {
                let scene = Scene::new(&is)
                    .unscaled(&was)
                    .original(&was)
                    .twilight(&was, &is)
                    .state(in_zones(zones))
                    .state(directed(direction))
                    .state(referring(0, 1));
                cases.push(run(scene, &[IP, 1, 2]));
            }
        }
    }
    cases
}

/// One reference or both outside, pedantic or not, with points that are there, with
/// one that isn't, with too few and with none; a line that is done comes after it.
fn references_outside() -> Vec<Case> {
    let operands: [&[i32]; 4] = [&[2, 3], &[3, 5], &[2], &[]];
    let mut cases = Vec::new();
    for (place, zones) in all_zones().enumerate() {
        for (turn, (_, far)) in OUTSIDE.into_iter().enumerate() {
            for (rp1, rp2) in [(far, 1), (0, far), (far, far.wrapping_add(1))] {
                for is_pedantic in [false, true] {
                    let scene = scene()
                        .state(in_zones(zones))
                        .state(pedantic(is_pedantic))
                        .state(referring(rp1, rp2))
                        .state(looping(2));
                    let given = operands[(place + turn + cases.len() / 6) % operands.len()];
                    let good = [0x11, 1, 0, 0x12, 1, 1, IP, 1, 2];
                    let sheet = [&line(IP, given)[..], &good].concat();
                    cases.push(run(scene, &sheet));
                }
            }
        }
    }
    cases
}

/// A reference outside with each kind of loop counter, which is 1 afterwards, given
/// no point or one.
fn references_by_loop() -> Vec<Case> {
    let mut cases = Vec::new();
    for count in [0, 1, 2, 3, 65_535, u32::MAX] {
        for (rp1, rp2) in [(9, 1), (0, 9)] {
            for is_pedantic in [false, true] {
                for given in [&[][..], &[2]] {
                    let scene = scene()
                        .state(pedantic(is_pedantic))
                        .state(referring(rp1, rp2))
                        .state(looping(count));
                    cases.push(run(scene, &line(IP, given)));
                }
            }
        }
    }
    cases
}

/// References whose low 32 bits alone are a point: the first, the second, both.
fn far_references() -> Vec<Case> {
    let mut cases = Vec::new();
    for zones in [[1, 1, 1], [0, 1, 1], [1, 0, 0]] {
        for far in FAR {
            for (rp1, rp2) in [(far, 1), (0, far + 1), (far, far + 1)] {
                let scene = scene()
                    .state(in_zones(zones))
                    .state(pedantic(cases.len() % 2 == 1))
                    .state(referring(rp1, rp2));
                cases.push(run(scene, &[IP, 1, 2]));
            }
        }
    }
    cases
}

/// One of three points outside, or all of them, pedantic or not.
fn points_outside() -> Vec<Case> {
    let mut cases = Vec::new();
    for zones in all_zones() {
        for is_pedantic in [false, true] {
            for bad in 0..5 {
                let mut points = [2, 3, 4];
                let (far, _) = OUTSIDE[cases.len() / 3 % OUTSIDE.len()];
                match bad {
                    3 => points = [far; 3],
                    // The first is done twice, from where it was left.
                    4 => points = [4, far, 4],
                    _ => points[bad] = far,
                }
                let scene = scene()
                    .state(in_zones(zones))
                    .state(pedantic(is_pedantic))
                    .state(looping(3));
                cases.push(run(scene, &line(IP, &points)));
            }
        }
    }
    cases
}

/// Point 3 as the one reference, the other and the point, which one zone has and
/// the other lacks.
fn by_size() -> Vec<Case> {
    let mut cases = Vec::new();
    for [points, twilight_points] in SIZES {
        for zones in all_zones() {
            for (rp1, rp2, point) in [(3, 1, 2), (0, 3, 2), (0, 1, 3)] {
                for is_pedantic in [false, true] {
                    let scene = sized(points, twilight_points)
                        .state(in_zones(zones))
                        .state(pedantic(is_pedantic))
                        .state(referring(rp1, rp2));
                    cases.push(run(scene, &[IP, 1, point]));
                }
            }
        }
    }
    cases
}

/// Each kind of loop counter with each number of operands; the counter of the line
/// behind it is 1.
fn by_loop() -> Vec<Case> {
    let mut cases = Vec::new();
    for count in [0, 1, 2, 3, 65_535, 65_536, u32::MAX] {
        for given in 0..5 {
            for is_pedantic in [false, true] {
                let scene = scene()
                    .state(looping(count))
                    .state(pedantic(is_pedantic))
                    .state(in_zones([1, 1, u32::from(given != 1)]));
                let points = &[2, 3, 4, 2][..given];
                let sheet = [&line(IP, points)[..], &[IP, 1, 4]].concat();
                cases.push(run(scene, &sheet));
            }
        }
    }
    cases
}

/// Every combination of backward compatibility and the marks of both IUPs.
fn locked(line: &[i32], count: u32) -> Vec<Case> {
    let mut cases = Vec::new();
    for facts in 0..8 {
        for direction in [
            DIRECTIONS[0],
            DIRECTIONS[1],
            DIRECTIONS[2],
            DIRECTIONS[7],
            DIRECTIONS[9],
            DIRECTIONS[13],
        ] {
            let scene = scene()
                .state(directed(direction))
                .state(looping(count))
                .state(|state| {
                    state.backward_compatibility = facts & 1 != 0;
                    state.x_interpolated = facts & 2 != 0;
                    state.y_interpolated = facts & 4 != 0;
                    state.native_cleartype_x = facts % 3 == 0;
                });
            cases.push(run(scene, line));
        }
    }
    cases
}

/// The references among the points, the same point again, and all in one loop.
fn references_themselves() -> Vec<Case> {
    let mut cases = Vec::new();
    for zone in [0, 1] {
        for direction in [DIRECTIONS[0], DIRECTIONS[6], DIRECTIONS[7], DIRECTIONS[15]] {
            for (rp1, rp2) in [(0, 1), (1, 1)] {
                let points: [&[i32]; 4] = [&[0], &[1], &[2, 2, 2], &[1, 2, 0, 3, 1]];
                for points in points {
                    let scene = scene()
                        .state(in_zones([zone; 3]))
                        .state(directed(direction))
                        .state(referring(rp1, rp2))
                        .state(looping(points.len() as u32));
                    cases.push(run(scene, &line(IP, points)));
                }
            }
        }
    }
    // Level references, of which the second comes to lie on the first.
    for [dual, axis] in [[X, X], [Y, Y], [X, Y]] {
        let scene = Scene::new(&[(12, 30), (99, -40), (-70, 120)])
            .unscaled(&[(10, 20), (10, 20), (-75, 130)])
            .state(directed([axis, dual, axis]))
            .state(referring(0, 1))
            .state(looping(3));
        cases.push(run(scene, &[IP, 3, 1, 2, 1]));
    }
    cases
}

/// Lines whose references, pointers, counter and vectors others have set.
fn one_behind_another() -> Vec<Case> {
    let sheets: [&[i32]; 6] = [
        &[0x17, 1, 3, IP, 3, 2, 3, 4, IP, 1, 2],
        &[0x11, 1, 4, 0x12, 1, 0, IP, 1, 2, 0x11, 1, 1, IP, 1, 3],
        &[0x2F, 1, 0, 0x2F, 1, 1, 0x11, 1, 0, 0x12, 1, 1, IP, 1, 2],
        &[IP, 1, 2, 0x14, 1, 0, IP, 1, 2, 0x16, 1, 0, IP, 1, 3],
        &[0, 0, IP, 1, 2, 1, 0, IP, 1, 2, 0x30, 0, 0x31, 0, IP, 1, 3],
        &[ALIGNPTS, 2, 2, 3, IP, 1, 4, UTP, 1, 2, IP, 1, 2, 0x31, 0],
    ];
    let mut cases = Vec::new();
    for sheet in sheets {
        for is_compatible in [false, true] {
            let scene = scene().state(|state| state.backward_compatibility = is_compatible);
            cases.push(scene.clone().sheet(sheet).case(Call::run(0, 2)));
            cases.push(run(scene, sheet));
        }
    }
    cases
}

/// ALIGNPTS by each combination of zone pointers, in each direction.
fn aligned_by_zones() -> Vec<Case> {
    let mut cases = Vec::new();
    for zones in all_zones() {
        for direction in DIRECTIONS {
            let scene = scene().state(in_zones(zones)).state(directed(direction));
            cases.push(run(scene, &[ALIGNPTS, 2, 2, 3]));
        }
    }
    cases
}

/// Distances around 0, whose halves go toward 0.
fn halves() -> Vec<Case> {
    let mut cases = Vec::new();
    for direction in [DIRECTIONS[0], DIRECTIONS[1], DIRECTIONS[7], DIRECTIONS[10]] {
        for distance in [-65, -64, -3, -2, -1, 0, 1, 2, 3, 127] {
            let scene = Scene::new(&[(200, -90), (200 + distance, distance - 90)])
                .state(directed(direction));
            cases.push(run(scene, &[ALIGNPTS, 2, 1, 0]));
        }
    }
    cases
}

/// Points so far apart that their distance wraps.
fn aligned_at_the_ends() -> Vec<Case> {
    let apart: [[Pair; 2]; 5] = [
        [(MIN, MIN), (MAX, MAX)],
        [(MIN, 0), (0, MIN)],
        [(0, 0), (MIN, MIN)],
        [(MAX, 5), (-1, MAX)],
        [(1 << 30, -1 << 30), (-1 << 30, (1 << 30) - 1)],
    ];
    let mut cases = Vec::new();
    for points in apart {
        for direction in [FEW_DIRECTIONS.as_slice(), &[DIRECTIONS[7]]].concat() {
            for zp1 in [0, 1] {
                let scene = Scene::new(&points)
                    .twilight(&points, &points)
                    .state(in_zones([1, zp1, 1]))
                    .state(directed(direction));
                cases.push(run(scene, &[ALIGNPTS, 2, 0, 1]));
            }
        }
    }
    cases
}

/// The one point, the other or both outside, in each pair of zones, pedantic or not.
fn aligned_outside() -> Vec<Case> {
    let mut cases = Vec::new();
    for zones in [[1, 1, 0], [0, 1, 1], [1, 0, 1], [0, 0, 1]] {
        for (far, _) in OUTSIDE {
            for points in [[far, 2], [2, far], [far, far ^ 64]] {
                for is_pedantic in [false, true] {
                    // One of five is free to move nowhere, and looks all the same.
                    let direction = DIRECTIONS[if cases.len() % 5 == 0 { 14 } else { 0 }];
                    let scene = scene()
                        .state(in_zones(zones))
                        .state(pedantic(is_pedantic))
                        .state(directed(direction));
                    cases.push(run(scene, &line(ALIGNPTS, &points)));
                }
            }
        }
    }
    cases
}

/// Point 3 as the one point and the other, which one zone has and the other lacks.
fn aligned_by_size() -> Vec<Case> {
    let mut cases = Vec::new();
    for [points, twilight_points] in SIZES {
        for zones in [[1, 1, 0], [0, 1, 1], [1, 0, 1], [0, 0, 1]] {
            for operands in [[3, 2], [2, 3]] {
                for is_pedantic in [false, true] {
                    let scene = sized(points, twilight_points)
                        .state(in_zones(zones))
                        .state(pedantic(is_pedantic));
                    cases.push(run(scene, &line(ALIGNPTS, &operands)));
                }
            }
        }
    }
    cases
}

/// Each wrong number of operands, alone and behind a line that is done.
fn by_operands(opcode: i32, given: &[&[i32]]) -> Vec<Case> {
    let mut cases = Vec::new();
    for operands in given {
        for is_pedantic in [false, true] {
            for zone in [0, 1] {
                let scene = scene()
                    .state(in_zones([zone; 3]))
                    .state(pedantic(is_pedantic));
                let wrong = line(opcode, operands);
                cases.push(run(scene.clone(), &wrong));
                cases.push(run(scene, &[&[IP, 1, 2], &wrong[..]].concat()));
            }
        }
    }
    cases
}

/// A point aligned with itself, and with the point of its number in the other zone.
fn with_itself() -> Vec<Case> {
    let mut cases = Vec::new();
    for zones in [[1, 1, 1], [0, 0, 1], [0, 1, 1]] {
        for direction in FEW_DIRECTIONS {
            let scene = scene().state(in_zones(zones)).state(directed(direction));
            cases.push(run(scene, &[ALIGNPTS, 2, 3, 3]));
        }
    }
    cases
}

/// UTP by each freedom, of points touched in every way, in either zone; the
/// projection is another.
fn by_freedom() -> Vec<Case> {
    let mut cases = Vec::new();
    for freedom in FREEDOMS {
        for zone in [0, 1] {
            for flag in [0, 3, 5, 6, 7, 0xF8, 0xFF, 0xFD, 0xFA] {
                let projection = [Y, X, DIAGONAL][cases.len() % 3];
                let scene = scene()
                    .flags(&[1, flag, 7, 0xFC, 0xFA])
                    .twilight_flags(&[1, flag, 0xFF, 2, 0x84])
                    .state(in_zones([zone, 1 - zone, cases.len() as u32 % 2]))
                    .state(directed([projection, X, freedom]));
                cases.push(run(scene, &[UTP, 1, 1]));
            }
        }
    }
    cases
}

/// Points that aren't there, by some freedoms, pedantic or not.
fn untouched_outside() -> Vec<Case> {
    let mut cases = Vec::new();
    for freedom in [X, Y, DIAGONAL, NOWHERE] {
        for zone in [0, 1] {
            for point in [5, -1, MIN, MAX, 65_536] {
                for is_pedantic in [false, true] {
                    let scene = scene()
                        .state(in_zones([zone, 1, 1]))
                        .state(directed([X, X, freedom]))
                        .state(pedantic(is_pedantic));
                    cases.push(run(scene, &[UTP, 1, point, UTP, 1, 2]));
                }
            }
        }
    }
    cases
}

/// Points 2 and 3, the latter of which one zone has and the other lacks.
fn untouched_by_size() -> Vec<Case> {
    let mut cases = Vec::new();
    for [points, twilight_points] in SIZES {
        for zone in [0, 1] {
            for point in [2, 3] {
                for freedom in [X, Y, DIAGONAL] {
                    for is_pedantic in [false, true] {
                        let scene = sized(points, twilight_points)
                            .state(in_zones([zone, 1, 1]))
                            .state(directed([X, X, freedom]))
                            .state(pedantic(is_pedantic));
                        cases.push(run(scene, &[UTP, 1, point]));
                    }
                }
            }
        }
    }
    cases
}

/// Points that an IUP behind it moves, because they are touched no more.
fn before_iup() -> Vec<Case> {
    let mut cases = Vec::new();
    for freedom in [X, Y, DIAGONAL, NOWHERE] {
        for iup in [0x30, 0x31] {
            for point in [2, 3, 4] {
                let scene = scene()
                    .flags(&[7, 7, 6, 7, 7])
                    .state(directed([X, X, freedom]));
                cases.push(run(scene, &[UTP, 1, point, iup, 0]));
            }
        }
    }
    cases
}

/// A line of each at every answer that comes before it: sizes, ends, state, start,
/// a count word past the end, the budget, the sheet's end.
fn at_entry() -> Vec<Case> {
    let mut cases = Vec::new();
    for good in [&[IP, 1, 2][..], &[ALIGNPTS, 2, 2, 3], &[UTP, 1, 2]] {
        let right = scene().sheet(good);
        let length = good.len() as u64;
        for (start, budget) in [(0, 0), (0, 1), (1, 5), (length, 0), (length + 1, 1)] {
            cases.push(right.case(Call::run(start, budget)));
        }
        for ends in [&[1, 1, 4][..], &[5], &[4, 2], &[]] {
            cases.push(right.clone().contours(ends).case(WHOLE_RUN));
        }
        for list in [CURRENT_X, FLAGS, UNSCALED_X + 1, TWILIGHT_FLAGS] {
            let mut case = right.case(WHOLE_RUN);
            case.world.lists[list].pop();
            cases.push(case);
        }
        for place in [0, 3, 4] {
            let turned = right.clone();
            cases.push(
                turned
                    .state(|state| state.vectors[place] = -0x4001)
                    .case(WHOLE_RUN),
            );
        }
        let mut short = good.to_vec();
        short.pop();
        cases.push(run(scene(), &short));
        cases.push(run(scene(), &[&short[..1], &[-1]].concat()));
    }
    cases
}

/// A MSIRP into twilight, and behind it each line that reads the point that it
/// made: IP as its first reference, its second and its point, ALIGNPTS as either
/// point; UTP of it, which reads no coordinate.
fn read_behind_msirp() -> Vec<Case> {
    let readers: [([i32; 3], &[i32]); 7] = [
        ([0, 1, 1], &[0x11, 1, 1, 0x12, 1, 0, IP, 1, 2]),
        ([1, 0, 1], &[0x11, 1, 0, 0x12, 1, 1, IP, 1, 2]),
        ([1, 1, 0], &[0x11, 1, 0, 0x12, 1, 3, IP, 1, 1]),
        ([0, 0, 0], &[0x11, 1, 0, 0x12, 1, 2, IP, 1, 1]),
        ([0, 1, 1], &[ALIGNPTS, 2, 1, 2]),
        ([1, 0, 1], &[ALIGNPTS, 2, 3, 1]),
        ([0, 1, 1], &[UTP, 1, 1]),
    ];
    let mut cases = Vec::new();
    for ([zp0, zp1, zp2], reader) in readers {
        for direction in [DIRECTIONS[0], DIRECTIONS[1], DIRECTIONS[2], DIRECTIONS[7]] {
            let across = i32::from(direction != DIRECTIONS[0]);
            for turn in [&[][..], &[across, 0]] {
                let scene = scene()
                    .state(in_zones([0, 0, 1]))
                    .state(directed(direction));
                let made = [0x3B, 2, 200, 1];
                let zones = [0x13, 1, zp0, 0x14, 1, zp1, 0x15, 1, zp2];
                cases.push(run(scene, &[&made[..], &zones, turn, reader].concat()));
            }
        }
    }
    cases
}
