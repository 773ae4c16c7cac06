//! The lines that set vectors and sizes, at the numbers and states where they turn,
//! at each place of their order of refusals, and before lines that go by what they
//! set.

use super::rules::under_both;
use crate::{
    case::Case,
    direct::Call,
    notable::{along, DIAGONAL, NOWHERE, X, Y},
    numbers::corners,
    rules,
    scene::Scene,
    world::*,
};
use reference::door::{Pair, State};

const MIN: i32 = i32::MIN;
const MAX: i32 = i32::MAX;
const WHOLE_RUN: Call = Call::run(0, u64::MAX);
const STEEP: [i32; 2] = [8192, 14189];
const LEFT: [i32; 2] = [-0x4000, 0];
const DOWN: [i32; 2] = [0, -0x4000];
/// SPVTL, SFVTL and SDPVTL: along the line, and across it.
const TO_LINE: [i32; 6] = [0x06, 0x07, 0x08, 0x09, 0x86, 0x87];
const SPVFS: i32 = 0x0A;
const FROM_STACK: [i32; 2] = [SPVFS, 0x0B];
const SFVTPV: i32 = 0x0E;
const SSW: i32 = 0x1F;
const SIZES: [i32; 4] = [0x1A, 0x1D, 0x1E, SSW];
const FLIPS: [i32; 2] = [0x4D, 0x4E];

/// Projection, dual vector and freedom that a line finds, no two alike in most.
const DIRECTIONS: [[[i32; 2]; 3]; 16] = [
    [X, X, X],
    [Y, Y, Y],
    [DIAGONAL, DIAGONAL, DIAGONAL],
    [X, Y, DIAGONAL],
    [Y, X, STEEP],
    [STEEP, DOWN, X],
    [DIAGONAL, STEEP, Y],
    [LEFT, X, DOWN],
    [DOWN, DIAGONAL, LEFT],
    [STEEP, LEFT, DIAGONAL],
    [NOWHERE, X, Y],
    [X, NOWHERE, STEEP],
    [STEEP, Y, NOWHERE],
    [[0x3FF, 16000], X, X],
    [[-11585, 11585], STEEP, X],
    [[14189, -8192], Y, [-1, 0x4000]],
];
/// How far the point of zp1 lies from that of zp2: along the axes and between them,
/// near them, of every length.
const APART: [Pair; 36] = [
    (64, 0),
    (-64, 0),
    (0, 64),
    (0, -64),
    (1, 0),
    (0, -1),
    (64, 64),
    (-64, 64),
    (64, -64),
    (-64, -64),
    (1, 1),
    (1, 2),
    (2, -1),
    (-1, 3),
    (3, 4),
    (-3, 4),
    (5, -12),
    (1, 1000),
    (1000, -1),
    (1, 65_535),
    (-2, 65_536),
    (100_000, 1),
    (123_456, -654_321),
    (1 << 20, 1),
    (1 << 24, (1 << 24) + 1),
    (1 << 29, 1 << 29),
    (-1 << 29, 3),
    ((1 << 30) - 1, -7),
    (0x2AAA_AAAA, 5),
    (0x5555_5555, 0x5555),
    (-0x5555_5556, 0x2AAA_AAAB),
    (16_384, 1),
    (11_585, 11_585),
    (8192, 14_189),
    (-14_189, 8192),
    (37, -91),
];
/// No point of either zone of the scene.
const OUTSIDE: [i32; 4] = [4, -1, MIN, MAX];
/// Points of the glyph and of twilight, where one zone has more.
const UNLIKE: [[usize; 2]; 2] = [[4, 2], [2, 3]];

/// The glyph's points: 0 and 2 lie on a vertical line, and lay on a level one; 0 and
/// 3 the other way round.
const UNITS: [Pair; 4] = [(10, 1300), (250, -801), (-900, 77), (512, 640)];
const WAS: [Pair; 4] = [(25, 650), (110, -222), (240, 650), (25, 320)];
const IS: [Pair; 4] = [(31, 700), (97, -250), (31, 90), (260, 700)];
/// Of twilight point 1 was where the glyph's first was, and point 2 is where that is.
const SHADE_WAS: [Pair; 3] = [(7, 55), (25, 650), (-90, 300)];
const SHADE_IS: [Pair; 3] = [(12, 40), (150, -33), (31, 700)];
const VALUES: [i32; 4] = [200, -45, 700, -64];

/// Lines that go by a vector, each moving or measuring point 2.
const READERS: [&[i32]; 17] = [
    &[0x2F, 1, 2],
    &[0x3F, 2, 2, 2],
    &[0x3E, 2, 1, 2],
    &[0x33, 1, 2],
    &[0x38, 2, 70, 2],
    &[0x3A, 2, 77, 2],
    &[0x3C, 1, 2],
    &[0x46, 1, 2],
    &[0x47, 1, 2],
    &[0x49, 2, 1, 2],
    &[0x4A, 2, 1, 2],
    &[0xCC, 1, 2],
    &[0xE4, 2, 2, 2],
    &[0x39, 1, 2],
    &[0x27, 2, 2, 1],
    &[0x29, 1, 2],
    &[0x34, 1, 0],
];
/// Lines that go by a size; rp0 is point 1.
const MEASURERS: [&[i32]; 13] = [
    &[0x3F, 2, 0, 1],
    &[0x3F, 2, 2, 2],
    &[0xC0, 1, 0],
    &[0xC4, 1, 2],
    &[0xC8, 1, 3],
    &[0xDC, 1, 2],
    &[0xCC, 1, 3],
    &[0xE0, 2, 0, 2],
    &[0xE4, 2, 0, 2],
    &[0xE8, 2, 2, 3],
    &[0xEC, 2, 2, 0],
    &[0xF8, 2, 1, 2],
    &[0xFC, 2, 0, 3],
];

/// All of them, by either of the rules, in turns that no loop keeps step with; what
/// tells the rules apart by both.
pub fn every_setting() -> Vec<Case> {
    let cases = [
        to_lines(),
        from_stack(),
        to_projection(),
        sizes(),
        flips(),
        one_behind_another(),
        at_entry(),
    ]
    .concat();
    let turned = cases.into_iter().enumerate().map(|(place, case)| {
        let turn = place.count_ones() as usize % rules::ALL.len();
        case.under(rules::ALL[turn])
    });
    let read = read_behind_msirp().into_iter().flat_map(under_both);
    turned.chain(read).collect()
}

fn to_lines() -> Vec<Case> {
    let of_each = TO_LINE.into_iter().flat_map(|opcode| {
        [
            by_zones(opcode),
            by_direction(opcode),
            equal_points(opcode),
            at_the_ends(opcode),
            points_outside(opcode),
            by_size(opcode),
            by_operands(opcode, &[&[], &[1], &[4], &[1, 0, 2]]),
            before_readers(&line(opcode, &[1, 0])),
            before_readers(&line(opcode, &[0, 2])),
        ]
        .concat()
    });
    of_each.collect()
}

fn from_stack() -> Vec<Case> {
    let of_each = FROM_STACK.into_iter().flat_map(|opcode| {
        [
            by_components(opcode),
            from_nothing(opcode),
            by_operands(opcode, &[&[], &[1], &[0], &[1, 2, 3]]),
            before_readers(&line(opcode, &[0x4000, 0])),
            before_readers(&line(opcode, &[-8192, 14_189])),
            before_readers(&line(opcode, &[11_585, 11_585])),
            before_readers(&line(opcode, &[-1, 0x4000])),
            before_readers(&line(opcode, &[-300, -0x8000])),
        ]
        .concat()
    });
    of_each.collect()
}

fn to_projection() -> Vec<Case> {
    const MORE: [[[i32; 2]; 3]; 4] = [
        [STEEP, X, Y],
        [[-14_189, 8192], Y, X],
        [[1, -0x4000], X, STEEP],
        [DOWN, DOWN, Y],
    ];
    let mut cases = by_operands(SFVTPV, &[&[0], &[1, 1]]);
    for direction in DIRECTIONS.into_iter().chain(MORE) {
        let scene = scene().state(directed(direction));
        cases.push(run(scene.clone(), &[SFVTPV, 0]));
        for reader in READERS {
            cases.push(run(scene.clone(), &[&[SFVTPV, 0], reader].concat()));
        }
    }
    cases
}

fn sizes() -> Vec<Case> {
    let of_each = SIZES.into_iter().flat_map(|opcode| {
        [
            by_corners(opcode),
            by_operands(opcode, &[&[], &[1, 2]]),
            before_measurers(opcode),
        ]
        .concat()
    });
    of_each.chain(by_scale()).collect()
}

fn flips() -> Vec<Case> {
    let of_each = FLIPS.into_iter().flat_map(|opcode| {
        [
            by_operands(opcode, &[&[0], &[1, 1]]),
            by_fact(opcode),
            before_mirp(opcode),
        ]
        .concat()
    });
    of_each.collect()
}

fn scene() -> Scene {
    sized(IS.len(), SHADE_IS.len())
}

/// The first so many of each zone; references are points of both.
fn sized(points: usize, twilight_points: usize) -> Scene {
    Scene::new(&IS[..points])
        .unscaled(&UNITS[..points])
        .original(&WAS[..points])
        .flags(&[1, 6, 0xFC, 0xFB][..points])
        .contours(&[points as u32 - 1])
        .twilight(&SHADE_WAS[..twilight_points], &SHADE_IS[..twilight_points])
        .control_values(&VALUES)
        .state(|state| {
            state.references = [1, 0, 1];
            state.scale = 0x8000;
            state.vectors = along(STEEP, DOWN, DIAGONAL);
        })
}

fn directed([projection, dual, freedom]: [[i32; 2]; 3]) -> impl Fn(&mut State) {
    move |state| state.vectors = along(projection, dual, freedom)
}

fn in_zones(zones: [u32; 3]) -> impl Fn(&mut State) {
    move |state| state.zones = zones
}

fn pedantic(is_pedantic: bool) -> impl Fn(&mut State) {
    move |state| state.pedantic = is_pedantic
}

/// Every combination of the three pointers.
fn all_zones() -> impl Iterator<Item = [u32; 3]> {
    (0..8).map(|bits| [bits & 1, bits >> 1 & 1, bits >> 2])
}

fn run(scene: Scene, sheet: &[i32]) -> Case {
    scene.sheet(sheet).case(WHOLE_RUN)
}

/// The opcode, the count and the operands.
fn line(opcode: i32, operands: &[i32]) -> Vec<i32> {
    [&[opcode, operands.len() as i32], operands].concat()
}

/// A line through points of each combination of zones, under every lock by turns.
fn by_zones(opcode: i32) -> Vec<Case> {
    let mut cases = Vec::new();
    for zones in all_zones() {
        for points in [[1, 0], [2, 0], [0, 2]] {
            let facts = cases.len();
            let scene = scene().state(in_zones(zones)).state(|state| {
                state.backward_compatibility = facts & 1 != 0;
                state.x_interpolated = facts & 2 != 0;
                state.y_interpolated = facts & 4 != 0;
                state.native_cleartype_x = facts % 3 == 0;
            });
            cases.push(run(scene, &line(opcode, &points)));
        }
    }
    cases
}

/// Lines of every direction and length; where the points were they lay in another.
fn by_direction(opcode: i32) -> Vec<Case> {
    let other = |place: usize| APART[(place * 7 + 5) % APART.len()];
    let cases = APART.into_iter().enumerate().map(|(place, (a, b))| {
        let [start, first] = [(-50, 20), (9, -3)];
        let (c, d) = other(place);
        let scene = Scene::new(&[start, (start.0 + a, start.1 + b)])
            .original(&[first, (first.0 + c, first.1 + d)])
            .state(directed(DIRECTIONS[place % DIRECTIONS.len()]));
        run(scene, &line(opcode, &[0, 1]))
    });
    cases.collect()
}

/// A point with itself, two on one place, two that were on one, two that are, and
/// one of each zone.
fn equal_points(opcode: i32) -> Vec<Case> {
    let places: [[[Pair; 2]; 2]; 5] = [
        [[(5, 7), (5, 7)], [(40, -9), (40, -9)]],
        [[(5, 7), (5, 7)], [(40, -9), (-24, 39)]],
        [[(5, 7), (69, 7)], [(40, -9), (40, -9)]],
        [[(5, 7), (5, 7)], [(40, -9), (40, 55)]],
        [[(5, 7), (5, 7)], [(40, -9), (104, -9)]],
    ];
    let mut cases = Vec::new();
    for direction in [DIRECTIONS[1], DIRECTIONS[5]] {
        for [was, is] in places {
            for zp2 in [0, 1] {
                let scene = Scene::new(&is)
                    .original(&was)
                    .twilight(&was, &is)
                    .state(in_zones([1, 1, zp2]))
                    .state(directed(direction));
                cases.push(run(scene, &line(opcode, &[0, 1])));
            }
        }
        let scene = scene().state(directed(direction));
        cases.push(run(scene, &line(opcode, &[3, 3])));
    }
    cases
}

/// Points so far apart that a difference wraps, and ones whose turned difference
/// does.
fn at_the_ends(opcode: i32) -> Vec<Case> {
    let apart: [[Pair; 2]; 9] = [
        [(MIN, MIN), (MAX, MAX)],
        [(MIN, 0), (0, MIN)],
        [(0, 0), (MIN, MIN)],
        [(MAX, 5), (-1, MAX)],
        [(1 << 30, -1 << 30), (-1 << 30, (1 << 30) - 1)],
        [(MIN, 7), (0, 7)],
        [(0, MIN), (0, 0)],
        [(MIN, 0), (0, 1)],
        [(1, MIN), (0, 0)],
    ];
    let mut cases = Vec::new();
    for points in apart {
        for operands in [[0, 1], [1, 0]] {
            let [one, other] = points;
            let scene = Scene::new(&points)
                .original(&[(other.1, one.0), (one.1, other.0)])
                .state(directed(DIRECTIONS[cases.len() % DIRECTIONS.len()]));
            cases.push(run(scene, &line(opcode, &operands)));
        }
    }
    cases
}

/// The point of zp1 outside, that of zp2, and both, in each pair of zones by turns,
/// pedantic or not; a line that is done comes after it.
fn points_outside(opcode: i32) -> Vec<Case> {
    let mut cases = Vec::new();
    for far in OUTSIDE {
        for points in [[1, far], [far, 1], [far, far ^ 64]] {
            for is_pedantic in [false, true] {
                let turn = cases.len() as u32 / 2;
                let scene = scene()
                    .state(in_zones([1, turn & 1, turn >> 1 & 1]))
                    .state(pedantic(is_pedantic));
                let sheet = [&line(opcode, &points)[..], &[opcode, 2, 0, 1]].concat();
                cases.push(run(scene, &sheet));
            }
        }
    }
    cases
}

/// A point that one zone has and the other lacks, as the one and the other.
fn by_size(opcode: i32) -> Vec<Case> {
    let mut cases = Vec::new();
    for [points, twilight_points] in UNLIKE {
        for zones in [[0, 1, 1], [1, 0, 1], [0, 1, 0], [1, 0, 0]] {
            for operands in [[2, 1], [1, 2]] {
                let scene = sized(points, twilight_points)
                    .state(in_zones(zones))
                    .state(pedantic(cases.len() % 3 == 0));
                cases.push(run(scene, &line(opcode, &operands)));
            }
        }
    }
    cases
}

/// Each wrong number of operands, pedantic or not, alone and behind a line that is
/// done.
fn by_operands(opcode: i32, given: &[&[i32]]) -> Vec<Case> {
    let mut cases = Vec::new();
    for operands in given {
        for is_pedantic in [false, true] {
            let scene = scene().state(pedantic(is_pedantic));
            let wrong = line(opcode, operands);
            if is_pedantic {
                cases.push(run(scene.clone(), &[&[0x00, 0], &wrong[..]].concat()));
            }
            cases.push(run(scene, &wrong));
        }
    }
    cases
}

/// The line, and behind it each that goes by a vector.
fn before_readers(line: &[i32]) -> Vec<Case> {
    let cases = READERS.into_iter().enumerate().map(|(place, reader)| {
        let direction = DIRECTIONS[[3, 9, 4, 14][place % 4]];
        run(scene().state(directed(direction)), &[line, reader].concat())
    });
    cases.collect()
}

/// Vectors of every size and sign, of which 16 bits each count.
fn by_components(opcode: i32) -> Vec<Case> {
    const PARTS: [i32; 13] = [
        0,
        1,
        -1,
        300,
        -0x2000,
        0x4000,
        -0x4000,
        11_585,
        0x7FFF,
        -0x8000,
        0x8000,
        0x1_0000,
        0x7FFF_C000,
    ];
    let mut cases = Vec::new();
    for y in PARTS {
        for x in PARTS {
            let turn = cases.len();
            let zones = [0, 1, 2].map(|bit| turn as u32 >> bit & 1);
            let scene = Scene::new(&[(31, 700)])
                .state(in_zones(zones))
                .state(directed(DIRECTIONS[turn / 3 % DIRECTIONS.len()]));
            cases.push(run(scene, &line(opcode, &[y, x])));
        }
    }
    cases
}

/// (0, 0), which keeps the vector that there is, from each.
fn from_nothing(opcode: i32) -> Vec<Case> {
    let mut cases = Vec::new();
    for direction in DIRECTIONS {
        for [y, x] in [[0, 0], [0x1_0000, MIN]] {
            let scene = Scene::new(&[(31, 700)]).state(directed(direction));
            cases.push(run(scene, &line(opcode, &[y, x])));
        }
    }
    cases
}

/// Each number where arithmetic turns; what was there before is another.
fn by_corners(opcode: i32) -> Vec<Case> {
    let corners = corners().into_iter().enumerate();
    let cases = corners.map(|(place, number)| {
        let scene = Scene::new(&[(31, 700)]).state(sized_before(place as i32));
        run(scene, &line(opcode, &[number]))
    });
    cases.collect()
}

/// Numbers before the line, no two alike.
fn sized_before(turn: i32) -> impl Fn(&mut State) {
    move |state| {
        state.cut_in = 60 + turn;
        state.min_distance = 777 - turn;
        state.single_width = -333 + turn;
        state.single_width_cut_in = 1111 * turn;
        state.auto_flip = turn % 2 == 0;
        state.scale = [0x8000, 0x1_0000, -0x1_2345, 3][turn as usize % 4];
        state.last_pushed = turn;
        state.pushes = 5;
    }
}

/// SSW by scales of every kind: none, one, exact halves, products past 32 bits.
fn by_scale() -> Vec<Case> {
    let scales = [
        0,
        1,
        -1,
        0x8000,
        0x1_0000,
        -0x1_0000,
        0x1_8001,
        0x4000_0000,
        -0x2000_0001,
        MAX,
        MIN,
    ];
    let mut cases = Vec::new();
    for scale in scales {
        for units in [0, 1, -1, 3, -3, 1000, 65_536, MAX, MIN] {
            let scene = Scene::new(&[(31, 700)]).state(|state| {
                state.scale = scale;
                state.single_width = 9;
            });
            cases.push(run(scene, &line(SSW, &[units])));
        }
    }
    cases
}

/// Numbers around what a line behind it measures, and that line.
fn before_measurers(opcode: i32) -> Vec<Case> {
    let numbers: [i32; 16] = [
        0, 1, -1, 16, 40, 63, 64, 65, 100, 132, 300, 700, 1000, -64, MAX, MIN,
    ];
    let mut cases = Vec::new();
    for (place, number) in numbers.into_iter().enumerate() {
        for (turn, measurer) in MEASURERS.into_iter().enumerate() {
            let axis = [X, Y][(place + turn) % 2];
            let native = (place + turn) % 5 == 0;
            let scene = scene().state(directed([axis; 3])).state(|state| {
                state.native_cleartype_x = native;
                state.scale = 0x6000;
                // SSW is seen by its cut-in, and SSWCI by the width; in the others' way is none.
                state.single_width = 333;
                state.single_width_cut_in = if opcode == SSW { 400 } else { 0 };
                state.cut_in = 150;
                state.auto_flip = turn % 2 == 0;
            });
            let sheet = [&line(opcode, &[number])[..], measurer].concat();
            cases.push(run(scene, &sheet));
        }
    }
    cases
}

/// Auto flip on and off before it, all else anything.
fn by_fact(opcode: i32) -> Vec<Case> {
    let cases = (0..16).map(|turn| {
        let scene = Scene::new(&[(31, 700)])
            .state(sized_before(turn))
            .state(directed(DIRECTIONS[turn as usize]));
        run(scene, &[opcode, 0])
    });
    cases.collect()
}

/// Each MIRP behind it, with control values and distances of both signs; auto flip
/// was the other way, but for a few.
fn before_mirp(opcode: i32) -> Vec<Case> {
    let mut cases = Vec::new();
    for code in 0xE0..=0xFF {
        for turn in 0..11 {
            let (entry, point) = (turn % 4, [2, 3, 0][turn as usize % 3]);
            let axis = [X, Y][cases.len() % 2];
            let scene = scene().state(directed([axis; 3])).state(|state| {
                state.auto_flip = (opcode == FLIPS[1]) != (turn == 10);
                state.cut_in = [68, 500, 2000][turn as usize / 4];
            });
            cases.push(run(scene, &[opcode, 0, code, 2, entry, point]));
        }
    }
    cases
}

/// Lines that set one thing after another, and lines between and behind them.
fn one_behind_another() -> Vec<Case> {
    let sheets: [&[i32]; 14] = [
        // A vector set by the one is read by the next.
        &[0x06, 2, 1, 0, SFVTPV, 0, 0x2F, 1, 2],
        &[0x86, 2, 1, 0, SFVTPV, 0, 0x4A, 2, 1, 2, 0xC4, 1, 2],
        &[0x87, 2, 0, 2, SPVFS, 2, 0, 0, 0x47, 1, 1],
        &[SPVFS, 2, 8192, 14_189, SFVTPV, 0, 0x3C, 1, 3],
        &[0x08, 2, 3, 1, 0x06, 2, 2, 1, 0x3A, 2, 64, 2],
        // A point moved between two of them turns the second.
        &[0x06, 2, 1, 0, 0x2F, 1, 0, 0x06, 2, 1, 0, 0x2F, 1, 1],
        &[
            0x09, 2, 1, 3, 0x38, 2, 200, 3, 0x09, 2, 1, 3, 0x38, 2, 64, 1,
        ],
        &[0x86, 2, 3, 0, 0x2F, 1, 3, 0x87, 2, 3, 0, 0x46, 1, 3],
        // Back to an axis.
        &[0x07, 2, 1, 0, 0x01, 0, 0x2F, 1, 2, SFVTPV, 0, 0x2F, 1, 3],
        &[
            0x16, 1, 0, 0x06, 2, 1, 0, 0x14, 1, 1, 0x08, 2, 1, 3, 0x2F, 1, 2,
        ],
        // A size set again.
        &[0x1A, 1, 200, 0xC8, 1, 3, 0x1A, 1, 0, 0xC8, 1, 2],
        &[
            SSW, 1, 900, 0x1E, 1, 500, 0xC0, 1, 3, 0x1E, 1, 0, 0xC0, 1, 2,
        ],
        &[0x4E, 0, 0xE0, 2, 3, 2, 0x4D, 0, 0xE0, 2, 3, 3],
        &[0x1D, 1, 0, 0x3F, 2, 2, 2, 0x1D, 1, MAX, 0x3F, 2, 2, 3],
    ];
    let mut cases = Vec::new();
    for sheet in sheets {
        for is_compatible in [false, true] {
            let scene = scene()
                .state(directed([X; 3]))
                .state(|state| state.backward_compatibility = is_compatible);
            for budget in [1, 2, 3] {
                cases.push(scene.clone().sheet(sheet).case(Call::run(0, budget)));
            }
            cases.push(run(scene, sheet));
        }
    }
    cases
}

/// A line of each at every answer that comes before it: sizes, ends, state, start,
/// a count word past the end, the budget, the sheet's end.
fn at_entry() -> Vec<Case> {
    let mut lines: Vec<Vec<i32>> = Vec::new();
    lines.extend([0x06, 0x09, 0x87].map(|opcode| line(opcode, &[1, 0])));
    lines.extend(FROM_STACK.map(|opcode| line(opcode, &[8192, 14_189])));
    lines.extend(SIZES.map(|opcode| line(opcode, &[70])));
    lines.extend([SFVTPV, FLIPS[0], FLIPS[1]].map(|opcode| line(opcode, &[])));
    let mut cases = Vec::new();
    for good in lines {
        let right = scene()
            .sheet(&good)
            .state(|state| state.auto_flip = good[0] != FLIPS[0]);
        let length = good.len() as u64;
        for (start, budget) in [(0, 0), (0, 1), (1, 5), (length, 0), (length + 1, 1)] {
            cases.push(right.case(Call::run(start, budget)));
        }
        for ends in [&[1, 1, 3][..], &[4], &[3, 2], &[]] {
            cases.push(right.clone().contours(ends).case(WHOLE_RUN));
        }
        for list in [CURRENT_X, FLAGS, UNSCALED_X + 1, TWILIGHT_FLAGS] {
            let mut case = right.case(WHOLE_RUN);
            case.world.lists[list].pop();
            cases.push(case);
        }
        for place in [0, 3, 4] {
            let turned = right.clone();
            cases.push(
                turned
                    .state(|state| state.vectors[place] = -0x4001)
                    .case(WHOLE_RUN),
            );
        }
        cases.push(run(scene(), &good[..1]));
        cases.push(run(scene(), &[good[0], good[1] + 1]));
        cases.push(run(scene(), &[good[0], -1]));
    }
    cases
}

/// A MSIRP into twilight, and behind it a line through the point that it made, as
/// the one point and the other; SDPVTL goes by where it was as well.
fn read_behind_msirp() -> Vec<Case> {
    let mut cases = Vec::new();
    for opcode in TO_LINE {
        for direction in [DIRECTIONS[0], DIRECTIONS[1], DIRECTIONS[2], DIRECTIONS[3]] {
            for ([zp1, zp2], points) in [([0, 1], [2, 1]), ([1, 0], [1, 3])] {
                let scene = scene()
                    .state(in_zones([0, 0, 1]))
                    .state(directed(direction))
                    .state(|state| state.references[0] = 2);
                let made = [0x3B, 2, 200, 1];
                let zones = [0x14, 1, zp1, 0x15, 1, zp2];
                let last = line(opcode, &points);
                cases.push(run(scene, &[&made[..], &zones, &last].concat()));
            }
        }
    }
    cases
}
