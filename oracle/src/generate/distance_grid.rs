//! GC, MD, MDRP and MIRP at the numbers and states where they turn, and the
//! kinds of wrapped roundings by the latter two.

use crate::{
    case::Case,
    direct::Call,
    notable::{along, DIAGONAL, NOWHERE, X, Y},
    scene::Scene,
    wraps::{near_misses, of_each_kind},
};
use reference::door::{Pair, Rounded, Rounding, State};
use std::ops::RangeInclusive;

const MIN: i32 = i32::MIN;
const MAX: i32 = i32::MAX;
const END: u32 = u32::MAX;
/// 1.0 in 16.16.
const UNIT: i32 = 0x1_0000;
const MDRP: RangeInclusive<i32> = 0xC0..=0xDF;
const MIRP: RangeInclusive<i32> = 0xE0..=0xFF;
/// The bit of a MDRP's or MIRP's code that asks for rounding.
const ROUNDS: i32 = 4;
/// Of the scenes that not every code needs, each has one in so many.
const BY_TURNS: usize = 3;
/// Counts of pushes, and of wrapped roundings, that a line starts from.
const COUNTS: [u32; 5] = [0, 7, END - 1, END, 1 << 31];
/// Projection and dual vector.
const DIRECTIONS: [[[i32; 2]; 2]; 8] = [
    [X, X],
    [Y, Y],
    [X, Y],
    [Y, X],
    [DIAGONAL, X],
    [Y, [8192, -14189]],
    [[-0x4000, 0], [0, -0x4000]],
    [NOWHERE, DIAGONAL],
];

/// A line at work: its scene, its operands after the opcode's word.
type Line = (Scene, Vec<i32>);

/// All of them.
pub fn every_distance() -> Vec<Case> {
    [
        coordinates(),
        distances_between(),
        relative(MDRP, direct_lines(), direct_turns()),
        relative(MIRP, indirect_lines(), indirect_turns()),
        wrapped_distances(),
    ]
    .concat()
}

fn run(scene: Scene, sheet: &[i32]) -> Case {
    scene.sheet(sheet).case(Call::run(0, 1))
}

/// Three points in each zone, no coordinate like another.
fn peopled() -> Scene {
    Scene::new(&[(31, 700), (97, -250), (-420, 90)])
        .unscaled(&[(10, 1300), (250, -801), (-900, 77)])
        .original(&[(25, 650), (110, -222), (-401, 60)])
        .twilight(
            &[(7, 55), (203, -61), (-90, 300)],
            &[(12, 40), (150, -33), (-128, 280)],
        )
        .state(|state| state.scale = 0x8000)
}

/// The same with every number at an end.
fn at_the_ends() -> Scene {
    let ends = [(MIN, MAX), (MAX, MIN), (MIN, MIN)];
    let others = [(MAX - 31, MIN + 1), (1, MAX), (MIN, 64)];
    Scene::new(&ends)
        .unscaled(&others)
        .original(&[(MAX, MAX), (MIN + 63, 5), (-1, MIN)])
        .twilight(&others, &ends)
        .state(|state| state.scale = UNIT)
}

fn pushed_before(number: usize) -> impl FnOnce(&mut State) {
    move |state| {
        state.last_pushed = -5 - number as i32;
        state.pushes = COUNTS[number % COUNTS.len()];
    }
}

fn directed([projection, dual]: [[i32; 2]; 2]) -> impl FnOnce(&mut State) {
    move |state| state.vectors = along(projection, dual, projection)
}

/// GC of each point in each zone by each direction, at the ends, outside, and
/// by its number of operands.
fn coordinates() -> Vec<Case> {
    let mut cases = Vec::new();
    for code in [0x46, 0x47] {
        for zone in 0..2 {
            let in_zone = |state: &mut State| state.zones[2] = zone;
            for direction in DIRECTIONS {
                for point in 0..3 {
                    let scene = peopled().state(in_zone).state(directed(direction));
                    let before = pushed_before(cases.len());
                    cases.push(run(scene.state(before), &[code, 1, point]));
                }
            }
            for direction in [DIRECTIONS[0], DIRECTIONS[4], DIRECTIONS[7]] {
                for point in 0..3 {
                    let scene = at_the_ends().state(in_zone).state(directed(direction));
                    cases.push(run(scene, &[code, 1, point]));
                }
            }
            for pedantic in [false, true] {
                let scene = peopled()
                    .state(in_zone)
                    .state(|state| state.pedantic = pedantic);
                let lines: [&[i32]; 7] = [&[3], &[-1], &[MIN], &[MAX], &[65_536], &[], &[0, 0]];
                for operands in lines {
                    let sheet = [&[code, operands.len() as i32], operands].concat();
                    let before = pushed_before(cases.len());
                    cases.push(run(scene.clone().state(before), &sheet));
                }
            }
        }
    }
    cases
}

/// MD between points of every pair of zones by each direction, at the ends, by
/// each kind of scale, outside, and by its number of operands.
fn distances_between() -> Vec<Case> {
    let mut cases = Vec::new();
    for code in [0x49, 0x4A] {
        for zones in [[1, 1, 0], [0, 1, 1], [1, 0, 1], [0, 0, 1]] {
            let in_zones = |state: &mut State| state.zones = zones;
            for direction in DIRECTIONS {
                for [from, to] in [[0, 1], [2, 1]] {
                    let scene = peopled().state(in_zones).state(directed(direction));
                    let before = pushed_before(cases.len());
                    cases.push(run(scene.state(before), &[code, 2, from, to]));
                }
            }
            for direction in [DIRECTIONS[0], DIRECTIONS[4], DIRECTIONS[7]] {
                let scene = at_the_ends().state(in_zones).state(directed(direction));
                cases.push(run(scene, &[code, 2, 0, 1]));
            }
            for pedantic in [false, true] {
                let scene = peopled()
                    .state(in_zones)
                    .state(|state| state.pedantic = pedantic);
                let lines: [&[i32]; 8] = [
                    &[3, 1],
                    &[1, 3],
                    &[4, 3],
                    &[-1, MAX],
                    &[65_536, -2],
                    &[],
                    &[0],
                    &[0, 0, 0],
                ];
                for operands in lines {
                    let sheet = [&[code, operands.len() as i32], operands].concat();
                    let before = pushed_before(cases.len());
                    cases.push(run(scene.clone().state(before), &sheet));
                }
            }
        }
    }
    // Unscaled points that aren't there are (0, 0).
    for direction in DIRECTIONS {
        for [from, to] in [[1, 3], [-1, 2]] {
            let scene = peopled().state(pedantic).state(directed(direction));
            cases.push(run(scene, &[0x4A, 2, from, to]));
        }
    }
    for scale in [0, 1, 0x8000, 0xFFFF, 0x1_0001, -UNIT, MAX, MIN] {
        for [from, to] in [[0, 1], [2, 0], [1, 2]] {
            let scene = peopled().state(|state| state.scale = scale);
            cases.push(run(scene, &[0x4A, 2, from, to]));
        }
    }
    cases
}

/// The lines for each code, and every third of those by turns.
fn relative(codes: RangeInclusive<i32>, each: Vec<Line>, by_turns: Vec<Line>) -> Vec<Case> {
    let mut cases = Vec::new();
    for (number, code) in codes.enumerate() {
        let own = by_turns.iter().skip(number % BY_TURNS).step_by(BY_TURNS);
        for (scene, operands) in each.iter().chain(own) {
            let sheet = [&[code, operands.len() as i32][..], operands].concat();
            cases.push(run(scene.clone(), &sheet));
        }
    }
    cases
}

/// Two points so far apart along x, and otherwise along y, with a third: as
/// unscaled, original and current points, and as twilight ones.
fn apart([unscaled, original, current]: [i32; 3]) -> Scene {
    let points = |(x, y): Pair, distance: i32| {
        let other = (
            x.wrapping_add(distance),
            y.wrapping_sub(distance).wrapping_add(13),
        );
        [(x, y), other, (5, 5)]
    };
    Scene::new(&points((40, 8), current))
        .unscaled(&points((100, -40), unscaled))
        .original(&points((30, 10), original))
        .twilight(
            &points((-6, 9), original.wrapping_add(3)),
            &points((-4, 12), current.wrapping_sub(2)),
        )
        .state(|state| {
            state.scale = UNIT;
            state.references = [0, 2, 2];
        })
}

/// Points for MDRP, which measures their unscaled distance.
fn direct(distance: i32) -> Scene {
    apart([
        distance,
        distance.wrapping_add(9),
        distance.wrapping_add(20),
    ])
}

/// Points for MIRP, which measures their original distance, and a control value.
fn indirect(distance: i32, value: i32) -> Scene {
    apart([
        distance.wrapping_sub(9),
        distance,
        distance.wrapping_add(20),
    ])
    .control_values(&[value, 700])
}

fn minimum(number: i32) -> impl FnOnce(&mut State) {
    move |state| state.min_distance = number
}

fn cut_in(number: i32) -> impl FnOnce(&mut State) {
    move |state| state.cut_in = number
}

fn single([width, cut_in]: [i32; 2]) -> impl FnOnce(&mut State) {
    move |state| {
        state.single_width = width;
        state.single_width_cut_in = cut_in;
    }
}

fn native(state: &mut State) {
    state.native_cleartype_x = true;
}

fn pedantic(state: &mut State) {
    state.pedantic = true;
}

fn unflipped(state: &mut State) {
    state.auto_flip = false;
}

fn lock([compatible, both_marks]: [bool; 2]) -> impl FnOnce(&mut State) {
    move |state| {
        state.backward_compatibility = compatible;
        state.x_interpolated = both_marks;
        state.y_interpolated = both_marks;
    }
}

fn zones(bits: u32) -> impl FnOnce(&mut State) {
    move |state| state.zones = [bits & 1, bits >> 1 & 1, bits >> 2]
}

/// A mode with numbers that Super and Super45 go by.
fn mode(mode: u32) -> impl FnOnce(&mut State) {
    move |state| {
        state.rounding = Rounding {
            mode,
            threshold: 40,
            phase: 5,
            period: 48,
        }
    }
}

fn rp0(index: u64) -> impl FnOnce(&mut State) {
    move |state| state.references[0] = index
}

fn counted(count: u32) -> impl FnOnce(&mut State) {
    move |state| state.wrapped_roundings = count
}

/// What every code of MDRP is given: each bit where it decides, zones, modes,
/// and what isn't there.
fn direct_lines() -> Vec<Line> {
    let at = |scene: Scene, operands: &[i32]| (scene, operands.to_vec());
    let mut lines = vec![
        at(direct(70), &[1]),
        at(direct(20), &[1]),
        at(direct(-20), &[1]),
        at(direct(-70), &[1]),
        at(direct(100).state(single([90, 11])), &[1]),
        at(direct(20).state(native), &[1]),
        at(direct(70).state(native), &[1]),
        at(direct(70).state(directed([X, Y])), &[1]),
        at(direct(MAX).state(counted(END - 1)), &[1]),
        at(direct(70).state(pedantic), &[3]),
        at(direct(70).state(pedantic).state(rp0(3)), &[1]),
        at(direct(70).state(rp0(3)), &[1]),
        at(direct(70), &[3]),
        at(direct(70), &[]),
        at(direct(70), &[1, 1]),
    ];
    for bits in 0..8 {
        lines.push(at(direct(96).state(zones(bits)), &[1]));
    }
    for number in 0..8 {
        let distance = if number % 2 == 0 { 75 } else { -75 };
        lines.push(at(direct(distance).state(mode(number)), &[1]));
    }
    lines
}

/// What the codes of MDRP are given by turns: distances, minimum distances and
/// single widths around where they turn, locks, directions, scales, ends.
fn direct_turns() -> Vec<Line> {
    let mut scenes: Vec<Scene> = Vec::new();
    scenes.extend([0, 31, 32, 64, 95, 96, -1, -32, -64, -100].map(direct));
    for (distance, number) in [
        (70, 100),
        (-70, 100),
        (20, -30),
        (-20, -30),
        (5, MIN),
        (-5, MIN),
        (-1000, MAX),
        (63, 63),
        (-96, 129),
    ] {
        scenes.push(direct(distance).state(minimum(number)));
    }
    for (distance, width, reach) in [
        (70, 80, 11),
        (70, 80, 10),
        (90, 80, 10),
        (90, 80, 11),
        (-70, -80, 11),
        (-70, -80, 10),
        (-90, -80, 10),
        (-90, -80, 11),
        (-3, 5, 20),
        (0, -5, 20),
        (60, 60, 1),
        (60, 60, 0),
        (5, 10, MAX),
        (5, -10, MAX),
        (5, 10, -5),
        (-200, MIN, 9),
        (MIN + 4, MIN, 9),
        (MAX, MAX, 1),
        // Below 0 a cut-in takes no width, though these sums pass each other.
        (5, MIN + 3, -5),
        (-70, MAX - 2, -9),
        (100, MIN, MIN + 1),
    ] {
        scenes.push(direct(distance).state(single([width, reach])));
    }
    for (distance, number) in [(20, 65), (-20, 64), (15, 31), (-15, -1), (40, -7)] {
        scenes.push(direct(distance).state(minimum(number)).state(native));
    }
    for locks in [[true, false], [true, true]] {
        for vector in [X, Y, DIAGONAL] {
            let scene = direct(75).state(lock(locks));
            scenes.push(scene.state(|state| state.vectors = along(X, X, vector)));
        }
    }
    for [projection, dual, freedom] in [
        [X, DIAGONAL, X],
        [Y, X, Y],
        [DIAGONAL, X, X],
        [X, X, DIAGONAL],
        [X, Y, NOWHERE],
        [Y, NOWHERE, DIAGONAL],
    ] {
        let vectors = along(projection, dual, freedom);
        scenes.push(direct(77).state(|state| state.vectors = vectors));
    }
    for scale in [0, 0x8000, -UNIT, MAX, 0x1_8000] {
        scenes.push(direct(75).state(|state| state.scale = scale));
    }
    for distance in [MIN, MAX - 31, MIN + 31] {
        scenes.push(direct(distance).state(counted(3)));
    }
    let good = |scene: Scene| (scene, vec![1]);
    let mut lines: Vec<Line> = scenes.into_iter().map(good).collect();
    // The last two are rounded, past 32 bits, before their point isn't found.
    let outside = [
        (direct(70).state(zones(4)), vec![3]),
        (direct(70), vec![-1]),
        (direct(70).state(rp0(7)), vec![3]),
        (direct(70).state(zones(5)).state(rp0(7)), vec![-2]),
        (
            apart([0, 9, 20])
                .unscaled(&[(MIN, MIN); 3])
                .state(counted(5)),
            vec![MAX],
        ),
        (
            apart([0, 9, 20])
                .unscaled(&[(MIN + 1, MIN + 1); 3])
                .state(counted(END - 1)),
            vec![3],
        ),
    ];
    lines.extend(outside.map(|(scene, line)| (scene.state(pedantic), line)));
    lines
}

/// What every code of MIRP is given.
fn indirect_lines() -> Vec<Line> {
    let at = |scene: Scene, operands: &[i32]| (scene, operands.to_vec());
    let mut lines = vec![
        at(indirect(70, 100), &[0, 1]),
        at(indirect(70, 138), &[0, 1]),
        at(indirect(70, 139), &[0, 1]),
        at(indirect(-70, 100).state(cut_in(MAX)), &[0, 1]),
        at(
            indirect(-70, 100).state(cut_in(MAX)).state(unflipped),
            &[0, 1],
        ),
        at(indirect(20, 20), &[0, 1]),
        at(indirect(-20, 20), &[0, 1]),
        at(indirect(70, 100).state(single([90, 11])), &[0, 1]),
        at(indirect(20, 21).state(native), &[0, 1]),
        at(indirect(70, 75).state(native), &[0, 1]),
        at(indirect(70, 100).state(directed([X, Y])), &[0, 1]),
        at(indirect(70, 90), &[-1, 1]),
        at(
            indirect(70, MAX).state(cut_in(MAX)).state(counted(END - 1)),
            &[0, 1],
        ),
        at(indirect(70, 90).state(pedantic), &[0, 3]),
        at(indirect(70, 90).state(pedantic).state(rp0(3)), &[0, 1]),
        at(indirect(70, 90).state(pedantic), &[2, 1]),
        at(indirect(70, 90).state(rp0(3)), &[0, 1]),
        at(indirect(70, 90), &[0, 3]),
        at(indirect(70, 90), &[2, 1]),
        at(indirect(70, 90), &[]),
        at(indirect(70, 90), &[0]),
        at(indirect(70, 90), &[0, 1, 1]),
    ];
    for bits in 0..8 {
        lines.push(at(indirect(70, 200).state(zones(bits)), &[0, 1]));
    }
    for number in 0..8 {
        let distance = if number % 2 == 0 { 75 } else { -75 };
        lines.push(at(indirect(distance, 90).state(mode(number)), &[0, 1]));
    }
    lines
}

/// What the codes of MIRP are given by turns.
fn indirect_turns() -> Vec<Line> {
    let mut scenes: Vec<Scene> = Vec::new();
    // The control value at the cut-in of 68 from what is measured, and around.
    for (distance, value) in [
        (70, 2),
        (70, 1),
        (-70, -138),
        (-70, -139),
        (-70, -2),
        (-70, -1),
        (0, 0),
        (0, -1),
        (-1, 0),
        (0, 68),
        (0, -69),
        (MIN, 0),
        (MAX, MIN),
        (-5, MIN),
    ] {
        scenes.push(indirect(distance, value));
        scenes.push(indirect(distance, value).state(unflipped));
    }
    for (distance, value) in [
        (70, 74),
        (70, 66),
        (70, 65),
        (-70, 74),
        (-70, 75),
        (-70, -65),
    ] {
        scenes.push(indirect(distance, value).state(native));
    }
    // A sixteenth of these is 3, 4, 4 and 5.
    for number in [63, 64, 79, 80] {
        for value in [74, -75] {
            scenes.push(indirect(70, value).state(cut_in(number)).state(native));
        }
    }
    for (number, value) in [
        (0, 70),
        (0, 71),
        (-1, 70),
        (MIN, 70),
        (MIN, 90),
        (MAX, 5000),
    ] {
        scenes.push(indirect(70, value).state(cut_in(number)));
        scenes.push(indirect(70, value).state(cut_in(number)).state(native));
    }
    for (distance, value, number) in [
        (70, 60, 100),
        (-70, 60, 100),
        (-70, 60, -100),
        (70, 60, -100),
        (5, -5, MIN),
        (-5, 5, MIN),
        (-10, 20, MAX),
        (63, 63, 63),
    ] {
        scenes.push(indirect(distance, value).state(minimum(number)));
        let native = indirect(distance, value)
            .state(minimum(number))
            .state(native);
        scenes.push(native.state(unflipped));
    }
    // Odd numbers below 0, of which half is the next below.
    for (value, number) in [(-9, -5), (-200, -7), (-200, -101), (-9, -1)] {
        let scene = indirect(5, value).state(minimum(number)).state(native);
        scenes.push(scene.state(cut_in(MAX)).state(unflipped));
    }
    for (value, width, reach) in [
        (101, 90, 11),
        (80, 90, 11),
        (79, 90, 11),
        (-100, -90, 11),
        (-101, -90, 11),
        (-3, 5, 20),
        (0, -5, 20),
        (90, 90, 1),
        (90, 90, 0),
        (MIN, 0, 0),
        (MIN, 0, MIN),
        (MIN, 5, MIN + 6),
        (-1, MAX, 0),
        (-1, MIN, MAX),
        (0, MIN, -1),
        (-7, MIN, MAX),
    ] {
        scenes.push(indirect(70, value).state(single([width, reach])));
        let alone = indirect(70, value).state(single([width, reach]));
        scenes.push(alone.state(cut_in(MAX)).state(unflipped));
    }
    // A twilight point is made of rp0's original and the control value.
    for vector in [X, Y, DIAGONAL, [-0x4000, 0], NOWHERE, [0x4000, 0x4000]] {
        for bits in [0, 5] {
            let scene = indirect(70, 4001).state(zones(bits));
            scenes.push(scene.state(|state| state.vectors = along(X, DIAGONAL, vector)));
        }
        let far = indirect(70, MIN).state(zones(1)).state(unflipped);
        scenes.push(far.state(|state| state.vectors = along(Y, X, vector)));
    }
    for locks in [[true, false], [true, true]] {
        for vector in [X, Y, DIAGONAL] {
            let scene = indirect(75, 90).state(lock(locks));
            scenes.push(scene.state(|state| state.vectors = along(X, X, vector)));
        }
    }
    for [projection, dual, freedom] in [
        [X, DIAGONAL, X],
        [Y, X, Y],
        [DIAGONAL, X, X],
        [X, X, DIAGONAL],
        [X, Y, NOWHERE],
    ] {
        let vectors = along(projection, dual, freedom);
        scenes.push(indirect(77, 90).state(|state| state.vectors = vectors));
    }
    let good = |scene: Scene| (scene, vec![0, 1]);
    let mut lines: Vec<Line> = scenes.into_iter().map(good).collect();
    lines.extend(indirect_operands());
    lines
}

/// Operands of MIRP that aren't there, one or several, pedantic or not; the
/// second point in twilight or not, which turns the order.
fn indirect_operands() -> Vec<Line> {
    let mut lines = Vec::new();
    for bits in [7, 5, 4] {
        for is_pedantic in [true, false] {
            for (operands, reference) in [
                ([-2, 1], 0),
                ([MAX, 1], 0),
                ([MIN, 3], 0),
                ([2, -1], 9),
                ([1, 3], 9),
                ([-1, -1], 9),
                ([-1, 1], 9),
            ] {
                let scene = indirect(70, 90).state(zones(bits)).state(rp0(reference));
                let scene = scene.state(|state| state.pedantic = is_pedantic);
                lines.push((scene, operands.to_vec()));
            }
        }
    }
    lines
}

/// Each kind of wrapped rounding and each near miss by a MDRP, by a MIRP, and in
/// a line of either that keeps the count.
fn wrapped_distances() -> Vec<Case> {
    let mut cases = Vec::new();
    let roundings = [of_each_kind(1), near_misses()].concat();
    for (number, rounded) in roundings.iter().enumerate() {
        let set = |state: &mut State| {
            state.rounding = rounded.rounding;
            state.wrapped_roundings = COUNTS[number % COUNTS.len()];
            // Nothing but the rounding is to be seen.
            state.auto_flip = false;
        };
        let direct = direct_roundings(rounded);
        let indirect = indirect_roundings(rounded);
        let kept = keeping(rounded);
        let rounding = |codes: RangeInclusive<i32>| {
            let rounding: Vec<i32> = codes.filter(|code| code & ROUNDS != 0).collect();
            rounding[number % rounding.len()]
        };
        let scene = direct[number % direct.len()].clone().state(set);
        cases.push(run(scene, &[rounding(MDRP), 1, 1]));
        let scene = indirect[number % indirect.len()].clone().state(set);
        cases.push(run(scene, &[rounding(MIRP), 2, 0, 1]));
        let (scene, sheet) = kept[number % kept.len()].clone();
        cases.push(run(scene.state(set), &sheet));
    }
    cases
}

/// The distance along both axes from the first point to the second.
fn spread(distance: i32) -> [Pair; 2] {
    [(0, 0), (distance, distance)]
}

/// Scenes in which a MDRP of point 1 measures the distance: unscaled, and of
/// twilight originals.
fn direct_roundings(rounded: &Rounded) -> [Scene; 2] {
    let points = spread(rounded.distance);
    let unscaled = Scene::new(&[(3, 4), (50, 60)]).unscaled(&points);
    let twilight = Scene::new(&[])
        .twilight(&points, &[(3, 4), (50, 60)])
        .state(zones(0));
    [unscaled.state(|state| state.scale = UNIT), twilight]
}

/// Scenes in which a MIRP of point 1 rounds the distance: the control value,
/// and what it measures.
fn indirect_roundings(rounded: &Rounded) -> [Scene; 2] {
    let distance = rounded.distance;
    // 2^31 away from it is never above the cut-in.
    let other = if distance == MIN { 1 } else { 0 };
    let scene = |value: i32, number: i32| {
        Scene::new(&[(3, 4), (50, 60)])
            .original(&spread(distance))
            .control_values(&[value])
            .state(cut_in(number))
    };
    [scene(distance, MAX), scene(other, MIN)]
}

/// Lines that keep the count: without rounding, under native ClearType x, let
/// pass, and refused, one of them after it rounded.
fn keeping(rounded: &Rounded) -> Vec<(Scene, Vec<i32>)> {
    let [direct, _] = direct_roundings(rounded);
    let [indirect, _] = indirect_roundings(rounded);
    let far = Scene::new(&[(3, 4)])
        .unscaled(&[(rounded.distance.wrapping_neg(), 0)])
        .state(|state| state.scale = UNIT);
    vec![
        (direct.clone(), vec![0xCB, 1, 1]),
        (direct.clone().state(native), vec![0xDC, 1, 1]),
        (direct.clone(), vec![0xC4, 1, 2]),
        (far.state(pedantic), vec![0xC4, 1, 1]),
        (direct, vec![0xC4, 0]),
        (indirect.clone(), vec![0xF8, 2, 0, 1]),
        (indirect.clone().state(native), vec![0xE7, 2, 0, 1]),
        (indirect.clone(), vec![0xE4, 2, 0, 2]),
        (indirect.clone().state(pedantic), vec![0xE4, 2, 0, 2]),
        (indirect.clone().state(pedantic), vec![0xE4, 2, 1, 1]),
        (indirect, vec![0xE4, 1, 0]),
    ]
}
