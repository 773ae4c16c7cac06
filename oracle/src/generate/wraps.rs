//! Document 02's count of wrapped roundings: each kind of them through MDAP[1]
//! and MIAP[1], counts at their end, and lines that don't round or are refused.

use super::{
    operands::line,
    runs::{MOVERS, ROUNDERS},
    states::sound_state,
    worlds::{fill_glyph, fill_twilight, small_world},
};
use crate::{
    case::Case,
    direct::Call,
    notable::{along, Y},
    random::Random,
    scene::Scene,
    world::*,
    wraps::{near_misses, of_each_kind, wild, wild_rounding},
};
use reference::door::{Rounded, State};

const MIN: i32 = i32::MIN;
const MAX: i32 = i32::MAX;
const END: u32 = u32::MAX;
/// The lines that set a mode and keep threshold, phase and period.
const ROUND_SETTERS: [u8; 6] = [0x18, 0x19, 0x3D, 0x7A, 0x7C, 0x7D];
/// The lists of which distances are made.
const WILD_LISTS: [usize; 5] = [
    CURRENT_X,
    CURRENT_Y,
    TWILIGHT_CURRENT_X,
    TWILIGHT_CURRENT_X + 1,
    CONTROL_VALUES,
];
/// Roundings of each kind that are brought to lines.
const EACH: usize = 3;
/// Counts that a run starts with.
const COUNTS: [u32; 6] = [0, END, 3, END - 1, 0, 1 << 31];
const WHOLE_RUN: Call = Call::run(0, u64::MAX);

/// Some of each kind, and near misses, by both instructions, in either zone and along either axis;
/// lines that keep the count; runs that bring it to its end.
pub fn every_wrap() -> Vec<Case> {
    let mut cases = Vec::new();
    let roundings = [of_each_kind(EACH), near_misses()].concat();
    for (number, rounded) in roundings.iter().enumerate() {
        let count = COUNTS[number % COUNTS.len()];
        let along_y = number % 2 == 1;
        let run = |scene: &Scene| {
            let set = |state: &mut State| {
                state.wrapped_roundings = count;
                state.rounding = rounded.rounding;
                if along_y {
                    state.vectors = along(Y, Y, Y);
                }
            };
            scene.clone().state(set).case(WHOLE_RUN)
        };
        cases.extend(rounding_lines(rounded).iter().map(run));
        let kept = keeping_lines(rounded);
        cases.push(run(&kept[number % kept.len()]));
        cases.push(run(&several_lines(rounded)));
    }
    cases
}

/// The point, both coordinates as given.
fn at(distance: i32) -> Scene {
    Scene::new(&[(distance, distance)])
}

fn in_twilight(distance: i32) -> Scene {
    Scene::new(&[])
        .twilight(&[(7, 9)], &[(distance, distance)])
        .state(|state| state.zones = [0, 1, 1])
}

fn cut_in(number: i32) -> impl FnOnce(&mut State) {
    move |state| state.cut_in = number
}

/// Lines that round the distance: MDAP[1] of the point; MIAP[1] of the control
/// value, of the point, and of a twilight point that the control value makes.
fn rounding_lines(rounded: &Rounded) -> [Scene; 5] {
    let distance = rounded.distance;
    let mdap = [0x2F, 1, 0];
    let miap = [0x3F, 2, 0, 0];
    // 2^31 away from the point is never above the cut-in.
    let other = if distance == MIN { 1 } else { 0 };
    [
        at(distance).sheet(&mdap),
        in_twilight(distance).sheet(&mdap),
        at(0)
            .control_values(&[distance])
            .state(cut_in(MAX))
            .sheet(&miap),
        at(distance)
            .control_values(&[other])
            .state(cut_in(MIN))
            .sheet(&miap),
        in_twilight(5)
            .control_values(&[distance])
            .state(cut_in(MAX))
            .sheet(&miap),
    ]
}

/// Lines that keep the count: under native ClearType x, without rounding, let
/// pass, and refused.
fn keeping_lines(rounded: &Rounded) -> Vec<Scene> {
    let scene = || {
        at(rounded.distance)
            .control_values(&[rounded.distance])
            .state(cut_in(MAX))
    };
    let native = |state: &mut State| state.native_cleartype_x = true;
    let pedantic = |state: &mut State| state.pedantic = true;
    vec![
        scene().state(native).sheet(&[0x2F, 1, 0]),
        scene().state(native).sheet(&[0x3F, 2, 0, 0]),
        scene().sheet(&[0x2E, 1, 0]),
        scene().sheet(&[0x3E, 2, 0, 0]),
        scene().sheet(&[0x2F, 1, 1]),
        scene().state(pedantic).sheet(&[0x2F, 1, 1]),
        scene().sheet(&[0x2F, 0]),
        scene().sheet(&[0x2F, 2, 0, 0]),
        scene().sheet(&[0x3F, 2, 0, 1]),
        scene().state(pedantic).sheet(&[0x3F, 2, 0, 1]),
        scene().sheet(&[0x3F, 2, 1, 0]),
        scene().sheet(&[0x3F, 1, 0]),
        scene().sheet(&[0x3F, 3, 0, 0, 0]),
    ]
}

/// Five points and control values at the distance, so that the count grows by
/// more than one and may stop; the last line is refused.
fn several_lines(rounded: &Rounded) -> Scene {
    let distance = rounded.distance;
    let lines = [
        0x2F, 1, 0, 0x3F, 2, 0, 1, 0x2E, 1, 2, 0x2F, 1, 2, 0x3F, 2, 0, 3, 0x2F, 1, 4, 0x3F, 2, 1, 0,
    ];
    Scene::new(&[(distance, distance); 5])
        .control_values(&[distance])
        .state(cut_in(MAX))
        .sheet(&lines)
}

/// A run mostly of lines that round, by wild numbers.
pub fn wrap_case(random: &mut Random) -> Case {
    let mut state = sound_state(random);
    state.rounding = wild_rounding(random);
    state.native_cleartype_x = random.once_in(8);
    state.cut_in = random.pick(&[MAX, MAX, MIN, 68, 0]);
    let mut world = small_world(random, state);
    let points = 1 + random.below(4);
    fill_glyph(random, &mut world, points);
    fill_twilight(random, &mut world, points);
    world.lists[CONTROL_VALUES].resize(points, 0);
    for list in WILD_LISTS {
        make_wild(random, &mut world.lists[list]);
    }
    let mut sheet = Vec::new();
    for _ in 0..random.between(1, 6) {
        let opcode = match random.weighted(&[12, 1, 1]) {
            0 => random.pick(&ROUNDERS),
            1 => random.pick(&ROUND_SETTERS),
            _ => random.pick(&MOVERS),
        };
        sheet.extend(line(random, &world, opcode));
    }
    world.lists[SHEET] = sheet.iter().map(|word| *word as u32).collect();
    let budget = random.pick(&[u64::MAX, u64::MAX, u64::MAX, u64::MAX, 3, 1]);
    let call = Call::run(0, budget);
    Case { call, world }
}

fn make_wild(random: &mut Random, words: &mut [u32]) {
    for word in words {
        if !random.once_in(4) {
            *word = wild(random) as u32;
        }
    }
}
