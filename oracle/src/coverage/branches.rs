//! Which ways the moves, IUP, ISECT and MIAP went, told from what they were
//! given. Nothing here decides an outcome.

use super::shifts::lock_of;
use crate::{
    case::{Case, Outcome},
    direct::Call,
    lines_of::{finished_lines, ReachedLine},
    world::*,
};
use reference::door;

const TOUCHED: [u32; 3] = [6, 2, 4];
const WALKS: [&str; 10] = [
    "contour with no touched point",
    "contour with one touched point",
    "contour with several touched points",
    "point before its references",
    "point after its references",
    "point between its references",
    "references swapped",
    "references with equal unscaled",
    "references with equal current",
    "points from the last touched to the first",
];

/// The ways that this case went.
pub fn keys(case: &Case, outcome: &Outcome) -> Vec<String> {
    if outcome.returned.answer.number != 0 {
        return Vec::new();
    }
    match case.call {
        Call::Iup { axis } => iup_keys(&case.world, axis),
        Call::MovePoint { .. } => vec![move_key(case, "move_point")],
        Call::MoveZp2Point { .. } => vec![move_key(case, "move_zp2_point")],
        Call::Run { .. } => match &finished_lines(case, outcome)[..] {
            [line] => line_keys(case, line),
            _ => Vec::new(),
        },
        _ => Vec::new(),
    }
}

pub fn required() -> Vec<String> {
    let mut keys: Vec<String> = WALKS.iter().map(|walk| walk_key(walk)).collect();
    keys.extend(required_moves("move_point"));
    keys.extend(required_moves("move_zp2_point"));
    for way in ["crossing", "grazing", "discriminant 0"] {
        keys.push(format!("ISECT: {way}"));
    }
    for native in [false, true] {
        for kept in [false, true] {
            keys.push(cut_in_key(native, kept));
        }
    }
    for name in ["MDAP", "MSIRP"] {
        keys.push(lenient_key(name));
    }
    keys
}

/// Each freedom axis under each lock, by whatever moves points.
pub fn required_moves(name: &str) -> Vec<String> {
    let mut keys = Vec::new();
    for lock in ["none", "x", "x and y"] {
        for axis in 1..=2 {
            keys.push(moved_key(name, axis, lock, axis == 1));
        }
        for horizontal in [false, true] {
            keys.push(moved_key(name, 0, lock, horizontal));
        }
    }
    keys
}

/// The way of a run's only line.
fn line_keys(case: &Case, line: &ReachedLine) -> Vec<String> {
    let state = &case.world.state;
    let outside = crate::lines_of::first_outside(case, line).is_some();
    match line.opcode {
        0x0F => vec![format!("ISECT: {}", crossing(&case.world, line))],
        0x2E | 0x2F if outside => vec![lenient_key("MDAP")],
        0x3A | 0x3B if outside => vec![lenient_key("MSIRP")],
        0x3F => vec![cut_in_key(
            state.native_cleartype_x,
            keeps_control_value(&case.world, line),
        )],
        _ => Vec::new(),
    }
}

fn lenient_key(name: &str) -> String {
    format!("{name} outside its zone goes on")
}

fn cut_in_key(native: bool, kept: bool) -> String {
    format!("MIAP[1]: native ClearType x {native}, control value kept {kept}")
}

/// The freedom axis of a move, how it is held back, and the exception.
fn move_key(case: &Case, name: &str) -> String {
    let state = &case.world.state;
    let lock = lock_of(case);
    let axis = door::derived(state.vectors).axes[2];
    moved_key(name, axis, lock, state.vectors[1] == 0)
}

pub fn moved_key(name: &str, freedom_axis: u32, locked: &str, horizontal: bool) -> String {
    format!(
        "{name}: freedom axis {freedom_axis}, locked {locked}, horizontal projection {horizontal}"
    )
}

/// Whether ISECT's lines cross, by the Rust's own numbers.
fn crossing(world: &World, line: &ReachedLine) -> &'static str {
    let [zp0, zp1, _] = world.state.zones;
    let point = |zone: u32, operand: usize| {
        let x = if zone == 0 {
            TWILIGHT_CURRENT_X
        } else {
            CURRENT_X
        };
        let index = line.operands[operand] as usize;
        [
            world.lists[x][index] as i32,
            world.lists[x + 1][index] as i32,
        ]
    };
    let apart =
        |to: [i32; 2], from: [i32; 2]| [0, 1].map(|axis: usize| to[axis].wrapping_sub(from[axis]));
    let [bx, by] = apart(point(zp0, 0), point(zp0, 1));
    let [ax, ay] = apart(point(zp1, 2), point(zp1, 3));
    let product = |a, b| door::mul_div(a, b, 0x40);
    let discriminant = product(ax, by.wrapping_neg()).wrapping_add(product(ay, bx));
    let dot = product(ax, bx).wrapping_add(product(ay, by));
    if discriminant.wrapping_abs().wrapping_mul(19) <= dot.wrapping_abs() {
        "grazing"
    } else if discriminant == 0 {
        "discriminant 0"
    } else {
        "crossing"
    }
}

/// Whether the cut-in lets MIAP keep its control value.
pub fn keeps_control_value(world: &World, line: &ReachedLine) -> bool {
    let state = &world.state;
    let value = world.lists[CONTROL_VALUES][line.operands[0] as usize] as i32;
    let index = line.operands[1] as usize;
    let [fx, fy] = [state.vectors[4], state.vectors[5]];
    let point = if state.zones[0] == 0 {
        (door::mul14(value, fx), door::mul14(value, fy))
    } else {
        (
            world.lists[CURRENT_X][index] as i32,
            world.lists[CURRENT_Y][index] as i32,
        )
    };
    let distance = door::project(state.vectors, point, (0, 0));
    let cut_in = if state.native_cleartype_x {
        state.cut_in >> 4
    } else {
        state.cut_in
    };
    value.wrapping_sub(distance).wrapping_abs() <= cut_in
}

fn walk_key(walk: &str) -> String {
    format!("IUP: {walk}")
}

/// The kinds of contours and points that a walk meets.
fn iup_keys(world: &World, axis: u32) -> Vec<String> {
    let mut seen = Vec::new();
    let mut place = 0;
    for end in &world.lists[CONTOURS] {
        let last = *end as usize;
        contour_kinds(world, axis, place, last, &mut seen);
        place = last + 1;
    }
    seen.into_iter().map(walk_key).collect()
}

fn contour_kinds(
    world: &World,
    axis: u32,
    first: usize,
    last: usize,
    seen: &mut Vec<&'static str>,
) {
    let is_touched = |point: &usize| world.lists[FLAGS][*point] & TOUCHED[axis as usize] != 0;
    let touched: Vec<usize> = (first..=last).filter(is_touched).collect();
    seen.push(WALKS[touched.len().min(2)]);
    if touched.len() < 2 {
        return;
    }
    for pair in touched.windows(2) {
        gap_kinds(
            world,
            axis,
            (pair[0] + 1..pair[1]).collect(),
            [pair[0], pair[1]],
            seen,
        );
    }
    let (from, to) = (touched[0], touched[touched.len() - 1]);
    let around: Vec<usize> = (to + 1..=last).chain(first..from).collect();
    if !around.is_empty() {
        seen.push(WALKS[9]);
    }
    gap_kinds(world, axis, around, [to, from], seen);
}

/// Where the points of a gap lie between its two references.
fn gap_kinds(
    world: &World,
    axis: u32,
    gap: Vec<usize>,
    [from, to]: [usize; 2],
    seen: &mut Vec<&'static str>,
) {
    let along = axis as usize - 1;
    let number = |list: usize, point: usize| world.lists[list + along][point] as i32;
    let (mut low, mut high) = (from, to);
    if gap.is_empty() {
        return;
    }
    if number(UNSCALED_X, low) > number(UNSCALED_X, high) {
        seen.push(WALKS[6]);
        (low, high) = (to, from);
    }
    if number(UNSCALED_X, low) == number(UNSCALED_X, high) {
        seen.push(WALKS[7]);
    } else if number(CURRENT_X, low) == number(CURRENT_X, high) {
        seen.push(WALKS[8]);
    }
    for point in gap {
        let original = number(ORIGINAL_X, point);
        seen.push(if original <= number(ORIGINAL_X, low) {
            WALKS[3]
        } else if original >= number(ORIGINAL_X, high) {
            WALKS[4]
        } else {
            WALKS[5]
        });
    }
}
