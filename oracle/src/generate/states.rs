//! Graphics states, sound and unsound.

use crate::{
    numbers::{any_word, mixed, near_corner},
    random::Random,
    vectors::{any_vector, vector_in_range},
    world::fresh_state,
};
use reference::door::{Rounding, State};

/// A state that the entry tests accept.
pub fn sound_state(random: &mut Random) -> State {
    State {
        vectors: sound_vectors(random),
        rounding: rounding(random),
        references: [(); 3].map(|_| reference(random)),
        loop_counter: loop_counter(random),
        zones: zones(random),
        backward_compatibility: random.flip(),
        pedantic: random.flip(),
        native_cleartype_x: random.once_in(3),
        x_interpolated: random.flip(),
        y_interpolated: random.flip(),
        cut_in: cut_in(random),
        // What document 02 adds is fresh, and others draw it where it matters.
        ..fresh_state()
    }
}

/// A sound state with backward compatibility once in so many times, since SHPIX
/// ends a run then. Freedom (0, 0) comes often.
pub fn calm_state(random: &mut Random, compatible_once_in: usize) -> State {
    let mut state = sound_state(random);
    state.backward_compatibility = random.once_in(compatible_once_in);
    if random.once_in(12) {
        state.vectors[4] = 0;
        state.vectors[5] = 0;
    }
    state
}

/// Makes the state fail the entry test, in one of its ways.
pub fn make_unsound(random: &mut Random, state: &mut State) {
    if random.once_in(3) {
        state.rounding.mode = 7;
        state.rounding.period = 0;
        return;
    }
    let place = 2 * random.below(3);
    loop {
        let [x, y] = any_vector(random);
        if x.unsigned_abs() > 0x4000 {
            let swapped = random.flip();
            state.vectors[place] = if swapped { y } else { x };
            state.vectors[place + 1] = if swapped { x } else { y };
            return;
        }
    }
}

/// All along one axis, one vector for all, or three of their own.
fn sound_vectors(random: &mut Random) -> [i32; 6] {
    let [px, py] = vector_in_range(random);
    match random.below(5) {
        0 => fresh_state().vectors,
        1 => [0, 0x4000, 0, 0x4000, 0, 0x4000],
        2 => [px, py, px, py, px, py],
        _ => {
            let [dx, dy] = vector_in_range(random);
            let [fx, fy] = vector_in_range(random);
            [px, py, dx, dy, fx, fy]
        }
    }
}

fn rounding(random: &mut Random) -> Rounding {
    let mode = random.below(8) as u32;
    let (threshold, phase, period) = match random.below(3) {
        0 => (0, 0, 64),
        1 => {
            let period = random.pick(&[32, 64, 128, 22, 45, 90]);
            let phase = period * random.between(0, 3) / 4;
            (period * random.between(-4, 12) / 8, phase, period)
        }
        _ => (mixed(random), mixed(random), mixed(random)),
    };
    let period = if mode == 7 && period == 0 { 1 } else { period };
    Rounding {
        mode,
        threshold,
        phase,
        period,
    }
}

/// Mostly the glyph for all three, else each pointer by chance.
fn zones(random: &mut Random) -> [u32; 3] {
    if random.once_in(3) {
        return [1; 3];
    }
    [(); 3].map(|_| random.below(2) as u32)
}

/// A reference number that small zones mostly have.
fn reference(random: &mut Random) -> u64 {
    match random.weighted(&[12, 1, 1, 1]) {
        0 => random.below(4) as u64,
        1 => random.below(20) as u64,
        2 => crate::words::widened(any_word(random)),
        _ => random.next(),
    }
}

fn loop_counter(random: &mut Random) -> u32 {
    match random.weighted(&[8, 2, 4, 4, 1, 1]) {
        0 => 1,
        1 => 0,
        2 => 2,
        3 => 3,
        4 => random.pick(&[65_535, 65_536, u32::MAX, 1 << 31]),
        _ => random.next() as u32,
    }
}

fn cut_in(random: &mut Random) -> i32 {
    match random.below(4) {
        0 => near_corner(random),
        1 => random.between(-5, 70),
        _ => 68,
    }
}
