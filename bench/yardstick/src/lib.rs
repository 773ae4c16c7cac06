//! An ordinary replayer of sheets, unproved: the yardstick that the proved one is measured by.
//!
//! It is written as one would write it in Rust with no proof in mind, and without tricks: slices in two structs, a state that is lent, a
//! `match` over opcodes. `yardstick_run` takes and leaves what `taleviqa_run` of include/taleviqa.h does. NOTICE names the files of the Rust
//! that it is in part translated from.

mod iup;
mod lines;
mod math;
mod round;
mod run;
mod state;
mod zones;

use run::{Answer, Replayer, Rules};
use state::State;
use std::slice;
use zones::{Glyph, Twilight};

const ANSWER_WORDS: usize = 4;
const BAD_WORD: u32 = 16;

/// A list from C: one without elements may have any pointer.
unsafe fn list<'a, T>(pointer: *const T, length: usize) -> &'a [T] {
    if length == 0 {
        &[]
    } else {
        slice::from_raw_parts(pointer, length)
    }
}

unsafe fn list_mut<'a, T>(pointer: *mut T, length: usize) -> &'a mut [T] {
    if length == 0 {
        &mut []
    } else {
        slice::from_raw_parts_mut(pointer, length)
    }
}

/// What `taleviqa_run` does.
///
/// # Safety
/// Every pointer is to as many elements as its length says, and the lists that are changed overlap no other.
#[no_mangle]
pub unsafe extern "C" fn yardstick_run(
    rules: u32,
    start: usize,
    budget: u64,
    state: *mut u32,
    state_length: usize,
    sheet: *const i32,
    sheet_length: usize,
    control_values: *const i32,
    control_values_length: usize,
    glyph_unscaled_x: *const i32,
    glyph_unscaled_x_length: usize,
    glyph_unscaled_y: *const i32,
    glyph_unscaled_y_length: usize,
    glyph_original_x: *const i32,
    glyph_original_x_length: usize,
    glyph_original_y: *const i32,
    glyph_original_y_length: usize,
    glyph_x: *mut i32,
    glyph_x_length: usize,
    glyph_y: *mut i32,
    glyph_y_length: usize,
    glyph_flags: *mut u8,
    glyph_flags_length: usize,
    contours: *const u16,
    contours_length: usize,
    twilight_original_x: *mut i32,
    twilight_original_x_length: usize,
    twilight_original_y: *mut i32,
    twilight_original_y_length: usize,
    twilight_x: *mut i32,
    twilight_x_length: usize,
    twilight_y: *mut i32,
    twilight_y_length: usize,
    twilight_flags: *mut u8,
    twilight_flags_length: usize,
    answer: *mut u64,
    answer_length: usize,
) -> u32 {
    let state_words = list_mut(state, state_length);
    let answer = list_mut(answer, answer_length);
    let read = Rules::numbered(rules).zip(State::read(state_words));
    let said = match read {
        Some((rules, state)) if answer.len() == ANSWER_WORDS => {
            let mut replayer = Replayer {
                rules,
                state,
                controls: list(control_values, control_values_length),
                glyph: Glyph {
                    unscaled_x: list(glyph_unscaled_x, glyph_unscaled_x_length),
                    unscaled_y: list(glyph_unscaled_y, glyph_unscaled_y_length),
                    original_x: list(glyph_original_x, glyph_original_x_length),
                    original_y: list(glyph_original_y, glyph_original_y_length),
                    x: list_mut(glyph_x, glyph_x_length),
                    y: list_mut(glyph_y, glyph_y_length),
                    flags: list_mut(glyph_flags, glyph_flags_length),
                    contours: list(contours, contours_length),
                },
                twilight: Twilight {
                    original_x: list_mut(twilight_original_x, twilight_original_x_length),
                    original_y: list_mut(twilight_original_y, twilight_original_y_length),
                    x: list_mut(twilight_x, twilight_x_length),
                    y: list_mut(twilight_y, twilight_y_length),
                    flags: list_mut(twilight_flags, twilight_flags_length),
                },
            };
            let said = replayer.run(list(sheet, sheet_length), start, budget);
            replayer.state.write(state_words);
            said
        }
        _ => Answer {
            number: BAD_WORD,
            place: start,
            lines: 0,
            detail: 0,
        },
    };
    if let [number, place, lines, detail] = answer {
        *number = u64::from(said.number);
        *place = said.place as u64;
        *lines = said.lines;
        *detail = said.detail as u64;
    }
    said.number
}
