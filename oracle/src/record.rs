//! The record of document 02 (editions 1 to 3) as a run's input.

use crate::world::*;

const TRAILER_WORDS: usize = 8;
/// Where the trailer says the edition.
const EDITION: usize = 5;
/// The edition that is written.
const NEWEST: u32 = 3;
const MOST_BYTES: usize = 24 * 1024;

/// Document 02's numbers for a refused record.
const TOO_LONG: u32 = 17;
const OUT_OF_RANGE: u32 = 16;
const WRONG_SUM: u32 = 15;

/// The record's world, or the number of its refusal.
pub fn read(bytes: &[u8]) -> Result<World, u32> {
    if bytes.len() > MOST_BYTES {
        return Err(TOO_LONG);
    }
    let words = crate::words::from_bytes(bytes).map_err(|_| OUT_OF_RANGE)?;
    let body_words = words.len().checked_sub(TRAILER_WORDS).ok_or(OUT_OF_RANGE)?;
    let (body, trailer) = words.split_at(body_words);
    let state_count = state_words_in(trailer[EDITION]).ok_or(OUT_OF_RANGE)?;
    let lengths = list_lengths(body.len(), state_count, trailer)?;
    let (of_state, mut left) = body.split_at(state_count);
    // What an older edition doesn't have is as in a fresh state.
    let mut words_of_state = state_words(&fresh_state());
    words_of_state[..state_count].copy_from_slice(of_state);
    let state = state_of(&words_of_state).map_err(|_| OUT_OF_RANGE)?;
    let mut lists: [Vec<u32>; LIST_COUNT] = Default::default();
    for (list, length) in lists.iter_mut().zip(lengths) {
        let (own, rest) = left.split_at(length);
        *list = own.to_vec();
        left = rest;
    }
    let world = World { state, lists };
    if !words_in_range(&world) {
        return Err(OUT_OF_RANGE);
    }
    let (before_sum, sum) = words.split_at(words.len() - 1);
    let total = before_sum
        .iter()
        .fold(0, |sum: u32, word| sum.wrapping_add(*word));
    if total != sum[0] {
        return Err(WRONG_SUM);
    }
    Ok(world)
}

/// How many words of state a record of the edition has.
fn state_words_in(edition: u32) -> Option<usize> {
    match edition {
        1 => Some(26),
        2 => Some(27),
        NEWEST => Some(STATE_WORDS),
        _ => None,
    }
}

/// The fifteen lengths that the trailer says, if with the state they fill the body.
fn list_lengths(
    body_words: usize,
    state_count: usize,
    trailer: &[u32],
) -> Result<[usize; LIST_COUNT], u32> {
    let [n, contours, m, values, sheet] =
        [0, 1, 2, 3, 4].map(|place: usize| trailer[place] as usize);
    let in_limits = n <= MOST_POINTS
        && contours <= MOST_CONTOURS
        && m <= MOST_POINTS
        && values <= MOST_CONTROL_VALUES
        && sheet <= MOST_SHEET_WORDS;
    let lengths = [n, n, n, n, n, n, n, contours, m, m, m, m, m, values, sheet];
    let fills = state_count + lengths.iter().sum::<usize>() == body_words;
    let back = trailer[6] as usize == body_words * 4;
    if in_limits && fills && back {
        Ok(lengths)
    } else {
        Err(OUT_OF_RANGE)
    }
}

/// Flags are bytes and contour ends have 16 bits.
fn words_in_range(world: &World) -> bool {
    let below = |list: usize, limit: u32| world.lists[list].iter().all(|word| *word < limit);
    below(FLAGS, 1 << 8) && below(TWILIGHT_FLAGS, 1 << 8) && below(CONTOURS, 1 << 16)
}

/// The record of a world whose zones' lengths are equal, in the newest edition;
/// none where it would be too long.
pub fn write(world: &World) -> Option<Vec<u32>> {
    let mut words = world.expanded();
    let back = words.len() as u32 * 4;
    let length = |list: usize| world.lists[list].len() as u32;
    words.extend([FLAGS, CONTOURS, TWILIGHT_FLAGS, CONTROL_VALUES, SHEET].map(length));
    words.extend([NEWEST, back]);
    let sum = words
        .iter()
        .fold(0, |sum: u32, word| sum.wrapping_add(*word));
    words.push(sum);
    (words.len() * 4 <= MOST_BYTES).then_some(words)
}
