//! Makes a case smaller while it still shows what it was kept for.

use crate::{
    case::Case,
    world::{fresh_state, state_of, state_words, GLYPH_LISTS, LIST_COUNT, TWILIGHT_LISTS},
};

/// Worlds with more words than this are left as they are.
const MOST_WORDS: usize = 400;

/// A case from which nothing more can be left out. Which of several cases is
/// the first to show it is asked of the caller.
pub fn shrink(
    case: &Case,
    mut first_to_show: impl FnMut(&[Case]) -> Result<Option<usize>, String>,
) -> Result<Case, String> {
    let mut smallest = case.clone();
    if case.world.expanded().len() > MOST_WORDS {
        return Ok(smallest);
    }
    loop {
        let mut smaller = candidates(&smallest);
        match first_to_show(&smaller)? {
            Some(index) => smallest = smaller.swap_remove(index),
            None => return Ok(smallest),
        }
    }
}

/// The case with one thing left out or made plain, in every way.
fn candidates(case: &Case) -> Vec<Case> {
    let mut all = Vec::new();
    for lists in [GLYPH_LISTS, TWILIGHT_LISTS] {
        for index in (0..case.world.lists[*lists.end()].len()).rev() {
            let mut smaller = case.clone();
            for list in lists.clone() {
                if index < smaller.world.lists[list].len() {
                    smaller.world.lists[list].remove(index);
                }
            }
            all.push(smaller);
        }
    }
    for list in 0..LIST_COUNT {
        let is_zone = GLYPH_LISTS.contains(&list) || TWILIGHT_LISTS.contains(&list);
        for index in 0..case.world.lists[list].len() {
            if !is_zone {
                let mut smaller = case.clone();
                smaller.world.lists[list].remove(index);
                all.push(smaller);
            }
            all.extend(plainer_words(case.world.lists[list][index]).map(|word| {
                let mut smaller = case.clone();
                smaller.world.lists[list][index] = word;
                smaller
            }));
        }
    }
    all.extend(plainer_states(case));
    all
}

/// Numbers nearer to 0: none, half, and by smaller and smaller parts.
fn plainer_words(word: u32) -> impl Iterator<Item = u32> {
    let number = i64::from(word as i32);
    let parts = [1, 2, 4, 16, 256, 1 << 12, 1 << 16, 1 << 20, 1 << 24];
    let less = parts.map(|part| number - number / part);
    let tried = less.into_iter().chain([number - number.signum()]);
    tried
        .filter(move |plainer| *plainer != number)
        .map(|plainer| plainer as i32 as u32)
}

/// Each word of the state as a fresh state has it.
fn plainer_states(case: &Case) -> Vec<Case> {
    let words = state_words(&case.world.state);
    let fresh = state_words(&fresh_state());
    let mut all = Vec::new();
    for (place, word) in fresh.iter().enumerate() {
        if words[place] != *word {
            let mut plainer = words;
            plainer[place] = *word;
            if let Ok(state) = state_of(&plainer) {
                let mut smaller = case.clone();
                smaller.world.state = state;
                all.push(smaller);
            }
        }
    }
    all
}
