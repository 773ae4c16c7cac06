//! Samples as text that people read.

use crate::{
    case::{read_stream, Case, Outcome},
    direct::Call,
    math_rows::{self, MathOutcome, MathRow},
    opcodes::name_of,
    projection_rows::{self, ProjectionRow},
    words::joined,
    world::{
        fresh_state, is_unsigned, state_words, World, LIST_NAMES, SHEET, STATE_NAMES, STATE_WORDS,
    },
};

/// Lists longer than this are cut in what is shown.
const SHOWN: usize = 24;

pub fn math(words: &[u32]) -> Result<String, String> {
    let mut text = String::new();
    for (number, row) in whole_rows(words, math_rows::ROW_WORDS)?.enumerate() {
        let given = MathRow::from_words(row);
        if !given.is_known() {
            return Err(format!("row {number}: no op {}", row[0]));
        }
        let outcome = MathOutcome::of_words(&row[math_rows::OUTCOME]);
        text += &format!("{number}: {given} -> {outcome}\n");
    }
    Ok(text)
}

pub fn projection(words: &[u32]) -> Result<String, String> {
    let mut text = String::new();
    for (number, row) in whole_rows(words, projection_rows::ROW_WORDS)?.enumerate() {
        let given = ProjectionRow::from_words(row);
        if !given.is_known() {
            return Err(format!("row {number}: no op {}", row[0]));
        }
        let results: Vec<i32> = row[12..16].iter().map(|word| *word as i32).collect();
        text += &format!(
            "{number}: {given} -> answer {} results {results:?}\n",
            row[11]
        );
    }
    Ok(text)
}

pub fn cases(words: &[u32]) -> Result<String, String> {
    let mut text = String::new();
    for (number, (case, outcome)) in read_stream(words)?.iter().enumerate() {
        let given = case_text(case);
        let after = outcome_text(case, outcome);
        text += &format!("case {number}: {given}\n  -> {after}\n");
    }
    Ok(text)
}

fn whole_rows(words: &[u32], size: usize) -> Result<std::slice::ChunksExact<'_, u32>, String> {
    let rows = words.chunks_exact(size);
    match rows.remainder() {
        [] => Ok(rows),
        _ => Err(format!("{} words are no whole rows of {size}", words.len())),
    }
}

/// The call, what isn't fresh in the state, and the lists that aren't empty.
pub fn case_text(case: &Case) -> String {
    let mut text = format!("{:?}", case.call);
    if let Call::Run { start, .. } = case.call {
        let sheet = case.world.sheet();
        let opcode = sheet
            .get(start as usize)
            .and_then(|word| u8::try_from(*word).ok());
        if let Some(opcode) = opcode {
            text += &format!(" at {}", name_of(opcode));
        }
    }
    text += &format!("\n  state: {}", state_text(&case.world));
    for (index, name) in LIST_NAMES.iter().enumerate() {
        let list = &case.world.lists[index];
        if !list.is_empty() {
            text += &format!("\n  {name}: {}", list_text(list, index == SHEET));
        }
    }
    text
}

fn state_text(world: &World) -> String {
    let words = state_words(&world.state).into_iter();
    let fresh = state_words(&fresh_state());
    let unlike: Vec<String> = words
        .enumerate()
        .filter(|(place, word)| fresh[*place] != *word)
        .map(|(place, word)| format!("{} {}", STATE_NAMES[place], state_number(place, word)))
        .collect();
    if unlike.is_empty() {
        "fresh".into()
    } else {
        format!("fresh but {}", unlike.join(", "))
    }
}

/// A word of state or lists as the number it is: counts have no sign.
fn state_number(place: usize, word: u32) -> i64 {
    if place < STATE_WORDS && is_unsigned(place) {
        i64::from(word)
    } else {
        i64::from(word as i32)
    }
}

/// Every word of a world, a named line for each number and each list.
pub fn world_text(world: &World) -> String {
    let words = state_words(&world.state);
    let mut text = String::new();
    for (place, name) in STATE_NAMES.iter().enumerate() {
        if let Some(reference) = name.strip_suffix(" low") {
            let number = joined(words[place], words[place + 1]);
            text += &format!("{reference}: {number}\n");
        } else if !name.ends_with(" high") {
            text += &format!("{name}: {}\n", state_number(place, words[place]));
        }
    }
    for (name, list) in LIST_NAMES.iter().zip(&world.lists) {
        text += &format!("{name}: {}\n", list_text(list, true));
    }
    text
}

fn list_text(list: &[u32], whole: bool) -> String {
    let signed: Vec<i32> = list.iter().map(|word| *word as i32).collect();
    if signed.len() > SHOWN && signed.iter().all(|word| *word == signed[0]) {
        format!("{} times {}", signed.len(), signed[0])
    } else if signed.len() > SHOWN && !whole {
        format!("{:?} and {} more", &signed[..SHOWN], signed.len() - SHOWN)
    } else {
        format!("{signed:?}")
    }
}

pub fn outcome_text(case: &Case, outcome: &Outcome) -> String {
    let value = outcome.returned.value.map(|word| word as i32);
    let mut text = format!("answer {}, value {value:?}", outcome.returned.answer);
    for (index, word) in outcome.changes.iter().take(SHOWN) {
        let name = case.world.word_name(*index as usize);
        let number = state_number(*index as usize, *word);
        text += &format!("; {name} = {number}");
    }
    if outcome.changes.len() > SHOWN {
        text += &format!("; and {} more changes", outcome.changes.len() - SHOWN);
    }
    text
}
