//! The Rust as a program of the comparison's protocol: input on standard
//! input, outcomes on standard output.

use crate::{
    case::{read_stream, Outcome},
    math_rows::{self, MathRow},
    projection_rows::{self, ProjectionRow},
    words,
};
use std::ops::Range;

/// What a stream holds.
#[derive(Copy, Clone, PartialEq, Eq, Debug)]
pub enum Stream {
    Cases,
    Math,
    /// Math for a program that knows nothing of wrapping.
    Results,
    Projection,
}

impl Stream {
    pub fn named(name: &str) -> Option<Self> {
        match name {
            "cases" => Some(Self::Cases),
            "math" => Some(Self::Math),
            "results" => Some(Self::Results),
            "projection" => Some(Self::Projection),
            _ => None,
        }
    }
}

/// Answers a whole stream.
pub fn serve(stream: Stream) -> Result<(), String> {
    let given = words::read_all(std::io::stdin())?;
    let outcomes = answers(stream, &given)?;
    words::write_all(std::io::stdout(), &outcomes).map_err(|error| error.to_string())
}

/// Answers a stream wrongly once, to show that a comparison sees it.
pub fn serve_wrongly(stream: Stream) -> Result<(), String> {
    let given = words::read_all(std::io::stdin())?;
    let mut outcomes = answers(stream, &given)?;
    if let Some(word) = outcomes.first_mut() {
        *word ^= 1;
    }
    words::write_all(std::io::stdout(), &outcomes).map_err(|error| error.to_string())
}

fn answers(stream: Stream, given: &[u32]) -> Result<Vec<u32>, String> {
    match stream {
        Stream::Cases => {
            let cases = read_stream(given)?;
            let outcomes = cases.iter().map(|(case, _)| case.outcome());
            Ok(outcomes
                .flat_map(|outcome: Outcome| outcome.words())
                .collect())
        }
        Stream::Math => Ok(math_answers(given, math_rows::OUTCOME)),
        Stream::Results => Ok(math_answers(given, math_rows::ANSWER_AND_RESULT)),
        Stream::Projection => {
            let rows = given.chunks_exact(projection_rows::ROW_WORDS);
            let outcomes = rows.map(|row| ProjectionRow::from_words(row).words());
            Ok(outcomes
                .flat_map(|row| row[projection_rows::OUTCOME].to_vec())
                .collect())
        }
    }
}

fn math_answers(given: &[u32], said: Range<usize>) -> Vec<u32> {
    let rows = given.chunks_exact(math_rows::ROW_WORDS);
    let outcomes = rows.map(|row| MathRow::from_words(row).words());
    outcomes
        .flat_map(|row| row[said.clone()].to_vec())
        .collect()
}
