//! Which math and projection rows came up.

use crate::{
    math_rows::{MathRow, OPS},
    numbers::corners,
    projection_rows::{self, ProjectionRow},
};

/// The head of every key that counts a corner.
pub const CORNER: &str = "corner ";

pub fn math_keys(row: &MathRow) -> Vec<String> {
    let mut keys = vec![answer_key(row.name(), row.outcome().answer)];
    let corners = corners();
    for place in 0..row.argument_count() {
        let argument = row.arguments[place];
        if corners.binary_search(&argument).is_ok() {
            keys.push(corner_key(row.name(), place, argument));
        }
    }
    keys
}

pub fn projection_keys(row: &ProjectionRow) -> Vec<String> {
    let name = row.name();
    let outcome = row.outcome();
    let mut keys = vec![answer_key(name, outcome.answer)];
    if outcome.answer == 0 && row.op == 0 {
        keys.extend((1..4).map(|place| axis_key(place, outcome.results[place])));
    }
    keys
}

pub fn required() -> Vec<String> {
    let mut keys = Vec::new();
    for op in OPS {
        let row = MathRow::new(op, [0; 4]);
        keys.push(answer_key(row.name(), 0));
        for place in 0..row.argument_count() {
            keys.extend(
                corners()
                    .iter()
                    .map(|corner| corner_key(row.name(), place, *corner)),
            );
        }
    }
    keys.push(answer_key("Super45", 3));
    for name in projection_rows::NAMES {
        keys.push(answer_key(name, 0));
        keys.push(answer_key(name, 3));
    }
    for place in 1..4 {
        keys.extend((0..3).map(|axis| axis_key(place, axis)));
    }
    keys
}

fn answer_key(name: &str, answer: u32) -> String {
    format!("row {name}: answer {answer}")
}

fn corner_key(name: &str, place: usize, corner: i32) -> String {
    format!("{CORNER}{corner} as argument {place} of {name}")
}

fn axis_key(place: usize, axis: i32) -> String {
    let vector = ["projection", "dual", "freedom"][place - 1];
    format!("row derived: {vector} axis {axis}")
}
