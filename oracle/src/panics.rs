//! Where the Rust panics: every place once, with a small input. Meant for the
//! build with overflow checks.

use crate::{
    case::Case, generate::any_case, math_rows, notable, projection_rows, random::Random,
    show::case_text, shrink::shrink,
};
use std::{
    cell::{Cell, RefCell},
    collections::BTreeMap,
    panic::{catch_unwind, set_hook, take_hook, AssertUnwindSafe, PanicHookInfo},
};

thread_local! {
    static WATCHING: Cell<bool> = const { Cell::new(false) };
    static PLACE: RefCell<Option<String>> = const { RefCell::new(None) };
}

/// Keeps the place of an expected panic; any other is told as usual.
pub fn watch() {
    let usual = take_hook();
    set_hook(Box::new(move |info| {
        if WATCHING.get() {
            PLACE.set(Some(place_text(info)));
        } else {
            usual(info);
        }
    }));
}

/// File, line and message, the file without its folders above the Rust.
fn place_text(info: &PanicHookInfo) -> String {
    let message = info.payload().downcast_ref::<&str>().unwrap_or(&"");
    let Some(location) = info.location() else {
        return message.to_string();
    };
    let file = location.file();
    let own = file.find("hint/").map_or(file, |start| &file[start..]);
    format!("{own}:{} {message}", location.line())
}

/// Where the work panics, if it does.
pub fn place_of<R>(work: impl FnOnce() -> R) -> Option<String> {
    WATCHING.set(true);
    let outcome = catch_unwind(AssertUnwindSafe(work));
    WATCHING.set(false);
    match outcome {
        Ok(_) => None,
        Err(_) => PLACE.take(),
    }
}

/// Prints each place of a panic with the smallest input found.
pub fn find(count: usize, seed: u64) {
    let mut random = Random::new(seed);
    let mut places: BTreeMap<String, Found> = BTreeMap::new();
    for case in notable::lines().iter().chain(&notable::iups()) {
        if let Some(place) = place_of(|| case.outcome()) {
            println!("{place}: {}", case_text(case));
        }
    }
    for _ in 0..count {
        let case = any_case(&mut random);
        note(
            &mut places,
            place_of(|| case.outcome()),
            case_size(&case),
            || Input::Case(Box::new(case.clone())),
        );
        let row = math_rows::random_row(&mut random);
        note(
            &mut places,
            place_of(|| row.outcome()),
            row.weight(),
            || Input::Row(row.to_string()),
        );
        let row = projection_rows::random_row(&mut random);
        note(
            &mut places,
            place_of(|| row.outcome()),
            row.weight(),
            || Input::Row(row.to_string()),
        );
    }
    for (place, found) in &places {
        println!("{place}: {} times; smallest:", found.times);
        println!("  {}", found.input.text(place));
    }
    println!(
        "{count} cases and {} rows, {} places",
        2 * count,
        places.len()
    );
}

struct Found {
    times: usize,
    size: u64,
    input: Input,
}

enum Input {
    Case(Box<Case>),
    Row(String),
}

impl Input {
    fn text(&self, place: &str) -> String {
        match self {
            Input::Row(text) => text.clone(),
            Input::Case(case) => case_text(&smallest_at(case, place)),
        }
    }
}

/// The smallest case that panics at the same place.
fn smallest_at(case: &Case, place: &str) -> Case {
    let panics_here = |case: &Case| place_of(|| case.outcome()).as_deref() == Some(place);
    let first = |cases: &[Case]| Ok(cases.iter().position(panics_here));
    shrink(case, first).unwrap_or_else(|_| case.clone())
}

fn note(
    places: &mut BTreeMap<String, Found>,
    place: Option<String>,
    size: u64,
    input: impl FnOnce() -> Input,
) {
    let Some(place) = place else {
        return;
    };
    match places.get_mut(&place) {
        None => {
            let input = input();
            places.insert(
                place,
                Found {
                    times: 1,
                    size,
                    input,
                },
            );
        }
        Some(found) => {
            found.times += 1;
            if size < found.size {
                found.size = size;
                found.input = input();
            }
        }
    }
}

fn case_size(case: &Case) -> u64 {
    case.world.expanded().len() as u64
}
