//! Counts what came up, and names what is missing.

mod branches;
mod distances;
mod ends;
mod keys;
mod largest;
mod lengths;
mod required;
mod rows;
mod rules;
mod selectors;
mod settings;
mod shifts;
mod singles;
mod wraps;

use crate::{
    answer,
    case::{read_stream, Case, Outcome},
    direct::Call,
    generate::{any_case, fixed_cases},
    lines_of::{finished_lines, first_outside, refused_line, ReachedLine},
    math_rows::{self, MathRow},
    opcodes::{name_of, rounds, row_of},
    projection_rows::{self, ProjectionRow},
    random::Random,
    vectors::{self, kind_of},
    world::*,
};
use keys::*;
use std::collections::BTreeMap;

/// Counts the fixed cases and so many random ones; true if nothing is missing.
pub fn of_random(count: usize, seed: u64) -> bool {
    let mut random = Random::new(seed);
    let mut coverage = Coverage::default();
    for case in fixed_cases(&mut random) {
        coverage.count_case(&case, &case.outcome());
    }
    for row in math_rows::sample() {
        coverage.count_math(&row);
    }
    for row in projection_rows::sample() {
        coverage.count_projection(&row);
    }
    for _ in 0..count {
        let case = any_case(&mut random);
        coverage.count_case(&case, &case.outcome());
        coverage.count_math(&math_rows::random_row(&mut random));
        coverage.count_projection(&projection_rows::random_row(&mut random));
    }
    coverage.report()
}

/// Counts the files of a sample, given as words by name.
pub fn of_sample(files: &[(String, Vec<u32>)]) -> Result<bool, String> {
    let mut coverage = Coverage::default();
    for (name, words) in files {
        match name.as_str() {
            "math" => {
                let rows = words.chunks_exact(math_rows::ROW_WORDS);
                rows.for_each(|row| coverage.count_math(&MathRow::from_words(row)));
            }
            "projection" => {
                let rows = words.chunks_exact(projection_rows::ROW_WORDS);
                rows.for_each(|row| coverage.count_projection(&ProjectionRow::from_words(row)));
            }
            _ => {
                for (case, outcome) in read_stream(words)? {
                    coverage.count_case(&case, &outcome);
                }
            }
        }
    }
    Ok(coverage.report())
}

#[derive(Default)]
struct Coverage {
    counts: BTreeMap<String, usize>,
    cases: usize,
    rows: usize,
}

impl Coverage {
    fn count_case(&mut self, case: &Case, outcome: &Outcome) {
        self.cases += 1;
        self.count_answer(case, outcome);
        self.count_state(case);
        self.count_sizes(case);
        self.count_entry_refusal(case, outcome);
        if matches!(case.call, Call::Run { .. }) {
            self.count_run(case, outcome);
        }
        for key in branches::keys(case, outcome) {
            self.add(key);
        }
        for key in shifts::keys(case, outcome) {
            self.add(key);
        }
        for key in selectors::keys(case, outcome) {
            self.add(key);
        }
        for key in lengths::keys(case, outcome) {
            self.add(key);
        }
        for key in wraps::keys(case, outcome) {
            self.add(key);
        }
        for key in largest::keys(case, outcome) {
            self.add(key);
        }
        for key in distances::keys(case, outcome) {
            self.add(key);
        }
        for key in ends::keys(case, outcome) {
            self.add(key);
        }
        for key in rules::keys(case, outcome) {
            self.add(key);
        }
        for key in singles::keys(case, outcome) {
            self.add(key);
        }
        for key in settings::keys(case, outcome) {
            self.add(key);
        }
    }

    fn count_math(&mut self, row: &MathRow) {
        self.rows += 1;
        for key in rows::math_keys(row) {
            self.add(key);
        }
        for key in wraps::row_keys(row) {
            self.add(key);
        }
    }

    fn count_projection(&mut self, row: &ProjectionRow) {
        self.rows += 1;
        for key in rows::projection_keys(row) {
            self.add(key);
        }
    }

    fn add(&mut self, key: String) {
        *self.counts.entry(key).or_default() += 1;
    }

    fn count_answer(&mut self, case: &Case, outcome: &Outcome) {
        let kind = CALLS[case.call.numbers().0 as usize];
        let number = outcome.returned.answer.number;
        self.add(format!("answer {number:2}"));
        self.add(format!("call {kind}: answer {number}"));
        if !outcome.changes.is_empty() {
            self.add(format!("call {kind}: changed something"));
        }
    }

    fn count_state(&mut self, case: &Case) {
        let state = &case.world.state;
        let vectors = state.vectors.chunks_exact(2);
        for (name, vector) in ["projection", "dual", "freedom"].iter().zip(vectors) {
            let kind = kind_of([vector[0], vector[1]]);
            self.add(vector_key(name, kind));
        }
        self.add(format!("round mode {}", state.rounding.mode));
        self.add(facts_key(&state_words(state)[20..25]));
        self.add(format!("loop counter {}", loop_kind(state.loop_counter)));
        self.add(format!("contour ends {}", ends_kind(&case.world)));
        for list in COORDINATES {
            self.count_coordinates(&case.world, list);
        }
    }

    fn count_coordinates(&mut self, world: &World, x: usize) {
        for word in world.lists[x].iter().chain(&world.lists[x + 1]) {
            for turn in TURNS {
                for signed in [turn as i32, (-turn) as i32] {
                    let apart = (*word as i32).wrapping_sub(signed).unsigned_abs();
                    if apart <= 2 {
                        self.add(coordinate_key(x, signed));
                    }
                }
            }
        }
    }

    fn count_sizes(&mut self, case: &Case) {
        let world = &case.world;
        for (name, list, most) in sized_lists() {
            self.add(size_key(name, world.lists[list].len(), most));
        }
    }

    fn count_entry_refusal(&mut self, case: &Case, outcome: &Outcome) {
        let world = &case.world;
        if outcome.returned.answer.number == answer::SIZES {
            for list in unequal_lists(world) {
                self.add(format!("refused for the length of {}", LIST_NAMES[list]));
            }
        }
        if outcome.returned.answer.number == answer::STATE {
            for (place, component) in world.state.vectors.iter().enumerate() {
                if component.unsigned_abs() > vectors::ONE as u32 {
                    self.add(format!("refused for {}", STATE_NAMES[place]));
                }
            }
            if vectors::in_range(world.state.vectors) {
                self.add("refused for Super45 with period 0".into());
            }
        }
    }

    fn count_run(&mut self, case: &Case, outcome: &Outcome) {
        let Call::Run { start, budget, .. } = case.call else {
            return;
        };
        let answer = outcome.returned.answer;
        let length = case.world.lists[SHEET].len() as u64;
        self.add(format!("start {}", start_kind(start, length)));
        self.add(format!("budget {}", budget_kind(budget, answer.number)));
        let opcode = case.world.lists[SHEET].first().map_or(256, |word| *word);
        if let (0, Ok(opcode)) = (start, u8::try_from(opcode)) {
            self.add(alone_key(&instruction_of(opcode), answer.number));
        }
        let lines = finished_lines(case, outcome);
        for line in &lines {
            self.add(opcode_key(line.opcode, "done"));
        }
        if answer.number == answer::LINE {
            self.count_unreadable(case, answer.place as usize);
        }
        if let Some(line) = refused_line(case, outcome) {
            self.add(opcode_key(
                line.opcode,
                &format!("refused {}", answer.number),
            ));
            if lines.is_empty() {
                self.count_refused_step(case, outcome, &line);
            }
        }
        if lines.len() == 1 && answer.number == answer::END {
            self.count_single_line(case, &lines[0]);
        }
    }

    /// A line alone: the zone pointers and the round mode it met are known.
    fn count_single_line(&mut self, case: &Case, line: &ReachedLine) {
        let state = &case.world.state;
        let name = name_of(line.opcode);
        self.add(zones_key(&name, state.zones));
        if rounds(line.opcode) {
            self.add(mode_key(&name, state.rounding.mode));
        }
    }

    fn count_unreadable(&mut self, case: &Case, place: usize) {
        let sheet = case.world.sheet();
        let Some(word) = sheet.get(place) else {
            return self.add("unreadable: start beyond the sheet".into());
        };
        let Ok(opcode) = u8::try_from(*word) else {
            return self.add("unreadable: opcode word outside 0 to 255".into());
        };
        if row_of(opcode).is_none() {
            self.add("unreadable: unknown opcode".into());
            return self.add(opcode_key(opcode, "unknown"));
        }
        match sheet.get(place + 1) {
            None => self.add("unreadable: no count word".into()),
            Some(count) if *count < 0 => self.add("unreadable: negative count".into()),
            Some(_) => self.add("unreadable: count past the end".into()),
        }
    }

    /// Which step of a run's first line refused, by document 01's order.
    fn count_refused_step(&mut self, case: &Case, outcome: &Outcome, line: &ReachedLine) {
        let answer = outcome.returned.answer;
        let name = instruction_of(line.opcode);
        if answer.number == answer::TOO_FEW {
            self.add(format!("{name}: 6 after {} operands", line.operands.len()));
        }
        if answer.number != answer::POINT {
            return;
        }
        let step = first_outside(case, line);
        match step {
            Some(step) if step.index == answer.detail => {
                self.add(format!("{name}: 7 by {}", step.name));
            }
            _ => self.add(UNEXPLAINED.into()),
        }
    }

    /// Names what must come up more often than it did; true if there is none.
    fn often_enough(&self) -> bool {
        let mut enough = true;
        let fewest = [
            distances::fewest(),
            rules::fewest(),
            singles::fewest(),
            settings::fewest(),
        ];
        for (key, fewest) in fewest.into_iter().flatten() {
            let count = self.counts.get(&key).copied().unwrap_or_default();
            if count < fewest {
                println!(" TOO FEW  {key}: {count}, at least {fewest}");
                enough = false;
            }
        }
        enough
    }

    /// Prints the counts; true if nothing that must come up is missing.
    fn report(&self) -> bool {
        let Self { cases, rows, .. } = self;
        println!("{cases} cases, {rows} rows");
        let required = required::required();
        for (key, count) in &self.counts {
            // Corners are many, and only a missing one says something.
            if !key.starts_with(rows::CORNER) {
                println!("{count:8}  {key}");
            }
        }
        let is_missing = |key: &&String| !self.counts.contains_key(*key);
        let missing: Vec<&String> = required.iter().filter(is_missing).collect();
        for key in &missing {
            println!(" MISSING  {key}");
        }
        let often_enough = self.often_enough();
        let (all, lacking) = (required.len(), missing.len());
        println!("{all} things must come up, {lacking} are missing");
        missing.is_empty() && often_enough && !self.counts.contains_key(UNEXPLAINED)
    }
}
