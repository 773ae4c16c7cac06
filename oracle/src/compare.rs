//! Runs the Rust and another program on the same input and shows where they
//! differ, smallest input first.

use crate::{
    case::{Case, Outcome},
    generate::{any_case, fixed_cases},
    math_rows::{self, MathRow},
    projection_rows::{self, ProjectionRow},
    random::Random,
    serve::Stream,
    show::{case_text, outcome_text},
    shrink::shrink,
    words,
};
use std::{
    io::{Read, Write},
    ops::Range,
    process::{Command, Stdio},
};

/// Inputs that one start of the program is given.
const BATCH: usize = 500;
/// Differences that are printed in full.
const SHOWN: usize = 10;

/// A difference: the input's size for sorting, its text, and the case where
/// it is one.
struct Difference {
    size: u64,
    text: String,
    case: Option<Case>,
}

/// True if the program gave the Rust's outcome every time.
pub fn compare(stream: Stream, count: usize, seed: u64, program: &str) -> Result<bool, String> {
    let mut random = Random::new(seed);
    let mut differences = Vec::new();
    let mut compared = 0;
    if stream == Stream::Cases {
        let cases = fixed_cases(&mut random);
        differences = compare_cases(&cases, program)?;
        compared = cases.len();
    }
    let mut left = count;
    while left > 0 {
        let batch = left.min(BATCH);
        let found = match stream {
            Stream::Cases => {
                let cases: Vec<Case> = (0..batch).map(|_| any_case(&mut random)).collect();
                compare_cases(&cases, program)?
            }
            Stream::Math => compare_math(&mut random, batch, program, math_rows::OUTCOME)?,
            Stream::Results => {
                let said = math_rows::ANSWER_AND_RESULT;
                compare_math(&mut random, batch, program, said)?
            }
            Stream::Projection => compare_projection(&mut random, batch, program)?,
        };
        differences.extend(found);
        left -= batch;
    }
    compared += count;
    differences.sort_by_key(|difference| difference.size);
    shrink_the_first(&mut differences, program)?;
    for difference in differences.iter().take(SHOWN) {
        println!("{}\n", difference.text);
    }
    let different = differences.len();
    println!("{compared} compared (seed {seed}), {different} different");
    Ok(differences.is_empty())
}

/// Makes the smallest difference smaller still, by asking the program again.
fn shrink_the_first(differences: &mut [Difference], program: &str) -> Result<(), String> {
    let Some(Difference {
        case: Some(case), ..
    }) = differences.first()
    else {
        return Ok(());
    };
    let smallest = shrink(case, |cases| {
        let found = compare_cases(cases, program)?;
        let still = |case: &Case| found.iter().any(|one| one.case.as_ref() == Some(case));
        Ok(cases.iter().position(still))
    })?;
    let shown = compare_cases(&[smallest], program)?;
    if let (Some(first), Some(smaller)) = (differences.first_mut(), shown.into_iter().next()) {
        *first = smaller;
    }
    Ok(())
}

fn compare_cases(cases: &[Case], program: &str) -> Result<Vec<Difference>, String> {
    let unanswered = Outcome::default();
    let given: Vec<u32> = cases
        .iter()
        .flat_map(|case| case.words(&unanswered))
        .collect();
    let answered = ask(program, &given)?;
    let mut left = &answered[..];
    let mut differences = Vec::new();
    for case in cases {
        let (got, rest) = Outcome::read(left)?;
        left = rest;
        let wanted = case.outcome();
        // Naming a word that stays as it is makes no difference.
        if got.returned != wanted.returned || case.after(&got) != case.after(&wanted) {
            differences.push(Difference {
                size: case.world.expanded().len() as u64,
                text: format!(
                    "{}\n  Rust:    {}\n  program: {}",
                    case_text(case),
                    outcome_text(case, &wanted),
                    outcome_text(case, &got)
                ),
                case: Some(case.clone()),
            });
        }
    }
    nothing_left(left)?;
    Ok(differences)
}

fn compare_math(
    random: &mut Random,
    count: usize,
    program: &str,
    said: Range<usize>,
) -> Result<Vec<Difference>, String> {
    let random_row = |_| {
        if said == math_rows::OUTCOME {
            math_rows::random_row(random)
        } else {
            math_rows::row_without_trap(random)
        }
    };
    let rows: Vec<MathRow> = (0..count).map(random_row).collect();
    let blank = |row: &MathRow| blanked(row.words().to_vec(), math_rows::OUTCOME);
    let given: Vec<u32> = rows.iter().flat_map(blank).collect();
    let wanted = rows.iter().map(|row| {
        let size = row.weight();
        (size, row.to_string(), row.words()[said.clone()].to_vec())
    });
    compare_rows(wanted.collect(), &ask(program, &given)?)
}

fn compare_projection(
    random: &mut Random,
    count: usize,
    program: &str,
) -> Result<Vec<Difference>, String> {
    let random_row = |_| projection_rows::random_row(random);
    let rows: Vec<ProjectionRow> = (0..count).map(random_row).collect();
    let blank = |row: &ProjectionRow| blanked(row.words().to_vec(), projection_rows::OUTCOME);
    let given: Vec<u32> = rows.iter().flat_map(blank).collect();
    let wanted = rows.iter().map(|row| {
        let size = row.weight();
        let outcome = row.words()[projection_rows::OUTCOME].to_vec();
        (size, row.to_string(), outcome)
    });
    compare_rows(wanted.collect(), &ask(program, &given)?)
}

/// Rows have outcomes of one size: the answer, then the results.
fn compare_rows(
    wanted: Vec<(u64, String, Vec<u32>)>,
    answered: &[u32],
) -> Result<Vec<Difference>, String> {
    let mut left = answered;
    let mut differences = Vec::new();
    for (size, row, wanted) in wanted {
        if left.len() < wanted.len() {
            return Err("the program's output ends too soon".into());
        }
        let (got, rest) = left.split_at(wanted.len());
        left = rest;
        if got != wanted {
            let text = format!(
                "{row}\n  Rust:    {:?}\n  program: {:?}",
                signed(&wanted),
                signed(got)
            );
            differences.push(Difference {
                size,
                text,
                case: None,
            });
        }
    }
    nothing_left(left)?;
    Ok(differences)
}

fn signed(words: &[u32]) -> Vec<i32> {
    words.iter().map(|word| *word as i32).collect()
}

fn blanked(mut row: Vec<u32>, outcome: Range<usize>) -> Vec<u32> {
    row[outcome].fill(0);
    row
}

fn nothing_left(left: &[u32]) -> Result<(), String> {
    if left.is_empty() {
        return Ok(());
    }
    Err(format!("the program wrote {} words too many", left.len()))
}

/// Starts the program, gives it the words and takes what it writes.
fn ask(program: &str, given: &[u32]) -> Result<Vec<u32>, String> {
    let failed = |error: std::io::Error| format!("{program}: {error}");
    let mut child = Command::new("sh")
        .args(["-c", program])
        .stdin(Stdio::piped())
        .stdout(Stdio::piped())
        .spawn()
        .map_err(failed)?;
    let mut input = child.stdin.take().ok_or("no standard input")?;
    let bytes = words::to_bytes(given);
    // On a thread of its own, since the program may answer before it has read all.
    let writer = std::thread::spawn(move || input.write_all(&bytes));
    let mut answered = Vec::new();
    let mut output = child.stdout.take().ok_or("no standard output")?;
    output.read_to_end(&mut answered).map_err(failed)?;
    let status = child.wait().map_err(failed)?;
    if !status.success() {
        return Err(format!("{program}: {status}"));
    }
    match writer.join() {
        Ok(written) => written.map_err(failed)?,
        Err(_) => return Err("the input could not be written".into()),
    }
    words::from_bytes(&answered)
}
