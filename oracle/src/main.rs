//! Runs the Rust that Taleviqa ports: samples, comparisons, coverage.

mod answer;
mod apart;
mod case;
mod claims;
mod compare;
mod coverage;
mod direct;
mod entry;
mod generate;
mod lines_of;
mod math_rows;
mod notable;
mod numbers;
mod opcodes;
mod panics;
mod projection_rows;
mod random;
mod record;
mod replay;
mod rules;
mod sample;
mod scene;
mod serve;
mod shadow;
mod show;
mod shrink;
mod vectors;
mod words;
mod world;
mod wraps;

use rules::Rules;
use serve::Stream;
use std::{io::Write, path::Path, process::ExitCode};

const USAGE: &str = "\
usage: oracle/run COMMAND
  sample FOLDER            write the seventeen sample files, the same bytes every time
  check FOLDER             make them again and compare with the folder's
  show FILE                print a sample file as text
  coverage N SEED          make N cases, count what came up, fail if a kind is missing
  coverage FOLDER          count what a sample holds, fail if a kind is missing
  claims                   run document 01's numbers and the findings
  compare [--math|--results|--projection] N SEED PROGRAM
                           run the Rust and a program, print differences; --results
                           is math without the word that says whether a rounding wrapped
  stream N SEED            write the fixed cases and N random ones, with the Rust's outcomes
  serve cases|math|projection         answer a stream from standard input
  serve-wrongly cases|math|projection the same with one answer wrong
  record FILE              write document 01's whole run as a record
  replay FILE [START BUDGET] [RULES]
                           run a record and print everything; freetype unless told skrifa
  panics N SEED            find where the Rust panics (build it as checked)";

fn main() -> ExitCode {
    panics::watch();
    let arguments: Vec<String> = std::env::args().skip(1).collect();
    let arguments: Vec<&str> = arguments.iter().map(String::as_str).collect();
    match command(&arguments) {
        Ok(true) => ExitCode::SUCCESS,
        Ok(false) => ExitCode::FAILURE,
        Err(error) => {
            eprintln!("oracle: {error}");
            ExitCode::from(2)
        }
    }
}

fn command(arguments: &[&str]) -> Result<bool, String> {
    match arguments {
        ["sample", folder] => sample::write(Path::new(folder)).map(|()| true),
        ["check", folder] => sample::check(Path::new(folder)),
        ["show", file] => show_file(file).map(|()| true),
        ["coverage", folder] => sample::coverage(Path::new(folder)),
        ["coverage", count, seed] => Ok(coverage::of_random(count_of(count)?, number(seed)?)),
        ["claims"] => Ok(claims::check_all()),
        ["compare", "--math", rest @ ..] => compare(Stream::Math, rest),
        ["compare", "--results", rest @ ..] => compare(Stream::Results, rest),
        ["compare", "--projection", rest @ ..] => compare(Stream::Projection, rest),
        ["compare", rest @ ..] => compare(Stream::Cases, rest),
        ["stream", count, seed] => write_stream(count_of(count)?, number(seed)?).map(|()| true),
        ["serve", name] => serve::serve(stream(name)?).map(|()| true),
        ["serve-wrongly", name] => serve::serve_wrongly(stream(name)?).map(|()| true),
        ["record", file] => write_record(file).map(|()| true),
        ["replay", file, limits @ ..] => replay(file, limits),
        ["panics", count, seed] => {
            panics::find(count_of(count)?, number(seed)?);
            Ok(true)
        }
        ["help" | "-h" | "--help"] => {
            println!("{USAGE}");
            Ok(true)
        }
        _ => Err(format!("no such command\n{USAGE}")),
    }
}

fn number(text: &str) -> Result<u64, String> {
    text.parse().map_err(|_| format!("{text} is no number"))
}

fn count_of(text: &str) -> Result<usize, String> {
    text.parse().map_err(|_| format!("{text} is no number"))
}

fn stream(name: &str) -> Result<Stream, String> {
    Stream::named(name).ok_or(format!("{name} is none of cases, math, projection"))
}

fn compare(stream: Stream, arguments: &[&str]) -> Result<bool, String> {
    let [count, seed, program] = arguments else {
        return Err("compare takes N, SEED and a PROGRAM".into());
    };
    compare::compare(stream, count_of(count)?, number(seed)?, program)
}

/// The cases that `compare` asks about, each with its outcome, as a sample has them.
fn write_stream(count: usize, seed: u64) -> Result<(), String> {
    let mut random = random::Random::new(seed);
    let mut out = std::io::BufWriter::new(std::io::stdout().lock());
    let fixed = generate::fixed_cases(&mut random);
    let others = (0..count).map(|_| generate::any_case(&mut random));
    for case in fixed.into_iter().chain(others) {
        let bytes = words::to_bytes(&case.words(&case.outcome()));
        out.write_all(&bytes).map_err(|error| error.to_string())?;
    }
    out.flush().map_err(|error| error.to_string())
}

fn show_file(file: &str) -> Result<(), String> {
    let words = words::from_bytes(&read_file(file)?)?;
    let name = Path::new(file).file_name().and_then(|name| name.to_str());
    let text = match name {
        Some("math") => show::math(&words)?,
        Some("projection") => show::projection(&words)?,
        _ => show::cases(&words)?,
    };
    print_text(&text)
}

fn write_record(file: &str) -> Result<(), String> {
    let world = generate::whole_run_of_01().world;
    let record = record::write(&world).ok_or("the record would be too long")?;
    std::fs::write(file, words::to_bytes(&record)).map_err(|error| format!("{file}: {error}"))
}

/// Runs a record; document 02's start, budget and rules unless others are given.
fn replay(file: &str, given: &[&str]) -> Result<bool, String> {
    let (limits, rules) = match given {
        [limits @ .., name] if Rules::named(name).is_some() => (limits, Rules::named(name)),
        limits => (limits, None),
    };
    let limits = match limits {
        [] => None,
        [start, budget] => Some((number(start)?, number(budget)?)),
        _ => return Err("replay takes a FILE, START and BUDGET, and skrifa or freetype".into()),
    };
    let mut world = match record::read(&read_file(file)?) {
        Ok(world) => world,
        Err(number) => {
            println!("{number} 0 0 0");
            return Ok(false);
        }
    };
    let (start, budget) = limits.unwrap_or((0, world.lists[world::SHEET].len() as u64));
    let rules = rules.unwrap_or(Rules::FreeType);
    let answer = replay::run(&mut world, rules, start, budget);
    print_text(&format!("{answer}\n{}", show::world_text(&world)))?;
    Ok(true)
}

fn read_file(file: &str) -> Result<Vec<u8>, String> {
    std::fs::read(file).map_err(|error| format!("{file}: {error}"))
}

/// A reader that has seen enough and closes the pipe is no error.
fn print_text(text: &str) -> Result<(), String> {
    use std::io::{ErrorKind, Write};
    match std::io::stdout().write_all(text.as_bytes()) {
        Err(error) if error.kind() != ErrorKind::BrokenPipe => Err(error.to_string()),
        _ => Ok(()),
    }
}
