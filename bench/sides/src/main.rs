//! The proved replayer, the yardstick and the Rust's own engine on the same runs, in one process.
//!
//!     sides check   holds what the three leave to each other
//!     sides count   under callgrind: each run's instructions, a part of its file each
//!     sides time N  times in nanoseconds: N rounds, the sides in turn
//!
//! A second word behind these: only the cases whose kind or name has it.

mod cases;
mod side;
mod valgrind;
mod world;

use cases::Case;
use side::{Side, NAMES};
use std::{env, hint::black_box, process::ExitCode, time::Instant};

/// About how long a sample takes, in nanoseconds.
const SAMPLE: f64 = 150_000.0;
/// How many copies of a world a sample has, and how many bytes these may have together.
const MOST_COPIES: usize = 64;
const MOST_BYTES: usize = 1 << 18;

fn label(case: &Case) -> String {
    format!(
        "{}|{}|{}|{}|{}",
        case.kind, case.name, case.size, case.of, case.aim
    )
}

fn check(cases: &[Case]) -> bool {
    let mut agree = true;
    for case in cases {
        let left = [0, 1, 2].map(|side| {
            let mut side = Side::new(side, &case.world);
            (side.run(), side.left(&case.world))
        });
        if left[0].0 != 0 || left.iter().any(|one| *one != left[0]) {
            println!(
                "{}: the sides differ, or the run is refused: {:?}",
                label(case),
                [left[0].0, left[1].0, left[2].0]
            );
            agree = false;
        }
    }
    println!(
        "{} runs, {}",
        cases.len(),
        if agree { "none differs" } else { "some differ" }
    );
    agree
}

fn count(cases: &[Case]) {
    for case in cases {
        for (number, name) in NAMES.iter().enumerate() {
            let mut side = Side::new(number, &case.world);
            side.run();
            side.restore(&case.world);
            valgrind::counted(&format!("{}|{name}", label(case)), || {
                black_box(&mut side).run()
            });
        }
    }
}

/// Seconds that one pass over the copies takes, in nanoseconds a run. They are put back before the clock starts.
fn sample(copies: &mut [Side], case: &Case) -> f64 {
    for copy in copies.iter_mut() {
        copy.restore(&case.world);
    }
    let start = Instant::now();
    for copy in copies.iter_mut() {
        black_box(copy.run());
    }
    start.elapsed().as_nanos() as f64 / copies.len() as f64
}

fn time(cases: &[Case], rounds: usize) {
    for case in cases {
        let first = sample(&mut [Side::new(side::OURS, &case.world)], case);
        let room = MOST_BYTES / case.world.bytes().max(1);
        let copies = ((SAMPLE / first) as usize).min(room).clamp(1, MOST_COPIES);
        let mut sides = [0, 1, 2].map(|side| {
            (0..copies)
                .map(|_| Side::new(side, &case.world))
                .collect::<Vec<_>>()
        });
        let mut times = [0, 1, 2].map(|_| Vec::with_capacity(rounds));
        for round in 0..rounds {
            for turn in 0..3 {
                let side = (round + turn) % 3;
                times[side].push(sample(&mut sides[side], case));
            }
        }
        let figures: Vec<String> = times
            .iter_mut()
            .map(|one| {
                one.sort_by(f64::total_cmp);
                format!("{:.1}|{:.1}", one[0], one[one.len() / 2])
            })
            .collect();
        println!("{}|{}", label(case), figures.join("|"));
    }
}

fn main() -> ExitCode {
    let words: Vec<String> = env::args().skip(1).collect();
    let (command, rounds, only) = match words.iter().map(String::as_str).collect::<Vec<_>>()[..] {
        ["time", rounds] => ("time", rounds.parse().unwrap_or(0), ""),
        ["time", rounds, only] => ("time", rounds.parse().unwrap_or(0), only),
        [command] => (command, 1, ""),
        [command, only] => (command, 1, only),
        _ => ("", 0, ""),
    };
    let mut cases = cases::all();
    cases.retain(|case| case.kind == only || case.name.contains(only));
    match command {
        "check" => return ExitCode::from(u8::from(!check(&cases))),
        "count" => count(&cases),
        "time" if rounds > 0 => time(&cases, rounds),
        _ => {
            eprintln!("sides check | count | time ROUNDS, and a part of a case's name");
            return ExitCode::from(2);
        }
    }
    ExitCode::SUCCESS
}
