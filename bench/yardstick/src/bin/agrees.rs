//! Holds the yardstick to the oracle's stored runs: standard input is crates/vectors_cases/stdin, whose form docs/ORACLE.md says.

use std::{
    io::{self, Read},
    process::ExitCode,
};
use yardstick::yardstick_run;

// Places in a case.
const KIND: usize = 1;
const RULES: usize = 7;
const START: usize = 10;
const BUDGET: usize = 12;
const OUTCOME: usize = 14;
const CHANGES: usize = 23;
const LENGTHS: usize = 24;
const STATE: usize = 39;
const STATE_WORDS: usize = 34;
const RUN: u32 = 0;
const ALIKE: u32 = 1 << 31;

fn long(words: &[u32]) -> u64 {
    u64::from(words[0]) | u64::from(words[1]) << 32
}

/// What a run left: number, place, lines, detail, and every word of the state and the lists.
type Left = ([u64; 4], Vec<u32>);

/// The fifteen lists, written out, and the words behind them.
fn lists_of(case: &[u32]) -> (Vec<Vec<u32>>, &[u32]) {
    let mut rest = &case[STATE + STATE_WORDS..];
    let mut lists = Vec::new();
    for size in &case[LENGTHS..STATE] {
        let length = (size & !ALIKE) as usize;
        let (stored, behind) = rest.split_at(if size & ALIKE != 0 { 1 } else { length });
        lists.push(if size & ALIKE != 0 {
            vec![stored[0]; length]
        } else {
            stored.to_vec()
        });
        rest = behind;
    }
    (lists, rest)
}

/// What the oracle says that the run leaves.
fn wanted(case: &[u32], lists: &[Vec<u32>], changes: &[u32]) -> Left {
    let outcome = &case[OUTCOME..CHANGES];
    let mut words = [&case[STATE..STATE + STATE_WORDS], &lists.concat()].concat();
    for change in changes.chunks_exact(2) {
        words[change[0] as usize] = change[1];
    }
    let [place, lines, detail] = [1, 3, 5].map(|at| long(&outcome[at..]));
    ([u64::from(outcome[0]), place, lines, detail], words)
}

/// What the yardstick leaves. Flags are bytes and ends half words; what stands above them in a case is kept.
fn left(case: &[u32], lists: &[Vec<u32>]) -> Left {
    let mut state = case[STATE..STATE + STATE_WORDS].to_vec();
    let numbers =
        |list: usize| -> Vec<i32> { lists[list].iter().map(|word| *word as i32).collect() };
    let bytes = |list: usize| -> Vec<u8> { lists[list].iter().map(|word| *word as u8).collect() };
    let ends: Vec<u16> = lists[7].iter().map(|word| *word as u16).collect();
    let [ux, uy, ox, oy, mut x, mut y] = [0, 1, 2, 3, 4, 5].map(numbers);
    let [mut tox, mut toy, mut tx, mut ty] = [8, 9, 10, 11].map(numbers);
    let [mut flags, mut tflags] = [6, 12].map(bytes);
    let [controls, sheet] = [13, 14].map(numbers);
    let mut answer = [0; 4];
    let number = unsafe {
        yardstick_run(
            case[RULES],
            long(&case[START..]) as usize,
            long(&case[BUDGET..]),
            state.as_mut_ptr(),
            state.len(),
            sheet.as_ptr(),
            sheet.len(),
            controls.as_ptr(),
            controls.len(),
            ux.as_ptr(),
            ux.len(),
            uy.as_ptr(),
            uy.len(),
            ox.as_ptr(),
            ox.len(),
            oy.as_ptr(),
            oy.len(),
            x.as_mut_ptr(),
            x.len(),
            y.as_mut_ptr(),
            y.len(),
            flags.as_mut_ptr(),
            flags.len(),
            ends.as_ptr(),
            ends.len(),
            tox.as_mut_ptr(),
            tox.len(),
            toy.as_mut_ptr(),
            toy.len(),
            tx.as_mut_ptr(),
            tx.len(),
            ty.as_mut_ptr(),
            ty.len(),
            tflags.as_mut_ptr(),
            tflags.len(),
            answer.as_mut_ptr(),
            answer.len(),
        )
    };
    assert!(
        u64::from(number) == answer[0],
        "the number that is returned stands in the answer"
    );
    let words =
        |list: Vec<i32>| -> Vec<u32> { list.into_iter().map(|number| number as u32).collect() };
    let flag_words = |list: usize, bytes: Vec<u8>| -> Vec<u32> {
        let pairs = lists[list].iter().zip(bytes);
        pairs
            .map(|(word, byte)| (word & !0xFF) | u32::from(byte))
            .collect()
    };
    let all = [
        state,
        words(ux),
        words(uy),
        words(ox),
        words(oy),
        words(x),
        words(y),
        flag_words(6, flags),
        lists[7].clone(),
        words(tox),
        words(toy),
        words(tx),
        words(ty),
        flag_words(12, tflags),
        words(controls),
        words(sheet),
    ];
    (answer, all.concat())
}

fn main() -> ExitCode {
    let mut bytes = Vec::new();
    if io::stdin().read_to_end(&mut bytes).is_err() {
        return ExitCode::from(2);
    }
    let words: Vec<u32> = bytes
        .chunks_exact(4)
        .map(|word| u32::from_le_bytes([word[0], word[1], word[2], word[3]]))
        .collect();
    let (mut rest, mut cases, mut runs, mut different) = (&words[..], 0, 0, 0);
    while let Some(size) = rest.first() {
        let (case, behind) = rest.split_at(*size as usize);
        rest = behind;
        cases += 1;
        if case[KIND] != RUN {
            continue;
        }
        runs += 1;
        let (lists, changes) = lists_of(case);
        let (wanted, left) = (wanted(case, &lists, changes), left(case, &lists));
        if wanted != left {
            different += 1;
            if different <= 10 {
                println!(
                    "case {cases}: {:?}, wanted {:?}; sheet {:?}",
                    left.0, wanted.0, lists[14]
                );
            }
        }
    }
    println!("{cases} cases, {runs} of them runs, {different} different");
    ExitCode::from(u8::from(different != 0 || runs == 0))
}
