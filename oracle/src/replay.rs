//! Sheets: the run that hands each line to the Rust.

use crate::{
    answer::{self, Answer},
    apart, entry,
    opcodes::{row_of, Row},
    rules::Rules,
    shadow,
    world::World,
};
use reference::door::{with_roundings, Machine, Rounded};

/// The one line that may leave its operands on the Rust's stack.
const IP: u8 = 0x39;

/// A line that was reached: its opcode, whether it was done, the Rust's
/// roundings on the way, and the count of wrapped ones before and after it;
/// what it pushed, and the count of pushes before it.
pub struct Step {
    pub opcode: u8,
    pub done: bool,
    pub roundings: Vec<Rounded>,
    pub counts: [u32; 2],
    pub pushed: Vec<i32>,
    pub pushes_before: u32,
}

/// The state's numbers that the Rust doesn't have.
struct Kept {
    wrapped_roundings: u32,
    last_pushed: i32,
    pushes: u32,
}

/// Runs a sheet from a place for at most so many lines.
pub fn run(world: &mut World, rules: Rules, start: u64, budget: u64) -> Answer {
    watched(world, rules, start, budget, |_| {})
}

/// The same, telling of each line that was asked of the Rust.
pub fn watched(
    world: &mut World,
    rules: Rules,
    start: u64,
    budget: u64,
    mut watch: impl FnMut(Step),
) -> Answer {
    let at_entry = |number| Answer {
        number,
        place: start,
        lines: 0,
        detail: 0,
    };
    if !entry::everything_fits(world) {
        return at_entry(answer::SIZES);
    }
    if !entry::ends_rise(world) {
        return at_entry(answer::ENDS);
    }
    if !entry::state_is_sound(&world.state) {
        return at_entry(answer::STATE);
    }
    let sheet = world.sheet();
    if start > sheet.len() as u64 {
        return at_entry(answer::LINE);
    }
    let mut buffers = world.buffers();
    let mut state = world.state.clone();
    let mut kept = Kept {
        wrapped_roundings: state.wrapped_roundings,
        last_pushed: state.last_pushed,
        pushes: state.pushes,
    };
    let answer = buffers.with_machine(&mut state, |machine| {
        let mut line = |words: &[i32]| run_line(machine, rules, words, &mut kept, &mut watch);
        run_lines(&mut line, &sheet, start as usize, budget)
    });
    state.wrapped_roundings = kept.wrapped_roundings;
    state.last_pushed = kept.last_pushed;
    state.pushes = kept.pushes;
    world.state = state;
    world.keep(&buffers);
    answer
}

/// What a line says: how many words it has, or the number and detail of its
/// refusal.
type Said = Result<usize, (u32, u64)>;

fn run_lines(
    run_line: &mut impl FnMut(&[i32]) -> Said,
    sheet: &[i32],
    start: usize,
    budget: u64,
) -> Answer {
    let mut place = start;
    let mut lines = 0;
    let (number, detail) = loop {
        if place == sheet.len() {
            break (answer::END, 0);
        }
        if lines == budget {
            break (answer::BUDGET, 0);
        }
        match run_line(&sheet[place..]) {
            Ok(words) => place += words,
            Err(refusal) => break refusal,
        }
        lines += 1;
    };
    Answer {
        number,
        place: place as u64,
        lines,
        detail,
    }
}

/// Runs the line at the head of the words. One that is done adds its wrapped
/// roundings to their count and its pushes to theirs, each of which stops at its
/// end; another leaves them.
fn run_line(
    machine: &mut Machine,
    rules: Rules,
    words: &[i32],
    kept: &mut Kept,
    watch: &mut impl FnMut(Step),
) -> Said {
    let (opcode, row, operands) = line_of(words).ok_or((answer::LINE, 0))?;
    if operands.len() as u64 > row.most_operands(machine.loop_counter()) {
        return Err((answer::TOO_MANY, 0));
    }
    let (said, roundings) = match apart::decided(machine, opcode, operands) {
        Some(decided) => (decided.map(|()| Vec::new()), Vec::new()),
        None => {
            apart::make_ready(machine, rules, opcode, operands);
            with_roundings(|| by_the_rust(machine, row, opcode, operands))
        }
    };
    let (before, pushes_before) = (kept.wrapped_roundings, kept.pushes);
    if let Ok(pushed) = &said {
        let wrapped = roundings.iter().filter(|one| shadow::wrapped(one)).count();
        kept.wrapped_roundings = before.saturating_add(wrapped as u32);
        kept.pushes = pushes_before.saturating_add(pushed.len() as u32);
        kept.last_pushed = pushed.last().copied().unwrap_or(kept.last_pushed);
    }
    watch(Step {
        opcode,
        done: said.is_ok(),
        roundings,
        counts: [before, kept.wrapped_roundings],
        pushed: said.clone().unwrap_or_default(),
        pushes_before,
    });
    said?;
    Ok(2 + operands.len())
}

/// What the line pushed, or its refusal.
fn by_the_rust(
    machine: &mut Machine,
    row: &Row,
    opcode: u8,
    operands: &[i32],
) -> Result<Vec<i32>, (u32, u64)> {
    let first_operand = operands.first().copied().unwrap_or_default();
    machine
        .instruct(opcode, operands)
        .map_err(|refused| answer::of_refusal(&refused, first_operand))?;
    let left = machine.left_on_the_stack();
    if left.len() == row.pushes {
        return Ok(left.to_vec());
    }
    // An IP that is let pass for a reference takes none of its operands.
    let untouched = left.iter().eq(operands.iter().rev());
    assert!(opcode == IP && untouched, "{} left {left:?}", row.name);
    Ok(Vec::new())
}

/// The opcode, its row and the operands, if the words start with a whole, known
/// line.
fn line_of(words: &[i32]) -> Option<(u8, &'static Row, &[i32])> {
    let opcode = u8::try_from(words[0]).ok()?;
    let row = row_of(opcode)?;
    let count = usize::try_from(*words.get(1)?).ok()?;
    let operands = words[2..].get(..count)?;
    Some((opcode, row, operands))
}
