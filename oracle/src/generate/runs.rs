//! Whole runs: sheets of several lines, starts and budgets of every kind.

use super::{
    operands::line,
    spoil,
    states::{calm_state, make_unsound, sound_state},
    worlds::small_world,
};
use crate::{
    case::Case,
    direct::Call,
    opcodes::{codes_of, is_of, rounding_codes_of, row_of, Family, Operand, Row},
    random::Random,
    world::*,
};
use reference::door::State;
use std::sync::LazyLock;

/// The opcodes of setters, each as likely as the others.
static SETTERS: LazyLock<Vec<u8>> = LazyLock::new(|| codes_of(Family::Setter));

/// Document 01's other lines, by code.
pub static MOVERS: LazyLock<Vec<u8>> = LazyLock::new(|| {
    let mut movers = codes_of(Family::Outline);
    movers.sort_unstable();
    movers
});

/// The movers with the shifts and range flips, the latter twice as likely.
pub static ALL_MOVERS: LazyLock<Vec<u8>> = LazyLock::new(|| {
    const SHIFTS: [u8; 14] = [
        0x34, 0x35, 0x36, 0x37, 0x38, 0x38, 0x81, 0x82, 0x34, 0x35, 0x36, 0x37, 0x81, 0x82,
    ];
    [&MOVERS[..], &SHIFTS].concat()
});

/// Document 01's lines that round by the state.
pub static ROUNDERS: LazyLock<Vec<u8>> = LazyLock::new(|| rounding_codes_of(Family::Outline));

/// Chooses a line's opcode, given that of the line before it.
type Choice = fn(&mut Random, Option<u8>) -> u8;

/// A sheet of some lines of document 01, run from some place with some budget.
pub fn run_case(random: &mut Random) -> Case {
    let state = sound_state(random);
    run_of(random, state, |random, _| setter_or(random, &MOVERS))
}

/// The same with shifts and range flips among the lines.
pub fn shift_run_case(random: &mut Random) -> Case {
    let state = calm_state(random, 6);
    run_of(random, state, |random, _| setter_or(random, &ALL_MOVERS))
}

/// The same with SROUND and S45ROUND, mostly with a line that rounds after each.
pub fn selector_run_case(random: &mut Random) -> Case {
    let state = calm_state(random, 6);
    run_of(random, state, |random, before| match before {
        Some(opcode) if is_of(opcode, Family::Selector) && !random.once_in(5) => {
            random.pick(&ROUNDERS)
        }
        _ if random.flip() => random.pick(&codes_of(Family::Selector)),
        _ => setter_or(random, &ALL_MOVERS),
    })
}

pub fn setter_or(random: &mut Random, movers: &[u8]) -> u8 {
    if random.once_in(3) {
        random.pick(&SETTERS)
    } else {
        random.pick(movers)
    }
}

pub fn run_of(random: &mut Random, state: State, choice: Choice) -> Case {
    let mut world = small_world(random, state);
    let places = fill_sheet(random, &mut world, choice);
    if random.once_in(40) {
        spoil::some_length(random, &mut world);
    }
    if random.once_in(40) {
        make_unsound(random, &mut world.state);
    }
    Case {
        call: Call::run(
            start(random, &places, world.lists[SHEET].len()),
            budget(random, places.len()),
        ),
        world,
    }
}

/// Fills the sheet and says where its lines start.
fn fill_sheet(random: &mut Random, world: &mut World, choice: Choice) -> Vec<usize> {
    // Lines are made for the state that the lines before them leave.
    let mut ahead = world.clone();
    let mut sheet = Vec::new();
    let mut places = Vec::new();
    let mut before = None;
    for _ in 0..random.weighted(&[1, 3, 4, 4, 4, 3, 2, 2, 1]) {
        let opcode = choice(random, before);
        let mut line = line(random, &ahead, opcode);
        before = Some(opcode);
        places.push(sheet.len());
        if random.once_in(60) {
            spoil::line(random, &mut line);
        } else {
            look_ahead(&mut ahead, &line);
        }
        sheet.extend(line.into_iter().map(|word| word as u32));
    }
    world.lists[SHEET] = sheet;
    places
}

/// What the line does to the pointers and the loop counter, if it is taken.
fn look_ahead(world: &mut World, line: &[i32]) {
    let opcode = line[0] as u8;
    let state = &mut world.state;
    match (opcode, line.get(2)) {
        (0x13..=0x15, Some(zone @ 0..=1)) => {
            state.zones[usize::from(opcode - 0x13)] = *zone as u32;
        }
        (0x16, Some(zone @ 0..=1)) => state.zones = [*zone as u32; 3],
        (0x17, Some(count @ 0..)) => state.loop_counter = (*count as u32).min(0xFFFF),
        _ if sets_the_loop_back(opcode, state.loop_counter) => state.loop_counter = 1,
        _ => {}
    }
}

/// A line that loops does, unless it takes nothing.
fn sets_the_loop_back(opcode: u8, loop_counter: u32) -> bool {
    let takes_some = |row: &Row| row.looped.is_some() && row.most_operands(loop_counter) > 0;
    row_of(opcode).is_some_and(takes_some)
}

/// Mostly the first line, now and then another, inside one, or the end.
fn start(random: &mut Random, places: &[usize], length: usize) -> u64 {
    match random.weighted(&[12, 2, 2, 1, 1]) {
        1 if !places.is_empty() => random.pick(places) as u64,
        2 => random.below(length + 1) as u64,
        3 => length as u64,
        4 => random.pick(&[length as u64 + 1, 1 << 32, u64::MAX]),
        _ => 0,
    }
}

fn budget(random: &mut Random, lines: usize) -> u64 {
    match random.weighted(&[6, 1, 2, 2, 1]) {
        0 => lines as u64 + 1,
        1 => 0,
        2 => 1,
        3 => random.below(lines + 1) as u64,
        _ => random.pick(&[u64::MAX, 1 << 32]),
    }
}

/// Each of the 256 opcodes alone, on the glyph of document 01's whole run, and
/// each of document 01's with an operand too many.
pub fn every_opcode() -> Vec<Case> {
    let mut cases = Vec::new();
    let mut case = whole_run_of_01();
    for opcode in 0..=255 {
        case.world.lists[SHEET] = vec![u32::from(opcode), 0];
        cases.push(case.clone());
        if let Some(row) = row_of(opcode).filter(|row| row.family.is_of_01()) {
            let count = row.most_operands(case.world.state.loop_counter) as u32 + 1;
            case.world.lists[SHEET] = vec![u32::from(opcode), count];
            case.world.lists[SHEET].extend((0..count).map(|_| 0));
            cases.push(case.clone());
        }
    }
    cases
}

/// Each setter that takes an operand, at the operands where it turns.
pub fn every_setter() -> Vec<Case> {
    let references = [0, 1, -1, i32::MAX, i32::MIN];
    let zones = [0, 1, 2, -1, 256, i32::MAX, i32::MIN];
    let loops = [0, 1, 65_534, 65_535, 65_536, i32::MAX, -1, i32::MIN];
    let mut cases = Vec::new();
    for opcode in codes_of(Family::Setter) {
        let operands: &[i32] = match row_of(opcode).map(|row| row.operands) {
            Some([Operand::PointNumber]) => &references,
            Some([Operand::ZoneNumber]) => &zones,
            Some([Operand::LoopCount]) => &loops,
            _ => &[],
        };
        for operand in operands {
            let mut case = whole_run_of_01();
            case.world.lists[SHEET] = vec![u32::from(opcode), 1, *operand as u32];
            cases.push(case);
        }
    }
    cases
}

/// Document 01's whole run.
pub fn whole_run_of_01() -> Case {
    let mut world = World {
        state: fresh_state(),
        lists: Default::default(),
    };
    for x in [UNSCALED_X, ORIGINAL_X, CURRENT_X] {
        world.lists[x] = vec![0; 3];
        world.lists[x + 1] = vec![40, 100, 130];
    }
    world.lists[FLAGS] = vec![1; 3];
    world.lists[CONTOURS] = vec![2];
    world.lists[SHEET] = vec![0, 0, 47, 1, 0, 48, 0];
    Case {
        call: Call::run(0, 3),
        world,
    }
}

/// The whole run, the same with budget 2, and the two runs outside the zone:
/// pedantic, then not.
pub fn runs_of_01() -> [Case; 4] {
    let whole = whole_run_of_01();
    let mut short = whole.clone();
    short.call = Call::run(0, 2);
    let mut pedantic = whole.clone();
    pedantic.world.lists[SHEET] = vec![47, 1, -1_i32 as u32];
    let mut lenient = pedantic.clone();
    pedantic.world.state.pedantic = true;
    lenient.world.state.pedantic = false;
    [whole, short, pedantic, lenient]
}
