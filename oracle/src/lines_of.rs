//! Takes a run's sheet apart again, for what is counted and checked.

use crate::{
    answer,
    case::{Case, Outcome},
    direct::Call,
    opcodes::{row_of, Access, Operand, Reference, Row},
    words::widened,
    world::CONTOURS,
};
use std::ops::Range;

/// A line that a run reached: where it stands, and what it is given.
pub struct ReachedLine {
    pub opcode: u8,
    pub operands: Vec<i32>,
}

/// The lines that the run finished, in order.
pub fn finished_lines(case: &Case, outcome: &Outcome) -> Vec<ReachedLine> {
    let Call::Run { start, .. } = case.call else {
        return Vec::new();
    };
    let sheet = case.world.sheet();
    let mut place = start as usize;
    let mut lines = Vec::new();
    for _ in 0..outcome.returned.answer.lines {
        let line = line_at(&sheet, place);
        place += 2 + line.operands.len();
        lines.push(line);
    }
    lines
}

/// The whole line that the run refused for its operands or its own steps.
pub fn refused_line(case: &Case, outcome: &Outcome) -> Option<ReachedLine> {
    let answer = outcome.returned.answer;
    let is_run = matches!(case.call, Call::Run { .. });
    let by_line = (answer::TOO_MANY..=answer::SHIFT_BY_PIXELS).contains(&answer.number);
    (is_run && by_line).then(|| line_at(&case.world.sheet(), answer.place as usize))
}

/// The line that a run did or refused first.
pub fn first_line(case: &Case, outcome: &Outcome) -> Option<ReachedLine> {
    match outcome.returned.answer.lines {
        0 => refused_line(case, outcome),
        _ => finished_lines(case, outcome).into_iter().next(),
    }
}

fn line_at(sheet: &[i32], place: usize) -> ReachedLine {
    let operands = &sheet[place + 2..];
    ReachedLine {
        opcode: sheet[place] as u8,
        operands: operands[..sheet[place + 1] as usize].to_vec(),
    }
}

/// A point that a line looks for: the access's name, the zone and the index.
pub struct Accessed {
    pub name: String,
    pub zone: u32,
    pub index: u64,
}

/// The point accesses of a line in document 01's order, for a run's first line.
pub fn accesses(case: &Case, line: &ReachedLine) -> Vec<Accessed> {
    let Some(row) = row_of(line.opcode) else {
        return Vec::new();
    };
    let one = |access: &Access| accessed(case, line, row, access);
    let mut accesses: Vec<Accessed> = row.accesses.iter().flat_map(one).collect();
    let state = &case.world.state;
    let [zp0, zp1, _] = state.zones;
    // MSIRP and MIRP make a twilight point from rp0, and so look for that first.
    if matches!(line.opcode, 0x3A | 0x3B | 0xE0..=0xFF) && zp1 == 0 {
        accesses.reverse();
    }
    // An unscaled point that isn't there is (0, 0).
    if line.opcode == 0x4A && zp0 == 1 && zp1 == 1 {
        accesses.clear();
    }
    // UTP that may move nothing has nothing to look for.
    if line.opcode == 0x29 && state.vectors[4..] == [0, 0] {
        accesses.clear();
    }
    accesses
}

fn accessed(case: &Case, line: &ReachedLine, row: &Row, access: &Access) -> Vec<Accessed> {
    let pointers = case.world.state.zones;
    let called = |name: &str, (zone, index): (u32, u64)| Accessed {
        name: name.into(),
        zone,
        index,
    };
    let name = access.name();
    match access {
        Access::Named(_, number) => {
            let Operand::Point(zone) = row.operands[*number] else {
                unreachable!("{}: {name} is no point", row.name);
            };
            let index = widened(line.operands[*number]);
            vec![called(name, (zone.number(pointers), index))]
        }
        Access::Each(after) => {
            let zone = row.looped.map_or(0, |zone| zone.number(pointers));
            let looped = line.operands.iter().enumerate();
            let mut found = Vec::new();
            for (number, operand) in looped.skip(row.operands.len()) {
                found.push(called(
                    &format!("{name} {number}"),
                    (zone, widened(*operand)),
                ));
                found.extend(after.iter().flat_map(|one| accessed(case, line, row, one)));
            }
            found
        }
        Access::Rp0 | Access::Rp1 | Access::Rp2 | Access::OfShift => {
            let reference = access.reference(line.opcode).into_iter();
            let place = reference.map(|reference| place_of(case, reference));
            place.map(|place| called(name, place)).collect()
        }
    }
}

/// The zone and the index that a reference point has.
pub fn place_of(case: &Case, reference: Reference) -> (u32, u64) {
    let state = &case.world.state;
    let zone = reference.zone.number(state.zones);
    (zone, state.references[reference.number])
}

/// The points of zp2's zone that an SHC or SHZ names, before the reference is
/// left out; a contour that isn't there has none.
pub fn points_shifted(case: &Case, line: &ReachedLine) -> Range<u64> {
    let world = &case.world;
    let of_zone = line.opcode >= 0x36;
    let contour = widened(line.operands[0]);
    if !of_zone && contour >= world.contours_of(world.state.zones[2]) as u64 {
        return 0..0;
    }
    if world.state.zones[2] == 0 {
        return 0..world.twilight_points() as u64;
    }
    let ends = &world.lists[CONTOURS];
    let after = |contour: u64| u64::from(ends[contour as usize]) + 1;
    match (of_zone, contour) {
        (true, _) => 0..ends.last().map_or(0, |end| u64::from(*end) + 1),
        (false, 0) => 0..after(0),
        (false, _) => after(contour - 1)..after(contour),
    }
}

/// The first access of the line that its zone doesn't have.
pub fn first_outside(case: &Case, line: &ReachedLine) -> Option<Accessed> {
    let outside = |access: &Accessed| access.index >= case.world.points_of(access.zone) as u64;
    accesses(case, line).into_iter().find(outside)
}
