//! MSIRP by each of the rules: where it makes its point and from what, how it is
//! kept from it, which lines go by what it made, and how often it matters.

use super::{keys::UNEXPLAINED, selectors::world_before};
use crate::{
    answer,
    case::{Case, Outcome},
    direct::Call,
    lines_of::{finished_lines, first_line, first_outside, ReachedLine},
    opcodes::name_of,
    rules::{Rules, ALL},
    world::SHEET,
};

const MSIRP: [u8; 2] = [0x3A, 0x3B];
/// The zones' names by number.
const ZONES: [&str; 2] = ["twilight", "the glyph"];
const REFERENCES: [&str; 3] = ["in twilight", "in the glyph", "the point itself"];
/// The accesses of MSIRP, by name.
const ACCESSES: [&str; 2] = ["point", "rp0"];
/// Lines that must come up behind a MSIRP into twilight, and do otherwise by the
/// other rules. MIAP makes its point anew and so never does.
const READERS: [u8; 23] = [
    0x06, 0x07, 0x08, 0x09, 0x27, 0x2F, 0x32, 0x33, 0x34, 0x37, 0x39, 0x3A, 0x3B, 0x3C, 0x46, 0x47,
    0x49, 0x4A, 0x86, 0x87, 0xC0, 0xDF, 0xE4,
];
/// As many MSIRPs in a run are several.
const SEVERAL: usize = 3;
/// Outcomes that are others by the other rules, at least.
const FEWEST: usize = 100;

pub fn keys(case: &Case, outcome: &Outcome) -> Vec<String> {
    let Call::Run { rules, .. } = case.call else {
        return Vec::new();
    };
    let has_msirp = |word: &u32| MSIRP.iter().any(|code| *word == u32::from(*code));
    if !case.world.lists[SHEET].iter().any(has_msirp) {
        return Vec::new();
    }
    let name = rules.name();
    let first = first_line(case, outcome).filter(is_msirp);
    let mut keys: Vec<String> = first
        .map(|line| first_key(case, outcome, &line, name))
        .into_iter()
        .collect();
    let by_the_other = case.clone().under(rules.other()).outcome();
    if by_the_other == *outcome {
        return keys;
    }
    // No line is refused for a coordinate.
    if by_the_other.returned != outcome.returned {
        keys.push(UNEXPLAINED.into());
    }
    keys.push(matters_key(name));
    if outcome.returned.answer.number == answer::BUDGET {
        keys.push(stopped_key(name));
    }
    let lines = finished_lines(case, outcome);
    let readers = (1..lines.len()).filter(|number| goes_by_it(case, *number));
    keys.extend(readers.map(|number| reader_key(name, lines[number].opcode)));
    if lines.iter().filter(|line| is_msirp(line)).count() >= SEVERAL {
        keys.push(several_key(name));
    }
    keys
}

pub fn required() -> Vec<String> {
    let mut keys = Vec::new();
    for name in ALL.map(Rules::name) {
        for code in MSIRP {
            for zone in ZONES {
                keys.extend(REFERENCES.map(|from| line_key(name, code, zone, &done_from(from))));
                keys.extend(ACCESSES.map(|access| line_key(name, code, zone, &passed(access))));
                keys.extend(ACCESSES.map(|access| line_key(name, code, zone, &refused_by(access))));
                keys.extend([5, 6].map(|number| line_key(name, code, zone, &refused(number))));
            }
        }
        keys.extend(READERS.map(|code| reader_key(name, code)));
        keys.extend([stopped_key(name), several_key(name)]);
    }
    keys
}

/// How often at least the rules must matter.
pub fn fewest() -> Vec<(String, usize)> {
    let at_least = |rules: Rules| (matters_key(rules.name()), FEWEST);
    ALL.map(at_least).to_vec()
}

/// What became of a MSIRP that is the run's first line.
fn first_key(case: &Case, outcome: &Outcome, line: &ReachedLine, name: &str) -> String {
    let answer = outcome.returned.answer;
    let state = &case.world.state;
    let [zp0, zp1, _] = state.zones;
    let what = match (answer.lines, answer.number) {
        (0, answer::POINT) => {
            refused_by(&first_outside(case, line).map_or("nothing".into(), |one| one.name))
        }
        (0, number) => refused(number),
        _ => match first_outside(case, line) {
            Some(outside) => passed(&outside.name),
            None if zp0 == zp1 && state.references[0] == line.operands[1] as u64 => {
                done_from(REFERENCES[2])
            }
            None => done_from(REFERENCES[zp0 as usize]),
        },
    };
    line_key(name, line.opcode, ZONES[zp1 as usize], &what)
}

/// Whether the line of that number does something else by the other rules: it is
/// run from what the lines before it left by either.
fn goes_by_it(case: &Case, number: usize) -> bool {
    let Call::Run { rules, .. } = case.call else {
        return false;
    };
    let changed_by = |rules: Rules| {
        let case = case.clone().under(rules);
        let [before, after] = [number, number + 1].map(|lines| world_before(&case, lines));
        let words = before.expanded().into_iter().zip(after.expanded());
        let changed = words.enumerate().filter(|(_, (old, new))| old != new);
        changed
            .map(|(place, (_, new))| (place, new))
            .collect::<Vec<_>>()
    };
    changed_by(rules) != changed_by(rules.other())
}

fn is_msirp(line: &ReachedLine) -> bool {
    MSIRP.contains(&line.opcode)
}

fn line_key(name: &str, code: u8, zone: &str, what: &str) -> String {
    format!("{name}: {} into {zone}, {what}", name_of(code))
}

fn done_from(reference: &str) -> String {
    format!("rp0 {reference}, done")
}

fn passed(access: &str) -> String {
    format!("{access} outside, passed over")
}

fn refused_by(access: &str) -> String {
    format!("{access} outside, refused 7")
}

fn refused(number: u32) -> String {
    format!("refused {number}")
}

fn matters_key(name: &str) -> String {
    format!("{name}: a run that the other rules end otherwise")
}

fn stopped_key(name: &str) -> String {
    format!("{name}: the same, stopped by its budget")
}

fn several_key(name: &str) -> String {
    format!("{name}: the same, of {SEVERAL} MSIRPs or more")
}

fn reader_key(name: &str, code: u8) -> String {
    format!("{name}: {} does otherwise after a MSIRP", name_of(code))
}
