//! Which ways the lines that set vectors and sizes went, told from what they were
//! given, from the same line with one thing changed, and from the line behind them
//! run without them. Nothing here decides an outcome.

use super::{distances::copy_pairs, keys::UNEXPLAINED};
use crate::{
    answer,
    case::{Case, Outcome},
    direct::Call,
    generate::setting_rows,
    lines_of::{finished_lines, first_line, first_outside, ReachedLine},
    opcodes::{name_of, row_of, Family, Row},
    rules::{Rules, ALL},
    vectors::{kind_of, VectorKind},
    words::widened,
    world::*,
};
use reference::door::Pair;
use std::ops::Range;

const SDPVTL: [u8; 2] = [0x86, 0x87];
const SSW: u8 = 0x1F;
/// Where the one point lies, seen from the other.
const PLACES: [&str; 8] = [
    "on one place",
    "along x",
    "against x",
    "along y",
    "against y",
    "at 45 degrees",
    "nearer to x",
    "nearer to y",
];
/// Of SDPVTL, where the points were and where they are.
const TWICE: [&str; 4] = ["neither", "before alone", "now alone", "both"];
const ABOVE: [&str; 2] = ["16 bits", "more"];
const NUMBERS: [&str; 7] = [
    "the lowest",
    "below 0",
    "-1",
    "0",
    "1",
    "above 0",
    "the highest",
];
const SCALES: [&str; 4] = ["below 0", "0", "1.0", "above 0"];
const PRODUCTS: [&str; 3] = ["exact", "rounded", "past 32 bits"];
/// How often at least the end of a run must hang on each, as its first line.
const FEWEST: usize = 300;

/// A thing that a line may depend on, and the world without it.
type Change = (&'static str, fn(&mut World));

const PROJECTION: Change = ("the projection", |world| {
    world.state.vectors[..2].copy_from_slice(&[-1234, 5678]);
});
const DUAL: Change = ("the dual vector", |world| {
    world.state.vectors[2..4].copy_from_slice(&[4321, -8765]);
});
const FREEDOM: Change = ("the freedom vector", |world| {
    world.state.vectors[4..].copy_from_slice(&[-777, 999]);
});
const UNSCALED: Change = ("the unscaled points", |world| {
    copy_pairs(world, CURRENT_X, UNSCALED_X);
});
const ORIGINALS: Change = ("the original points", |world| {
    copy_pairs(world, CURRENT_X, ORIGINAL_X);
    copy_pairs(world, TWILIGHT_CURRENT_X, TWILIGHT_ORIGINAL_X);
});
const CURRENTS: Change = ("the current points", |world| {
    for list in [CURRENT_X, TWILIGHT_CURRENT_X]
        .into_iter()
        .flat_map(|x| [x, x + 1])
    {
        for (place, word) in world.lists[list].iter_mut().enumerate() {
            *word = word.wrapping_add(5 * place as u32 * place as u32 + 1);
        }
    }
});
const SCALE: Change = ("the scale", |world| world.state.scale ^= 0x1_2345);
const FACTS: Change = ("a fact", |world| {
    let state = &mut world.state;
    for fact in [
        &mut state.backward_compatibility,
        &mut state.pedantic,
        &mut state.native_cleartype_x,
        &mut state.x_interpolated,
        &mut state.y_interpolated,
    ] {
        *fact = !*fact;
    }
});
const CHANGES: [Change; 8] = [
    PROJECTION, DUAL, FREEDOM, UNSCALED, ORIGINALS, CURRENTS, SCALE, FACTS,
];

pub fn keys(case: &Case, outcome: &Outcome) -> Vec<String> {
    let Call::Run { rules, .. } = case.call else {
        return Vec::new();
    };
    let Some(line) = first_line(case, outcome) else {
        return Vec::new();
    };
    let answer = outcome.returned.answer;
    let too_many = answer.lines == 0 && answer.number == answer::TOO_MANY;
    let Some(row) = row_of(line.opcode).filter(|row| is_setting(row) && !too_many) else {
        return Vec::new();
    };
    let name = name_of(line.opcode);
    let way = way(case, outcome, &line);
    let mut keys = vec![first_key(row.name), way_key(rules.name(), &name, &way)];
    if hangs_on_it(case, outcome, &line) {
        keys.push(hangs_key(row.name));
    }
    if answer.lines == 0 {
        keys.extend(outside_keys(case, &line, row));
        return keys;
    }
    keys.extend(match row.operands.len() {
        2 if row.refusals.is_empty() => component_keys(case, &line, row),
        2 => point_keys(case, &line),
        1 => number_keys(case, &line, row),
        _ if row.family == Family::Vector => vec![projection_key(projection_kind(case))],
        _ => vec![fact_key(row.name, case.world.state.auto_flip)],
    });
    let words = case.world.lists[SHEET].len();
    if answer.lines == 1 && words == 2 + line.operands.len() {
        keys.extend(change_keys(case, outcome, &line, &name));
    }
    if answer.lines > 1 {
        keys.extend(reader_keys(case, outcome, row));
    }
    keys
}

pub fn required() -> Vec<String> {
    let mut keys = Vec::new();
    for row in setting_rows() {
        for name in row.codes().map(name_of) {
            let too_few = row.takes_operands().then(|| refused(6));
            let by_access = row.steps(1).into_iter().map(|step| refused_by(&step));
            let ways = ["done".into()].into_iter().chain(too_few).chain(by_access);
            let ways: Vec<String> = ways.collect();
            for rules in ALL.map(Rules::name) {
                keys.extend(ways.iter().map(|way| way_key(rules, &name, way)));
            }
            keys.extend(deciding(&name).iter().map(|what| decides_key(&name, what)));
        }
        keys.extend(readers_of(row.name).map(|reader| reader_key(reader, row.name)));
        keys.extend(required_of(row));
    }
    keys
}

pub fn fewest() -> Vec<(String, usize)> {
    let rows = setting_rows().into_iter();
    rows.map(|row| (hangs_key(row.name), FEWEST)).collect()
}

fn required_of(row: &Row) -> Vec<String> {
    let mut keys = Vec::new();
    match row.operands.len() {
        2 if row.refusals.is_empty() => {
            keys.extend(PLACES.map(|place| component_key(row.name, place)));
            keys.extend(ABOVE.map(|bits| bits_key(row.name, bits)));
        }
        2 => {
            for name in row.codes().map(name_of) {
                keys.extend(PLACES.map(|place| now_key(&name, place)));
                keys.push(wrapped_key(&name));
                if row.name == "SDPVTL" {
                    keys.extend(PLACES.map(|place| before_key(&name, place)));
                    keys.extend(TWICE.map(|when| one_place_key(&name, when)));
                }
            }
            for pedantic in [false, true] {
                let outside = ["point of zp1", "point of zp2", "both"];
                keys.extend(outside.map(|what| outside_key(row.name, pedantic, what)));
            }
        }
        1 => {
            keys.extend(NUMBERS.map(|number| number_key(row.name, number)));
            if row.name == "SSW" {
                keys.extend(SCALES.map(scale_key));
                keys.extend(PRODUCTS.map(product_key));
            }
        }
        _ if row.family == Family::Vector => {
            let kinds = crate::vectors::KINDS.into_iter();
            keys.extend(
                kinds
                    .filter(|kind| *kind != VectorKind::OutOfRange)
                    .map(projection_key),
            );
        }
        _ => keys.extend([false, true].map(|before| fact_key(row.name, before))),
    }
    keys
}

fn is_setting(row: &&Row) -> bool {
    matches!(row.family, Family::Vector | Family::Size)
}

/// What became of a run's first line.
fn way(case: &Case, outcome: &Outcome, line: &ReachedLine) -> String {
    let answer = outcome.returned.answer;
    let outside = || first_outside(case, line).map(|access| access.name);
    match (answer.lines, answer.number) {
        (0, answer::POINT) => refused_by(&outside().unwrap_or("nothing".into())),
        (0, number) => refused(number),
        _ => "done".into(),
    }
}

/// Whether a run's first line is refused, or the run ends otherwise without it.
fn hangs_on_it(case: &Case, outcome: &Outcome, line: &ReachedLine) -> bool {
    let Call::Run {
        start,
        budget,
        rules,
    } = case.call
    else {
        return false;
    };
    if outcome.returned.answer.lines == 0 {
        return true;
    }
    let ends = |start: u64, budget: u64| {
        let mut world = case.world.clone();
        let call = Call::Run {
            start,
            budget,
            rules,
        };
        (call.perform(&mut world).answer.number, world)
    };
    ends(start, budget) != ends(start + 2 + line.operands.len() as u64, budget - 1)
}

/// Which of the two points a refused line lacked.
fn outside_keys(case: &Case, line: &ReachedLine, row: &Row) -> Vec<String> {
    let world = &case.world;
    let &[second, first] = &line.operands[..] else {
        return Vec::new();
    };
    if row.refusals.is_empty() {
        return Vec::new();
    }
    let [_, zp1, zp2] = world.state.zones;
    let lacks = |zone, operand| widened(operand) >= world.points_of(zone) as u64;
    let what = match [lacks(zp1, first), lacks(zp2, second)] {
        [true, true] => "both",
        [true, false] => "point of zp1",
        _ => "point of zp2",
    };
    vec![outside_key(row.name, world.state.pedantic, what)]
}

/// How the two points of a line that was done lie, and lay.
fn point_keys(case: &Case, line: &ReachedLine) -> Vec<String> {
    let world = &case.world;
    let [_, zp1, zp2] = world.state.zones;
    let [second, first] = [0, 1].map(|place| line.operands[place] as usize);
    let apart = |glyph: usize, twilight: usize| {
        let place = |zone: u32, index: usize| {
            let x = if zone == 0 { twilight } else { glyph };
            [x, x + 1].map(|list| world.lists[list][index] as i32)
        };
        let [to, start] = [place(zp1, first), place(zp2, second)];
        let wraps = (0..2).any(|axis| to[axis].checked_sub(start[axis]).is_none());
        let [a, b] = [0, 1].map(|axis| to[axis].wrapping_sub(start[axis]));
        ((a, b), wraps)
    };
    let name = name_of(line.opcode);
    let (now, wraps) = apart(CURRENT_X, TWILIGHT_CURRENT_X);
    let mut keys = vec![now_key(&name, place_of(now))];
    if wraps {
        keys.push(wrapped_key(&name));
    }
    if SDPVTL.contains(&line.opcode) {
        let (was, _) = apart(ORIGINAL_X, TWILIGHT_ORIGINAL_X);
        keys.push(before_key(&name, place_of(was)));
        let [was, now] = [was, now].map(|apart| apart == (0, 0));
        keys.push(one_place_key(
            &name,
            TWICE[usize::from(was) + 2 * usize::from(now)],
        ));
    }
    keys
}

fn place_of((a, b): Pair) -> &'static str {
    let [along, across] = [a, b].map(i32::unsigned_abs);
    match (a.signum(), b.signum()) {
        (0, 0) => PLACES[0],
        (1, 0) => PLACES[1],
        (-1, 0) => PLACES[2],
        (0, 1) => PLACES[3],
        (0, -1) => PLACES[4],
        _ if along == across => PLACES[5],
        _ if along > across => PLACES[6],
        _ => PLACES[7],
    }
}

fn component_keys(_: &Case, line: &ReachedLine, row: &Row) -> Vec<String> {
    let [y, x] = [0, 1].map(|place| line.operands[place]);
    let [low_x, low_y] = [x, y].map(|number| i32::from(number as i16));
    let bits = ABOVE[usize::from([low_x, low_y] != [x, y])];
    vec![
        component_key(row.name, place_of((low_x, low_y))),
        bits_key(row.name, bits),
    ]
}

fn number_keys(case: &Case, line: &ReachedLine, row: &Row) -> Vec<String> {
    let number = line.operands[0];
    let mut keys = vec![number_key(
        row.name,
        match number {
            i32::MIN => NUMBERS[0],
            -1 => NUMBERS[2],
            0 => NUMBERS[3],
            1 => NUMBERS[4],
            i32::MAX => NUMBERS[6],
            _ if number < 0 => NUMBERS[1],
            _ => NUMBERS[5],
        },
    )];
    if line.opcode == SSW {
        let scale = case.world.state.scale;
        keys.push(scale_key(match scale {
            0 => SCALES[1],
            0x1_0000 => SCALES[2],
            _ if scale < 0 => SCALES[0],
            _ => SCALES[3],
        }));
        let product = i64::from(number) * i64::from(scale);
        keys.push(product_key(match product {
            _ if product.unsigned_abs() >> 47 != 0 => PRODUCTS[2],
            _ if product % 0x1_0000 != 0 => PRODUCTS[1],
            _ => PRODUCTS[0],
        }));
    }
    keys
}

fn projection_kind(case: &Case) -> VectorKind {
    let vectors = case.world.state.vectors;
    kind_of([vectors[0], vectors[1]])
}

/// The state's words that a line of the code sets.
fn words_set(code: u8) -> Range<usize> {
    match code {
        0x06 | 0x07 | 0x0A | 0x86 | 0x87 => 0..4,
        0x08 | 0x09 | 0x0B | 0x0E => 4..6,
        0x1A => 27..28,
        0x1D => 25..26,
        0x1E => 29..30,
        SSW => 28..29,
        _ => AUTO_FLIP..AUTO_FLIP + 1,
    }
}

/// What a line of the name goes by, beside its operands and the zone pointers.
fn deciding(name: &str) -> &'static [&'static str] {
    match name {
        "SPVTL[0]" | "SPVTL[1]" | "SFVTL[0]" | "SFVTL[1]" => &["the current points"],
        "SDPVTL[0]" | "SDPVTL[1]" => &["the current points", "the original points"],
        // Of a vector (0, 0).
        "SPVFS" | "SFVTPV" => &["the projection"],
        "SFVFS" => &["the freedom vector"],
        "SSW" => &["the scale"],
        _ => &[],
    }
}

/// What of a line alone decides: it is run again without each thing in turn. What
/// may not decide is unexplained where it does, and so is a word changed that the
/// line doesn't set.
fn change_keys(case: &Case, outcome: &Outcome, line: &ReachedLine, name: &str) -> Vec<String> {
    let set = words_set(line.opcode);
    let set_by = |change: fn(&mut World)| {
        let mut world = case.world.clone();
        change(&mut world);
        let answer = case.call.perform(&mut world).answer;
        (
            answer.number,
            state_words(&world.state)[set.clone()].to_vec(),
        )
    };
    let left = set_by(|_| {});
    let mut keys = Vec::new();
    for (what, change) in CHANGES {
        if set_by(change) != left {
            let own = deciding(name).contains(&what);
            keys.push(if own {
                decides_key(name, what)
            } else {
                UNEXPLAINED.into()
            });
        }
    }
    let changed = outcome.changes.iter().map(|(index, _)| *index as usize);
    if changed.into_iter().any(|index| !set.contains(&index)) {
        keys.push(UNEXPLAINED.into());
    }
    keys
}

/// The instructions that must do otherwise behind a line of the name.
fn readers_of(name: &str) -> impl Iterator<Item = &'static str> {
    const MOVERS: [&str; 10] = [
        "MDAP", "MIAP", "SHP", "SHC", "MSIRP", "ALIGNRP", "MDRP", "MIRP", "IP", "ALIGNPTS",
    ];
    let (movers, others): (&[&str], &[&str]) = match name {
        "SPVTL" | "SDPVTL" | "SPVFS" => (&MOVERS, &["GC", "MD"]),
        "SFVTL" | "SFVFS" | "SFVTPV" => (&MOVERS, &["SHPIX", "UTP"]),
        "SCVTCI" => (&[], &["MIAP", "MIRP"]),
        "FLIPON" | "FLIPOFF" => (&[], &["MIRP"]),
        _ => (&[], &["MDRP", "MIRP"]),
    };
    movers.iter().chain(others).copied()
}

/// Whether a line of the one may go by what a line of the other sets.
fn may_read(reader: &str, name: &str) -> bool {
    match name {
        "SFVTL" | "SFVFS" | "SFVTPV" => !matches!(reader, "GC" | "MD"),
        "SPVTL" | "SDPVTL" | "SPVFS" => !matches!(reader, "UTP" | "SHPIX"),
        _ => readers_of(name).any(|one| one == reader),
    }
}

/// What the second line does otherwise without the first, but for what the first
/// sets and for itself setting it.
fn reader_keys(case: &Case, outcome: &Outcome, row: &Row) -> Vec<String> {
    let Call::Run {
        rules, start: 0, ..
    } = case.call
    else {
        return Vec::new();
    };
    let lines = finished_lines(case, outcome);
    let Some(reader) = row_of(lines[1].opcode) else {
        return Vec::new();
    };
    if is_setting(&reader) {
        return Vec::new();
    }
    let left = |start: usize, budget: u64| {
        let mut world = case.world.clone();
        let start = start as u64;
        let call = Call::Run {
            start,
            budget,
            rules,
        };
        let number = call.perform(&mut world).answer.number;
        let state = state_words(&world.state);
        (
            number > 1,
            world.lists,
            state[10..20].to_vec(),
            state[26],
            state[32],
        )
    };
    if left(0, 2) == left(2 + lines[0].operands.len(), 1) {
        return Vec::new();
    }
    if !may_read(reader.name, row.name) {
        return vec![UNEXPLAINED.into()];
    }
    vec![reader_key(reader.name, row.name)]
}

fn first_key(name: &str) -> String {
    format!("{name}: a run's first line, and it decides")
}

fn hangs_key(name: &str) -> String {
    format!("{name}: a run's first line, and the end hangs on it")
}

fn way_key(rules: &str, name: &str, way: &str) -> String {
    format!("{rules}: {name} {way}")
}

fn refused(number: u32) -> String {
    format!("refused {number}")
}

fn refused_by(access: &str) -> String {
    format!("refused 7 by {access}")
}

fn outside_key(name: &str, pedantic: bool, outside: &str) -> String {
    format!("{name}, pedantic {pedantic}: 7, outside {outside}")
}

fn now_key(name: &str, place: &str) -> String {
    format!("{name}: points {place}")
}

fn before_key(name: &str, place: &str) -> String {
    format!("{name}: points that were {place}")
}

fn one_place_key(name: &str, when: &str) -> String {
    format!("{name}: on one place: {when}")
}

fn wrapped_key(name: &str) -> String {
    format!("{name}: a difference of coordinates wraps")
}

fn component_key(name: &str, place: &str) -> String {
    format!("{name}: a vector {place}")
}

fn bits_key(name: &str, bits: &str) -> String {
    format!("{name}: operands of {bits}")
}

fn projection_key(kind: VectorKind) -> String {
    format!("SFVTPV: projection {kind:?}")
}

fn number_key(name: &str, number: &str) -> String {
    format!("{name}: an operand {number}")
}

fn scale_key(scale: &str) -> String {
    format!("SSW: scale {scale}")
}

fn product_key(product: &str) -> String {
    format!("SSW: a product {product}")
}

fn fact_key(name: &str, before: bool) -> String {
    format!("{name}: auto flip {before} before")
}

fn decides_key(name: &str, what: &str) -> String {
    format!("{name}: {what} decides")
}

fn reader_key(reader: &str, name: &str) -> String {
    format!("{reader} does otherwise after {name}")
}
