//! Which ways IP, ALIGNPTS and UTP went, told from what they were given and from
//! the same line with one thing changed. Nothing here decides an outcome.

use super::{
    branches::{moved_key, required_moves},
    distances::{copy_pairs, left_by},
    keys::{loop_kind, UNEXPLAINED},
    shifts::lock_of,
};
use crate::{
    answer,
    case::{Case, Outcome},
    direct::Call,
    lines_of::{first_line, first_outside, ReachedLine},
    opcodes::{row_of, rows_of, Family, Row},
    rules::{Rules, ALL},
    words::widened,
    world::*,
};
use reference::door::{self, Pair};

const IP: u8 = 0x39;
const ALIGNPTS: u8 = 0x27;
/// What IP measures by: where one of the pointers is twilight, and where none is.
const MEASURES: [&str; 2] = ["by originals", "in font units"];
const SIGNS: [&str; 3] = ["below 0", "0", "above 0"];
const REFERENCES: [&str; 2] = ["rp1", "rp2"];
const GIVEN: [&str; 3] = ["no operands", "fewer than its counter", "all"];
const LOOPS: [&str; 6] = ["0", "1", "2", "3", "65535", "more"];
/// Where a point was, seen from rp1 toward rp2.
const PLACES: [&str; 5] = [
    "before rp1",
    "level with rp1",
    "between",
    "level with rp2",
    "beyond rp2",
];
const POINTS: [&str; 2] = ["level with them", "apart from them"];
const DISTANCES: [&str; 5] = [
    "odd below 0",
    "even below 0",
    "0",
    "even above 0",
    "odd above 0",
];
const ALONG: [&str; 4] = ["nothing", "x", "y", "x and y"];
const WRAPS: [&str; 3] = [
    "a difference of coordinates wraps",
    "the product goes past 32 bits",
    "the distance left wraps",
];
/// How often at least each must be a run's first line and decide.
const FEWEST: usize = 400;

/// A thing that a line may depend on, and the world without it.
type Change = (&'static str, fn(&mut World));

const DUAL: Change = ("the dual vector", |world| {
    let vectors = &mut world.state.vectors;
    (vectors[2], vectors[3]) = (vectors[0], vectors[1]);
});
const PROJECTION: Change = ("the projection", |world| world.state.vectors.swap(0, 1));
const UNSCALED: Change = ("the unscaled points", |world| {
    copy_pairs(world, ORIGINAL_X, UNSCALED_X);
});
const ORIGINALS: Change = ("the original points", |world| {
    copy_pairs(world, CURRENT_X, ORIGINAL_X);
    copy_pairs(world, TWILIGHT_CURRENT_X, TWILIGHT_ORIGINAL_X);
});
const SCALE: Change = ("the scale", |world| world.state.scale ^= 0x1_2345);

pub fn keys(case: &Case, outcome: &Outcome) -> Vec<String> {
    let Call::Run { rules, .. } = case.call else {
        return Vec::new();
    };
    let Some(line) = first_line(case, outcome) else {
        return Vec::new();
    };
    let answer = outcome.returned.answer;
    let too_many = answer.lines == 0 && answer.number == answer::TOO_MANY;
    let own = row_of(line.opcode).filter(|row| row.family == Family::Single && !too_many);
    let Some(row) = own else {
        return Vec::new();
    };
    let way = way(case, outcome, &line);
    let mut keys = vec![first_key(row.name), way_key(rules.name(), row.name, &way)];
    keys.extend(match line.opcode {
        IP => ip_keys(case, outcome, &line, &way),
        ALIGNPTS => alignpts_keys(case, outcome, &line),
        _ => utp_keys(case, outcome, &line),
    });
    let words = case.world.lists[SHEET].len();
    if answer.lines == 1 && words == 2 + line.operands.len() {
        keys.extend(change_keys(case, row));
    }
    keys
}

pub fn required() -> Vec<String> {
    let mut keys = Vec::new();
    for rules in ALL.map(Rules::name) {
        for row in rows_of(Family::Single) {
            let ways = ["done".into(), refused(6)].into_iter();
            let by_access = row.steps(1).into_iter().map(|step| refused_by(&step));
            keys.extend(
                ways.chain(by_access)
                    .map(|way| way_key(rules, row.name, &way)),
            );
        }
        keys.extend(REFERENCES.map(|name| way_key(rules, "IP", &let_pass(name))));
        keys.push(way_key(rules, "UTP", &taken()));
    }
    keys.extend(required_of_ip());
    keys.extend(required_of_alignpts());
    keys.extend(required_of_utp());
    keys
}

pub fn fewest() -> Vec<(String, usize)> {
    let rows = rows_of(Family::Single).into_iter();
    rows.map(|row| (first_key(row.name), FEWEST)).collect()
}

/// What became of a run's first line.
fn way(case: &Case, outcome: &Outcome, line: &ReachedLine) -> String {
    let answer = outcome.returned.answer;
    let outside = || first_outside(case, line).map(|access| access.name);
    match (answer.lines, answer.number) {
        (0, answer::POINT) => refused_by(&outside().unwrap_or("nothing".into())),
        (0, number) => refused(number),
        _ => match outside() {
            Some(name) if REFERENCES.contains(&&name[..]) => let_pass(&name),
            _ if is_taken_outside(case, line) => taken(),
            _ => "done".into(),
        },
    }
}

fn required_of_ip() -> Vec<String> {
    let mut keys = Vec::new();
    for measured in MEASURES {
        let refused = REFERENCES
            .into_iter()
            .chain(["point 0", "point 1", "point 2"]);
        keys.extend(refused.map(|name| measured_key(measured, &refused_by(name))));
        keys.extend(REFERENCES.map(|name| measured_key(measured, &let_pass(name))));
        keys.extend(PLACES.map(|place| measured_key(measured, &place_of_point(place))));
        keys.extend(POINTS.map(|point| measured_key(measured, &level(point))));
        keys.extend(WRAPS.map(|wrap| measured_key(measured, wrap)));
        keys.push(decides_key(&format!("IP {measured}"), DUAL.0));
    }
    for name in REFERENCES {
        keys.extend(GIVEN.map(|given| given_key(name, given)));
    }
    for before in SIGNS {
        keys.extend(SIGNS.map(|now| ranges_key(before, now)));
    }
    keys.extend(LOOPS[..4].iter().map(|count| loop_key(count, "done")));
    keys.extend(LOOPS[1..].iter().map(|count| loop_key(count, &refused(6))));
    for reference in REFERENCES {
        keys.extend(LOOPS.map(|count| loop_key(count, &refused_by(reference))));
        keys.extend(LOOPS.map(|count| loop_key(count, &let_pass(reference))));
    }
    keys.extend((0..3).map(passed_over_key));
    keys.extend([6, 7].map(stays_moved_key));
    keys.extend(REFERENCES.map(itself_key));
    keys.extend([level_itself_key(), twice_key(), still_key("IP")]);
    keys.extend(required_moves("IP"));
    for bits in 0..8 {
        let zones = [bits & 1, bits >> 1 & 1, bits >> 2];
        let by = if bits == 7 { UNSCALED } else { ORIGINALS };
        keys.push(decides_key(&zoned("IP", zones), by.0));
    }
    keys
}

fn ip_keys(case: &Case, outcome: &Outcome, line: &ReachedLine, way: &str) -> Vec<String> {
    let state = &case.world.state;
    let measured = measured_by(&case.world);
    let count = match state.loop_counter {
        65_535 => "65535".into(),
        other => loop_kind(other),
    };
    let mut keys = vec![measured_key(measured, way), loop_key(&count, way)];
    let answer = outcome.returned.answer;
    if answer.lines == 0 {
        let moved = outcome.changes.iter();
        if moved
            .map(|(index, _)| *index as usize)
            .any(|index| index >= STATE_WORDS)
        {
            keys.push(stays_moved_key(answer.number));
        }
        return keys;
    }
    let outside = first_outside(case, line).map(|access| access.name);
    let given = match line.operands.len() as u64 {
        0 => GIVEN[0],
        some if some < u64::from(state.loop_counter) => GIVEN[1],
        _ => GIVEN[2],
    };
    match outside.as_deref() {
        Some("rp1") => keys.push(given_key("rp1", given)),
        Some("rp2") => keys.push(given_key("rp2", given)),
        _ => keys.extend(interpolated_keys(case, line)),
    }
    keys
}

/// What an IP that was done met, its references being there.
fn interpolated_keys(case: &Case, line: &ReachedLine) -> Vec<String> {
    let world = &case.world;
    let state = &world.state;
    let [zp0, zp1, zp2] = state.zones;
    let [_, rp1, rp2] = state.references;
    let measured = measured_by(world);
    let points = world.points_of(zp2) as u64;
    let mut keys = Vec::new();
    let indices: Vec<u64> = line
        .operands
        .iter()
        .map(|operand| widened(*operand))
        .collect();
    if indices.len() == 3 {
        let passed = (0..3).filter(|number| indices[*number] >= points);
        keys.extend(passed.map(passed_over_key));
    }
    let inside: Vec<u64> = indices
        .into_iter()
        .filter(|index| *index < points)
        .collect();
    let Some(first) = inside.first() else {
        return keys;
    };
    keys.extend(move_keys(case, "IP"));
    let [was_base, is_base] = [before(world, zp0, rp1), now(world, zp0, rp1)];
    let [was_end, is_end] = [before(world, zp1, rp2), now(world, zp1, rp2)];
    let was_apart = door::dual_project(state.vectors, was_end, was_base);
    let is_apart = door::project(state.vectors, is_end, is_base);
    keys.push(ranges_key(sign(was_apart), sign(is_apart)));
    if zp2 == zp0 && inside.contains(&rp1) {
        keys.push(itself_key("rp1"));
    }
    if zp2 == zp1 && inside.contains(&rp2) {
        keys.push(itself_key("rp2"));
        if was_apart == 0 && is_apart != 0 {
            keys.push(level_itself_key());
        }
    }
    if (1..inside.len()).any(|number| inside[..number].contains(&inside[number])) {
        keys.push(twice_key());
    }
    // The first point alone: no other has been moved by then.
    let [was, is] = [before(world, zp2, *first), now(world, zp2, *first)];
    let far = door::dual_project(state.vectors, was, was_base);
    let is_far = door::project(state.vectors, is, is_base);
    keys.push(measured_key(
        measured,
        &match was_apart {
            0 => level(POINTS[usize::from(far != 0)]),
            apart => place_of_point(place(far, apart)),
        },
    ));
    let differ = [
        (was_end, was_base),
        (was, was_base),
        (is_end, is_base),
        (is, is_base),
    ];
    let mut wrapped = vec![differ
        .into_iter()
        .any(|(one, other)| difference_wraps(one, other))];
    let new = match (far, was_apart) {
        (0, _) | (_, 0) => i128::from(far),
        _ => i128::from(far) * i128::from(is_apart) / i128::from(was_apart),
    };
    wrapped.push(i32::try_from(new).is_err());
    let new = i64::from(new as i32);
    wrapped.push(i32::try_from(new - i64::from(is_far)).is_err());
    let wraps = WRAPS.into_iter().zip(wrapped).filter(|(_, so)| *so);
    keys.extend(wraps.map(|(wrap, _)| measured_key(measured, wrap)));
    keys
}

fn required_of_alignpts() -> Vec<String> {
    let mut keys: Vec<String> = DISTANCES.map(distance_key).to_vec();
    for pedantic in [false, true] {
        keys.extend(
            ["point of zp0", "point of zp1", "both"].map(|name| strict_key(pedantic, name)),
        );
    }
    keys.extend([wrapped_key(), with_itself_key(), still_key("ALIGNPTS")]);
    keys.extend(required_moves("ALIGNPTS"));
    keys.push(decides_key("ALIGNPTS", PROJECTION.0));
    keys
}

fn alignpts_keys(case: &Case, outcome: &Outcome, line: &ReachedLine) -> Vec<String> {
    let world = &case.world;
    let [zp0, zp1, _] = world.state.zones;
    let answer = outcome.returned.answer;
    let &[one, other] = &line.operands[..] else {
        return Vec::new();
    };
    let [one, other] = [one, other].map(widened);
    let outside =
        [(zp0, one), (zp1, other)].map(|(zone, index)| index >= world.points_of(zone) as u64);
    if answer.lines == 0 && answer.number == answer::POINT {
        let name = match outside {
            [true, true] => "both",
            [true, false] => "point of zp0",
            _ => "point of zp1",
        };
        return vec![strict_key(world.state.pedantic, name)];
    }
    if answer.lines == 0 {
        return Vec::new();
    }
    let [to, start] = [now(world, zp0, one), now(world, zp1, other)];
    let distance = door::project(world.state.vectors, to, start);
    let kind = match (distance.signum(), distance % 2 != 0) {
        (-1, true) => DISTANCES[0],
        (-1, false) => DISTANCES[1],
        (0, _) => DISTANCES[2],
        (_, false) => DISTANCES[3],
        (_, true) => DISTANCES[4],
    };
    let mut keys = vec![distance_key(kind)];
    if difference_wraps(to, start) {
        keys.push(wrapped_key());
    }
    if zp0 == zp1 && one == other {
        keys.push(with_itself_key());
    }
    keys.extend(move_keys(case, "ALIGNPTS"));
    keys
}

fn required_of_utp() -> Vec<String> {
    let mut keys = vec![unknown_bits_key(), iup_key()];
    for zone in 0..2 {
        for along in ALONG {
            keys.extend(ALONG.map(|touched| untouch_key(zone, along, touched)));
            keys.extend([false, true].map(|pedantic| untouch_outside_key(zone, along, pedantic)));
        }
    }
    keys
}

fn utp_keys(case: &Case, outcome: &Outcome, line: &ReachedLine) -> Vec<String> {
    let world = &case.world;
    let state = &world.state;
    let zone = state.zones[0];
    let &[operand] = &line.operands[..] else {
        return Vec::new();
    };
    let bits = |x: bool, y: bool| ALONG[usize::from(x) + 2 * usize::from(y)];
    let along = bits(state.vectors[4] != 0, state.vectors[5] != 0);
    let flags = &world.lists[if zone == 0 { TWILIGHT_FLAGS } else { FLAGS }];
    let flag = usize::try_from(operand)
        .ok()
        .and_then(|index| flags.get(index));
    let Some(flag) = flag else {
        return vec![untouch_outside_key(zone, along, state.pedantic)];
    };
    let mut keys = vec![untouch_key(zone, along, bits(flag & 2 != 0, flag & 4 != 0))];
    if *flag > 7 {
        keys.push(unknown_bits_key());
    }
    if iup_does_otherwise(case, outcome, line) {
        keys.push(iup_key());
    }
    keys
}

/// Whether an IUP right behind the line leaves other points than without it.
fn iup_does_otherwise(case: &Case, outcome: &Outcome, line: &ReachedLine) -> bool {
    let words = 2 + line.operands.len();
    let is_iup = matches!(case.world.lists[SHEET].get(words), Some(0x30 | 0x31));
    if !is_iup || outcome.returned.answer.lines < 2 {
        return false;
    }
    let points = |start: usize, budget: u64| {
        let mut world = case.world.clone();
        Call::run(start as u64, budget).perform(&mut world);
        [CURRENT_X, CURRENT_Y].map(|list| world.lists[list].clone())
    };
    points(0, 2) != points(words, 1)
}

/// What of a line alone decides: it is run again without each thing in turn. What
/// may not decide is unexplained where it does.
fn change_keys(case: &Case, row: &Row) -> Vec<String> {
    let zones = case.world.state.zones;
    let left = left_by(case, |_| {});
    let decides = |(_, change): Change| left_by(case, change) != left;
    let (own, others): (Vec<(String, Change)>, Vec<Change>) = match (row.name, zones) {
        ("IP", [1, 1, 1]) => {
            let own = [
                (zoned("IP", zones), UNSCALED),
                (format!("IP {}", MEASURES[1]), DUAL),
            ];
            (own.to_vec(), vec![ORIGINALS, SCALE])
        }
        ("IP", _) => {
            let own = [
                (zoned("IP", zones), ORIGINALS),
                (format!("IP {}", MEASURES[0]), DUAL),
            ];
            (own.to_vec(), vec![UNSCALED, SCALE])
        }
        ("ALIGNPTS", _) => {
            let own = vec![("ALIGNPTS".into(), PROJECTION)];
            (own, vec![DUAL, UNSCALED, ORIGINALS, SCALE])
        }
        _ => (
            Vec::new(),
            vec![PROJECTION, DUAL, UNSCALED, ORIGINALS, SCALE],
        ),
    };
    let own = own.into_iter().filter(|(_, change)| decides(*change));
    let mut keys: Vec<String> = own
        .map(|(name, (what, _))| decides_key(&name, what))
        .collect();
    if others.into_iter().any(decides) {
        keys.push(UNEXPLAINED.into());
    }
    keys
}

/// Where a line moved points: the freedom axis, how they are held back.
fn move_keys(case: &Case, name: &str) -> Vec<String> {
    let vectors = case.world.state.vectors;
    let axis = door::derived(vectors).axes[2];
    if vectors[4..] == [0, 0] {
        return vec![still_key(name)];
    }
    vec![moved_key(name, axis, lock_of(case), vectors[1] == 0)]
}

fn is_taken_outside(case: &Case, line: &ReachedLine) -> bool {
    let zone = case.world.state.zones[0];
    let is_outside = |operand: &i32| widened(*operand) >= case.world.points_of(zone) as u64;
    row_of(line.opcode).is_some_and(|row| row.name == "UTP") && line.operands.iter().any(is_outside)
}

fn measured_by(world: &World) -> &'static str {
    MEASURES[usize::from(world.state.zones == [1; 3])]
}

/// Where a point was before any line, as IP takes it.
fn before(world: &World, zone: u32, index: u64) -> Pair {
    pair(
        world,
        match (zone, measured_by(world) == MEASURES[1]) {
            (_, true) => UNSCALED_X,
            (0, _) => TWILIGHT_ORIGINAL_X,
            _ => ORIGINAL_X,
        },
        index,
    )
}

fn now(world: &World, zone: u32, index: u64) -> Pair {
    pair(
        world,
        if zone == 0 {
            TWILIGHT_CURRENT_X
        } else {
            CURRENT_X
        },
        index,
    )
}

fn pair(world: &World, x: usize, index: u64) -> Pair {
    let along = |list: usize| world.lists[list][index as usize] as i32;
    (along(x), along(x + 1))
}

fn difference_wraps(one: Pair, other: Pair) -> bool {
    one.0.checked_sub(other.0).is_none() || one.1.checked_sub(other.1).is_none()
}

fn place(far: i32, apart: i32) -> &'static str {
    let [far, apart] = [far, apart].map(i64::from);
    let along = far * apart.signum();
    match along {
        _ if along < 0 => PLACES[0],
        0 => PLACES[1],
        _ if along < apart.abs() => PLACES[2],
        _ if along == apart.abs() => PLACES[3],
        _ => PLACES[4],
    }
}

fn sign(number: i32) -> &'static str {
    SIGNS[(number.signum() + 1) as usize]
}

fn first_key(name: &str) -> String {
    format!("{name}: a run's first line, and it decides")
}

fn way_key(rules: &str, name: &str, way: &str) -> String {
    format!("{rules}: {name} {way}")
}

fn refused(number: u32) -> String {
    format!("refused {number}")
}

fn refused_by(access: &str) -> String {
    format!("refused 7 by {access}")
}

fn let_pass(reference: &str) -> String {
    format!("let pass for {reference}")
}

fn taken() -> String {
    "of a point outside taken".into()
}

fn measured_key(measured: &str, what: &str) -> String {
    format!("IP {measured}: {what}")
}

fn place_of_point(place: &str) -> String {
    format!("a point that was {place}")
}

fn level(point: &str) -> String {
    format!("level references, a point {point}")
}

fn given_key(reference: &str, given: &str) -> String {
    format!("IP let pass for {reference}, given {given}")
}

fn ranges_key(before: &str, now: &str) -> String {
    format!("IP: from rp1 to rp2 {before} before, {now} now")
}

fn loop_key(count: &str, way: &str) -> String {
    format!("IP: loop counter {count}, {way}")
}

fn passed_over_key(number: usize) -> String {
    format!("IP passes over point {number} of three")
}

fn stays_moved_key(number: u32) -> String {
    format!("IP refused {number}, and a point stays moved")
}

fn itself_key(reference: &str) -> String {
    format!("IP of {reference} itself")
}

fn level_itself_key() -> String {
    "IP of rp2 itself, which was level with rp1 and isn't".into()
}

fn twice_key() -> String {
    "IP of one point twice".into()
}

fn still_key(name: &str) -> String {
    format!("{name} with freedom (0, 0)")
}

fn distance_key(kind: &str) -> String {
    format!("ALIGNPTS: a distance {kind}")
}

fn wrapped_key() -> String {
    "ALIGNPTS: a difference of coordinates wraps".into()
}

fn with_itself_key() -> String {
    "ALIGNPTS of a point with itself".into()
}

fn strict_key(pedantic: bool, outside: &str) -> String {
    format!("ALIGNPTS, pedantic {pedantic}: 7, outside {outside}")
}

fn untouch_key(zone: u32, along: &str, touched: &str) -> String {
    format!("UTP in zone {zone} along {along}, touched along {touched}")
}

fn untouch_outside_key(zone: u32, along: &str, pedantic: bool) -> String {
    format!("UTP outside zone {zone} along {along}, pedantic {pedantic}")
}

fn unknown_bits_key() -> String {
    "UTP of a flag with unknown bits".into()
}

fn iup_key() -> String {
    "IUP does otherwise after a UTP".into()
}

fn zoned(name: &str, [zp0, zp1, zp2]: [u32; 3]) -> String {
    format!("{name} with zone pointers {zp0}{zp1}{zp2}")
}

fn decides_key(name: &str, what: &str) -> String {
    format!("{name}: {what} decides")
}
