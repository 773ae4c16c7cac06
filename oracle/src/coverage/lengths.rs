//! Direct calls that are refused for their lists, by the lists that are at
//! fault; and indices and references whose low 32 bits alone are a point.

use super::keys::CALLS;
use crate::{
    answer,
    case::{Case, Outcome},
    direct::Call,
    generate::every_call,
    lines_of::place_of,
    opcodes::{name_of, row_of, Reference},
    random::Random,
    world::*,
};

pub fn keys(case: &Case, outcome: &Outcome) -> Vec<String> {
    let number = outcome.returned.answer.number;
    match case.call {
        Call::Run { start: 0, .. } => far_references(case),
        Call::Run { .. } => Vec::new(),
        call if number == answer::SIZES => {
            let per_zone = |zone| misfits(&call, zone, &case.world);
            (0..2).flat_map(per_zone).collect()
        }
        call => far_index(&call, &case.world).into_iter().collect(),
    }
}

pub fn required() -> Vec<String> {
    let mut keys = Vec::new();
    for call in every_call(&mut Random::new(0), 0) {
        for zone in 0..2 {
            keys.extend(required_misfits(&call, &call.takes_of(zone)));
        }
        if !matches!(call, Call::Iup { .. }) {
            keys.push(far_key(name(&call)));
        }
    }
    let by_reference = (0..=255).flat_map(references_of);
    keys.extend(by_reference.map(|(name, _)| far_key(&name)));
    keys.sort();
    keys.dedup();
    keys
}

fn required_misfits(call: &Call, lists: &[usize]) -> Vec<String> {
    let mut keys = Vec::new();
    if let Some(first) = lists.first() {
        keys.push(limit_key(call, *first));
    }
    for (place, list) in lists.iter().enumerate() {
        if lists.len() > 1 {
            keys.extend([false, true].map(|longer| alone_key(call, *list, longer)));
        }
        if lists.len() > 2 {
            let others = &lists[place + 1..];
            keys.extend(others.iter().map(|other| pair_key(call, *list, *other)));
        }
    }
    keys
}

/// Which of the lists that a call takes of a zone don't fit.
fn misfits(call: &Call, zone: u32, world: &World) -> Vec<String> {
    let lists = call.takes_of(zone);
    let length = |list: &usize| world.lists[*list].len();
    let mut keys = Vec::new();
    if shared(&lists, length).is_some_and(|shared| shared > MOST_POINTS) {
        keys.push(limit_key(call, lists[0]));
    }
    for (place, list) in lists.iter().enumerate() {
        let rest = without(&lists, &[*list]);
        if let Some(shared) = shared(&rest, length).filter(|shared| *shared != length(list)) {
            keys.push(alone_key(call, *list, length(list) > shared));
        }
        for other in &lists[place + 1..] {
            let rest = without(&lists, &[*list, *other]);
            let apart = |shared: &usize| *shared != length(list) && *shared != length(other);
            if shared(&rest, length).filter(apart).is_some() {
                keys.push(pair_key(call, *list, *other));
            }
        }
    }
    keys
}

/// The length that all of the lists have, if there are any.
fn shared(lists: &[usize], length: impl Fn(&usize) -> usize) -> Option<usize> {
    let first = length(lists.first()?);
    let alike = lists.iter().all(|list| length(list) == first);
    alike.then_some(first)
}

fn without(lists: &[usize], left_out: &[usize]) -> Vec<usize> {
    let is_left = |list: &&usize| !left_out.contains(list);
    lists.iter().filter(is_left).copied().collect()
}

fn far_index(call: &Call, world: &World) -> Option<String> {
    let (_, arguments) = call.numbers();
    let zone = match call {
        Call::MoveZp2Point { .. } => world.state.zones[2],
        _ => arguments[0],
    };
    let far = match call {
        Call::PointDisplacement { opcode } => {
            let (reference, pointer) = if opcode & 1 == 1 { (1, 0) } else { (2, 1) };
            is_far(
                world.state.references[reference],
                world.points_of(world.state.zones[pointer]),
            )
        }
        Call::SetOnCurve { start, end, .. } => {
            let most = world.points_of(zone) + 1;
            is_far(*start, most) || is_far(*end, most)
        }
        _ => is_far(
            crate::words::joined(arguments[1], arguments[2]),
            world.points_of(zone),
        ),
    };
    far.then(|| far_key(name(call)))
}

/// A run whose first line goes by references that are far.
fn far_references(case: &Case) -> Vec<String> {
    let first = case.world.lists[SHEET].first().copied();
    let opcode = first.and_then(|word| u8::try_from(word).ok());
    let references = opcode.map(references_of).unwrap_or_default().into_iter();
    let far = references.filter(|(_, reference)| {
        let (zone, index) = place_of(case, *reference);
        is_far(index, case.world.points_of(zone))
    });
    far.map(|(name, _)| far_key(&name)).collect()
}

/// The references that a line of the code goes by, each with the name that it is
/// counted under: the code's, and where there are several its own as well.
fn references_of(code: u8) -> Vec<(String, Reference)> {
    let references = row_of(code).map(|row| row.references(code));
    let references = references.unwrap_or_default();
    let several = references.len() > 1;
    let named = |reference: Reference| match several {
        true => (
            format!("{}, rp{}", name_of(code), reference.number),
            reference,
        ),
        false => (name_of(code), reference),
    };
    references.into_iter().map(named).collect()
}

fn is_far(index: u64, points: usize) -> bool {
    index >> 32 != 0 && ((index as u32) as usize) < points
}

fn name(call: &Call) -> &'static str {
    CALLS[call.numbers().0 as usize]
}

fn far_key(name: &str) -> String {
    format!("{name}: an index or reference whose low 32 bits are a point")
}

fn limit_key(call: &Call, list: usize) -> String {
    format!(
        "{}: 2, {} and all above the limit",
        name(call),
        LIST_NAMES[list]
    )
}

fn alone_key(call: &Call, list: usize, longer: bool) -> String {
    let way = if longer { "long" } else { "short" };
    format!("{}: 2, {} alone too {way}", name(call), LIST_NAMES[list])
}

fn pair_key(call: &Call, list: usize, other: usize) -> String {
    let [first, second] = [list, other].map(|list| LIST_NAMES[list]);
    format!("{}: 2, {first} and {second} unlike the rest", name(call))
}
