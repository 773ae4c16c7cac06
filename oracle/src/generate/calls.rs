//! Cases of the direct calls.

use super::{
    spoil,
    states::sound_state,
    worlds::{fill_glyph, small_count, small_world},
};
use crate::{
    case::Case,
    direct::Call,
    numbers::{any_word, mixed},
    random::Random,
    words::widened,
    world::*,
};

/// A direct call other than IUP.
pub fn zone_case(random: &mut Random) -> Case {
    let state = sound_state(random);
    let mut world = small_world(random, state);
    leave_out_what_no_direct_call_takes(&mut world);
    let call = zone_call(random, &world);
    if random.once_in(12) {
        spoil_what_is_taken(random, &mut world, &call);
    }
    Case { call, world }
}

/// IUP on one axis of a glyph, called directly.
pub fn iup_case(random: &mut Random) -> Case {
    let state = sound_state(random);
    let mut world = World {
        state,
        lists: Default::default(),
    };
    let points = small_count(random) + small_count(random);
    fill_glyph(random, &mut world, points);
    let call = Call::Iup {
        axis: 1 + random.below(2) as u32,
    };
    if random.once_in(30) {
        spoil_what_is_taken(random, &mut world, &call);
    }
    Case { call, world }
}

pub fn leave_out_what_no_direct_call_takes(world: &mut World) {
    world.lists[CONTROL_VALUES].clear();
    world.lists[SHEET].clear();
}

pub fn zone_call(random: &mut Random, world: &World) -> Call {
    let zone = u32::from(!random.once_in(3));
    let index = index(random, world.points_of(zone));
    let axis = random.below(3) as u32;
    match random.weighted(&[1, 1, 1, 1, 1, 1, 1, 2, 3, 6, 5, 4]) {
        0 => Call::Point { zone, index },
        1 => Call::Original { zone, index },
        2 => Call::Unscaled { zone, index },
        3 => Call::Touch { zone, index, axis },
        4 => Call::IsTouched { zone, index, axis },
        5 => Call::Untouch { zone, index, axis },
        6 => Call::FlipOnCurve { zone, index },
        7 => set_on_curve(random, zone, world.points_of(zone)),
        8 => Call::MoveOriginal {
            zone,
            index,
            distance: mixed(random),
        },
        9 => Call::MovePoint {
            zone,
            index,
            distance: mixed(random),
        },
        10 => Call::MoveZp2Point {
            index: self::index(random, world.points_of(world.state.zones[2])),
            by: (mixed(random), mixed(random)),
            do_touch: random.flip(),
        },
        _ => Call::PointDisplacement {
            opcode: random.pick(&[0x32, 0x33, 0x34, 0x35, 0x36, 0x37, 0, 255]),
        },
    }
}

/// Each call once for each zone or axis that it can be about, at one index.
pub fn every_call(random: &mut Random, index: u64) -> Vec<Call> {
    let mut calls = Vec::new();
    for zone in 0..2 {
        let axis = random.below(3) as u32;
        let distance = mixed(random);
        calls.extend([
            Call::Point { zone, index },
            Call::Original { zone, index },
            Call::Unscaled { zone, index },
            Call::Touch { zone, index, axis },
            Call::IsTouched { zone, index, axis },
            Call::Untouch { zone, index, axis },
            Call::FlipOnCurve { zone, index },
            Call::SetOnCurve {
                zone,
                start: index,
                end: index + 1,
                on: random.flip(),
            },
            Call::Iup { axis: zone + 1 },
            Call::MoveOriginal {
                zone,
                index,
                distance,
            },
            Call::MovePoint {
                zone,
                index,
                distance,
            },
            Call::MoveZp2Point {
                index,
                by: (mixed(random), distance),
                do_touch: random.flip(),
            },
            Call::PointDisplacement {
                opcode: 0x32 + zone,
            },
        ]);
    }
    calls
}

fn set_on_curve(random: &mut Random, zone: u32, points: usize) -> Call {
    let (start, end) = if random.flip() {
        let start = random.below(points + 1);
        (
            start as u64,
            (start + random.below(points + 1 - start)) as u64,
        )
    } else {
        (index(random, points + 1), index(random, points + 1))
    };
    Call::SetOnCurve {
        zone,
        start,
        end,
        on: random.flip(),
    }
}

/// Mostly an index of the zone, now and then just outside it or anywhere.
fn index(random: &mut Random, points: usize) -> u64 {
    match random.weighted(&[10, 1, 1, 1]) {
        0 => random.below(points.max(1)) as u64,
        1 => points as u64 + random.below(2) as u64,
        2 => widened(any_word(random)),
        _ => random.next(),
    }
}

/// Spoils the lengths of a zone that the call takes, or the state, which
/// matters only where the call takes it. Other lists stay as they should be.
fn spoil_what_is_taken(random: &mut Random, world: &mut World, call: &Call) {
    match call.own_zone() {
        _ if random.flip() => super::states::make_unsound(random, &mut world.state),
        Some(0) => spoil::one_length(random, world, TWILIGHT_LISTS),
        Some(_) => spoil::one_length(random, world, GLYPH_LISTS),
        None => spoil::some_length(random, world),
    }
}
