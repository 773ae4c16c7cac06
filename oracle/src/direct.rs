//! The direct calls of zone.rs: entry tests, then the Rust's own function.

use crate::{
    answer::{self, Answer},
    entry, replay,
    rules::Rules,
    world::*,
};
use reference::door::{Machine, Pair, Refused};

/// A call, with its arguments.
#[derive(Copy, Clone, PartialEq, Eq, Debug)]
pub enum Call {
    Run {
        start: u64,
        budget: u64,
        rules: Rules,
    },
    Point {
        zone: u32,
        index: u64,
    },
    Original {
        zone: u32,
        index: u64,
    },
    Unscaled {
        zone: u32,
        index: u64,
    },
    Touch {
        zone: u32,
        index: u64,
        axis: u32,
    },
    IsTouched {
        zone: u32,
        index: u64,
        axis: u32,
    },
    Untouch {
        zone: u32,
        index: u64,
        axis: u32,
    },
    FlipOnCurve {
        zone: u32,
        index: u64,
    },
    SetOnCurve {
        zone: u32,
        start: u64,
        end: u64,
        on: bool,
    },
    Iup {
        axis: u32,
    },
    MoveOriginal {
        zone: u32,
        index: u64,
        distance: i32,
    },
    MovePoint {
        zone: u32,
        index: u64,
        distance: i32,
    },
    MoveZp2Point {
        index: u64,
        by: Pair,
        do_touch: bool,
    },
    PointDisplacement {
        opcode: u32,
    },
}

/// What a call gives back beside the world: the answer, and a value.
#[derive(Copy, Clone, PartialEq, Eq, Default, Debug)]
pub struct Returned {
    pub answer: Answer,
    pub value: [u32; 2],
}

impl Call {
    /// A run by the Rust's own rules.
    pub const fn run(start: u64, budget: u64) -> Self {
        Self::Run {
            start,
            budget,
            rules: Rules::Skrifa,
        }
    }

    /// The zone that the call is given alone; None where it takes the state,
    /// and so both zones.
    pub fn own_zone(&self) -> Option<u32> {
        match *self {
            Call::Point { zone, .. }
            | Call::Original { zone, .. }
            | Call::Unscaled { zone, .. }
            | Call::Touch { zone, .. }
            | Call::IsTouched { zone, .. }
            | Call::Untouch { zone, .. }
            | Call::FlipOnCurve { zone, .. }
            | Call::SetOnCurve { zone, .. } => Some(zone),
            Call::Iup { .. } => Some(1),
            _ => None,
        }
    }

    /// Makes the call and leaves in the world what it changed.
    pub fn perform(&self, world: &mut World) -> Returned {
        if let Call::Run {
            start,
            budget,
            rules,
        } = *self
        {
            return Returned {
                answer: replay::run(world, rules, start, budget),
                value: [0; 2],
            };
        }
        if let Some(number) = self.refused_at_entry(world) {
            return Returned {
                answer: Answer::of_call(number, 0),
                value: [0; 2],
            };
        }
        self.on_machine(world)
    }

    /// The lists of a zone that a direct call takes; none where it is about the
    /// other zone.
    pub fn takes_of(&self, zone: u32) -> Vec<usize> {
        if self.own_zone().is_some_and(|own| own != zone) {
            return Vec::new();
        }
        let (original, current, flags) = match zone {
            0 => (TWILIGHT_ORIGINAL_X, TWILIGHT_CURRENT_X, TWILIGHT_FLAGS),
            _ => (ORIGINAL_X, CURRENT_X, FLAGS),
        };
        match *self {
            Call::Run { .. } => unreachable!("a run takes everything"),
            Call::Point { .. } => vec![current, current + 1],
            Call::Original { .. } | Call::MoveOriginal { .. } => vec![original, original + 1],
            // The twilight zone has no unscaled points.
            Call::Unscaled { zone: 0, .. } => Vec::new(),
            Call::Unscaled { .. } => vec![UNSCALED_X, UNSCALED_X + 1],
            Call::Touch { .. }
            | Call::IsTouched { .. }
            | Call::Untouch { .. }
            | Call::FlipOnCurve { .. }
            | Call::SetOnCurve { .. } => vec![flags],
            Call::Iup { axis } => {
                let along = axis as usize - 1;
                let coordinates = [UNSCALED_X, ORIGINAL_X, CURRENT_X].map(|x| x + along);
                coordinates.into_iter().chain([FLAGS]).collect()
            }
            Call::MovePoint { .. } | Call::MoveZp2Point { .. } => {
                vec![current, current + 1, flags]
            }
            Call::PointDisplacement { .. } => {
                vec![original, original + 1, current, current + 1]
            }
        }
    }

    fn refused_at_entry(&self, world: &World) -> Option<u32> {
        let lists_fit = (0..2).all(|zone| entry::lists_fit(world, &self.takes_of(zone)));
        let takes_contours = matches!(self, Call::Iup { .. });
        if !lists_fit || takes_contours && !entry::contours_fit(world) {
            return Some(answer::SIZES);
        }
        if takes_contours && !entry::ends_rise(world) {
            return Some(answer::ENDS);
        }
        let takes_state = self.own_zone().is_none();
        let unsound = takes_state && !entry::state_is_sound(&world.state);
        unsound.then_some(answer::STATE)
    }

    /// The world with a blank list in place of each that the call doesn't take,
    /// as long as those that it does.
    fn given(&self, world: &World) -> World {
        let mut given = world.clone();
        for (zone, lists) in [(0, TWILIGHT_LISTS), (1, GLYPH_LISTS)] {
            let taken = self.takes_of(zone);
            let length = taken.first().map_or(0, |list| world.lists[*list].len());
            for list in lists.filter(|list| !taken.contains(list)) {
                given.lists[list] = vec![0; length];
            }
        }
        given
    }

    /// Takes back the lists that the call was given, and sees that it left the
    /// blank ones alone.
    fn take_back(&self, world: &mut World, given: World) {
        let taken = [self.takes_of(0), self.takes_of(1)].concat();
        for (index, list) in given.lists.into_iter().enumerate() {
            if taken.contains(&index) {
                world.lists[index] = list;
            } else if GLYPH_LISTS.contains(&index) || TWILIGHT_LISTS.contains(&index) {
                assert!(list.iter().all(|word| *word == 0));
            }
        }
    }

    fn on_machine(&self, world: &mut World) -> Returned {
        let mut given = self.given(world);
        let mut buffers = given.buffers();
        let result = if self.own_zone().is_some() {
            // The world's state isn't part of the call, so it may be unsound.
            buffers.with_machine(&mut fresh_state(), |machine| self.on(machine))
        } else {
            buffers.with_machine(&mut world.state, |machine| self.on(machine))
        };
        given.keep(&buffers);
        self.take_back(world, given);
        match result {
            Ok(value) => Returned {
                answer: Answer::of_call(0, 0),
                value,
            },
            Err(refused) => {
                let (number, detail) = answer::of_refusal(&refused, 0);
                Returned {
                    answer: Answer::of_call(number, detail),
                    value: [0; 2],
                }
            }
        }
    }

    fn on(&self, machine: &mut Machine) -> Result<[u32; 2], Refused> {
        match *self {
            Call::Run { .. } => unreachable!("a run has its own way"),
            Call::Point { zone, index } => machine.point(zone, index).map(of_pair),
            Call::Original { zone, index } => machine.original(zone, index).map(of_pair),
            Call::Unscaled { zone, index } => Ok(of_pair(machine.unscaled(zone, index))),
            Call::Touch { zone, index, axis } => machine.touch(zone, index, axis).map(of_nothing),
            Call::IsTouched { zone, index, axis } => {
                let touched = machine.is_touched(zone, index, axis)?;
                Ok([u32::from(touched), 0])
            }
            Call::Untouch { zone, index, axis } => {
                machine.untouch(zone, index, axis).map(of_nothing)
            }
            Call::FlipOnCurve { zone, index } => machine.flip_on_curve(zone, index).map(of_nothing),
            Call::SetOnCurve {
                zone,
                start,
                end,
                on,
            } => machine.set_on_curve(zone, start, end, on).map(of_nothing),
            Call::Iup { axis } => machine.iup(axis).map(of_nothing),
            Call::MoveOriginal {
                zone,
                index,
                distance,
            } => machine.move_original(zone, index, distance).map(of_nothing),
            Call::MovePoint {
                zone,
                index,
                distance,
            } => machine.move_point(zone, index, distance).map(of_nothing),
            Call::MoveZp2Point {
                index,
                by,
                do_touch,
            } => machine.move_zp2_point(index, by, do_touch).map(of_nothing),
            Call::PointDisplacement { opcode } => {
                let by = machine.point_displacement(opcode as u8)?;
                Ok(of_pair(by))
            }
        }
    }
}

fn of_pair((x, y): Pair) -> [u32; 2] {
    [x as u32, y as u32]
}

fn of_nothing(_: ()) -> [u32; 2] {
    [0; 2]
}
