//! A case: a call with its world, and the outcome as the words that changed.

use crate::{
    answer::Answer,
    direct::{Call, Returned},
    rules::Rules,
    words::{halves, joined},
    world::{state_of, state_words, World, LIST_COUNT, STATE_WORDS},
};

/// Words before the state: sizes, call, outcome and the lists' lengths.
const HEAD_WORDS: usize = 39;
const ARGUMENTS: usize = 2;
const START: usize = 10;
const BUDGET: usize = 12;
const OUTCOME: usize = 14;
const CHANGES: usize = 23;
const LENGTHS: usize = 24;
/// Words of an outcome before its changes: answer, place, lines, detail, value.
pub const OUTCOME_WORDS: usize = CHANGES - OUTCOME;

/// A length word's mark for a list that is stored as one word.
const ALIKE: u32 = 1 << 31;
/// Lists longer than this are stored as one word where all elements are alike.
const LONG: usize = 16;

#[derive(Clone, PartialEq, Debug)]
pub struct Case {
    pub call: Call,
    pub world: World,
}

/// Everything that a call does: what it returns, and each word it changed.
#[derive(Clone, PartialEq, Eq, Default, Debug)]
pub struct Outcome {
    pub returned: Returned,
    /// Index in the expanded world, and the new word.
    pub changes: Vec<(u32, u32)>,
}

impl Case {
    /// The same run by other rules; a direct call has none.
    pub fn under(mut self, chosen: Rules) -> Self {
        if let Call::Run { rules, .. } = &mut self.call {
            *rules = chosen;
        }
        self
    }

    pub fn outcome(&self) -> Outcome {
        let mut world = self.world.clone();
        let returned = self.call.perform(&mut world);
        Outcome {
            returned,
            changes: changes(&self.world.expanded(), &world.expanded()),
        }
    }

    /// The world as the outcome leaves it, in expanded words; None where the
    /// outcome names a word that isn't there.
    pub fn after(&self, outcome: &Outcome) -> Option<Vec<u32>> {
        let mut words = self.world.expanded();
        for (index, word) in &outcome.changes {
            *words.get_mut(*index as usize)? = *word;
        }
        Some(words)
    }

    /// The case's words with the given outcome in them.
    pub fn words(&self, outcome: &Outcome) -> Vec<u32> {
        let mut words = vec![0; HEAD_WORDS];
        let (kind, arguments) = self.call.numbers();
        words[1] = kind;
        words[ARGUMENTS..START].copy_from_slice(&arguments);
        if let Call::Run { start, budget, .. } = self.call {
            words[START..BUDGET].copy_from_slice(&halves(start));
            words[BUDGET..OUTCOME].copy_from_slice(&halves(budget));
        }
        words[OUTCOME..CHANGES].copy_from_slice(&outcome.returned.words());
        words[CHANGES] = outcome.changes.len() as u32;
        words.extend(state_words(&self.world.state));
        for (index, list) in self.world.lists.iter().enumerate() {
            let (length, stored) = stored(list);
            words[LENGTHS + index] = length;
            words.extend(stored);
        }
        words.extend(
            outcome
                .changes
                .iter()
                .flat_map(|(index, word)| [index, word]),
        );
        words[0] = words.len() as u32;
        words
    }

    /// Reads the case at the head of the words; the outcome comes with it.
    pub fn read(words: &[u32]) -> Result<(Self, Outcome, &[u32]), String> {
        let total = *words.first().ok_or("no case")? as usize;
        if total < HEAD_WORDS + STATE_WORDS || total > words.len() {
            return Err(format!("a case of {total} words, {} are left", words.len()));
        }
        let (own, rest) = words.split_at(total);
        let mut left = &own[HEAD_WORDS..];
        let state = state_of(take(&mut left, STATE_WORDS)?)?;
        let mut lists: [Vec<u32>; LIST_COUNT] = Default::default();
        for (list, length) in lists.iter_mut().zip(&own[LENGTHS..]) {
            *list = unstored(*length, &mut left)?;
        }
        let changes = read_changes(own[CHANGES], &mut left)?;
        if !left.is_empty() {
            return Err(format!("{} words after a case's changes", left.len()));
        }
        let start = joined(own[START], own[START + 1]);
        let budget = joined(own[BUDGET], own[BUDGET + 1]);
        let call = Call::of_numbers(own[1], &own[ARGUMENTS..START], start, budget)?;
        let returned = Returned::of_words(&own[OUTCOME..CHANGES]);
        let case = Self {
            call,
            world: World { state, lists },
        };
        Ok((case, Outcome { returned, changes }, rest))
    }
}

/// All cases of a stream, each with its outcome.
pub fn read_stream(mut words: &[u32]) -> Result<Vec<(Case, Outcome)>, String> {
    let mut cases = Vec::new();
    while !words.is_empty() {
        let (case, outcome, rest) =
            Case::read(words).map_err(|error| format!("case {}: {error}", cases.len()))?;
        cases.push((case, outcome));
        words = rest;
    }
    Ok(cases)
}

impl Outcome {
    /// As a program writes it: the returned words, k, then k pairs.
    pub fn words(&self) -> Vec<u32> {
        let mut words = self.returned.words().to_vec();
        words.push(self.changes.len() as u32);
        words.extend(self.changes.iter().flat_map(|(index, word)| [index, word]));
        words
    }

    /// Reads an outcome at the head of a program's words.
    pub fn read(words: &[u32]) -> Result<(Self, &[u32]), String> {
        let mut left = words;
        let returned = Returned::of_words(take(&mut left, OUTCOME_WORDS)?);
        let count = take(&mut left, 1)?[0];
        let changes = read_changes(count, &mut left)?;
        Ok((Self { returned, changes }, left))
    }
}

impl Returned {
    fn words(&self) -> [u32; OUTCOME_WORDS] {
        let answer = self.answer;
        let [place_low, place_high] = halves(answer.place);
        let [lines_low, lines_high] = halves(answer.lines);
        let [detail_low, detail_high] = halves(answer.detail);
        let [value, second] = self.value;
        [
            answer.number,
            place_low,
            place_high,
            lines_low,
            lines_high,
            detail_low,
            detail_high,
            value,
            second,
        ]
    }

    fn of_words(words: &[u32]) -> Self {
        Self {
            answer: Answer {
                number: words[0],
                place: joined(words[1], words[2]),
                lines: joined(words[3], words[4]),
                detail: joined(words[5], words[6]),
            },
            value: [words[7], words[8]],
        }
    }
}

impl Call {
    /// The kind's number and the eight argument words: zone; index or start;
    /// end; rules, axis, on, opcode or touch; distance or dx; dy.
    pub fn numbers(&self) -> (u32, [u32; 8]) {
        let arguments = |zone: u32, index: u64, end: u64, choice: u32, by: (i32, i32)| {
            let [index_low, index_high] = halves(index);
            let [end_low, end_high] = halves(end);
            let (dx, dy) = (by.0 as u32, by.1 as u32);
            [
                zone, index_low, index_high, end_low, end_high, choice, dx, dy,
            ]
        };
        let at = |zone, index| arguments(zone, index, 0, 0, (0, 0));
        let along = |zone, index, axis| arguments(zone, index, 0, axis, (0, 0));
        let by = |zone, index, distance| arguments(zone, index, 0, 0, (distance, 0));
        match *self {
            Call::Run { rules, .. } => (0, along(0, 0, rules.number())),
            Call::Point { zone, index } => (1, at(zone, index)),
            Call::Original { zone, index } => (2, at(zone, index)),
            Call::Unscaled { zone, index } => (3, at(zone, index)),
            Call::Touch { zone, index, axis } => (4, along(zone, index, axis)),
            Call::IsTouched { zone, index, axis } => (5, along(zone, index, axis)),
            Call::Untouch { zone, index, axis } => (6, along(zone, index, axis)),
            Call::FlipOnCurve { zone, index } => (7, at(zone, index)),
            Call::SetOnCurve {
                zone,
                start,
                end,
                on,
            } => (8, arguments(zone, start, end, u32::from(on), (0, 0))),
            Call::Iup { axis } => (9, along(0, 0, axis)),
            Call::MoveOriginal {
                zone,
                index,
                distance,
            } => (10, by(zone, index, distance)),
            Call::MovePoint {
                zone,
                index,
                distance,
            } => (11, by(zone, index, distance)),
            Call::MoveZp2Point {
                index,
                by,
                do_touch,
            } => (12, arguments(0, index, 0, u32::from(do_touch), by)),
            Call::PointDisplacement { opcode } => (13, along(0, 0, opcode)),
        }
    }

    fn of_numbers(kind: u32, words: &[u32], start: u64, budget: u64) -> Result<Self, String> {
        let zone = words[0];
        let index = joined(words[1], words[2]);
        let end = joined(words[3], words[4]);
        let choice = words[5];
        let distance = words[6] as i32;
        let by = (distance, words[7] as i32);
        let call = match kind {
            0 => Call::Run {
                start,
                budget,
                rules: Rules::numbered(choice)
                    .ok_or(format!("no rules have the number {choice}"))?,
            },
            1 => Call::Point { zone, index },
            2 => Call::Original { zone, index },
            3 => Call::Unscaled { zone, index },
            4 => Call::Touch {
                zone,
                index,
                axis: choice,
            },
            5 => Call::IsTouched {
                zone,
                index,
                axis: choice,
            },
            6 => Call::Untouch {
                zone,
                index,
                axis: choice,
            },
            7 => Call::FlipOnCurve { zone, index },
            8 => Call::SetOnCurve {
                zone,
                start: index,
                end,
                on: choice == 1,
            },
            9 => Call::Iup { axis: choice },
            10 => Call::MoveOriginal {
                zone,
                index,
                distance,
            },
            11 => Call::MovePoint {
                zone,
                index,
                distance,
            },
            12 => Call::MoveZp2Point {
                index,
                by,
                do_touch: choice == 1,
            },
            13 => Call::PointDisplacement { opcode: choice },
            _ => return Err(format!("no call has the kind {kind}")),
        };
        // What no call means is refused: the words must come back the same.
        if call.numbers() == (kind, words.try_into().unwrap_or_default()) && call.is_meant() {
            Ok(call)
        } else {
            Err(format!("kind {kind} has no meaning for {words:?}"))
        }
    }

    /// Zones are 0 and 1, axes 0 to 2, IUP's axis 1 or 2, opcodes a byte.
    fn is_meant(&self) -> bool {
        let axis_is_meant = match *self {
            Call::Touch { axis, .. } | Call::IsTouched { axis, .. } => axis <= 2,
            Call::Untouch { axis, .. } => axis <= 2,
            Call::Iup { axis } => axis == 1 || axis == 2,
            Call::PointDisplacement { opcode } => opcode <= 255,
            _ => true,
        };
        let zone = self.numbers().1[0];
        axis_is_meant && zone <= 1
    }
}

fn changes(before: &[u32], after: &[u32]) -> Vec<(u32, u32)> {
    let pairs = before.iter().zip(after).enumerate();
    pairs
        .filter(|(_, (old, new))| old != new)
        .map(|(index, (_, new))| (index as u32, *new))
        .collect()
}

/// The length word and the stored words of a list.
fn stored(list: &[u32]) -> (u32, &[u32]) {
    let length = list.len() as u32;
    if list.len() > LONG && list.iter().all(|word| *word == list[0]) {
        (length | ALIKE, &list[..1])
    } else {
        (length, list)
    }
}

fn unstored(length: u32, left: &mut &[u32]) -> Result<Vec<u32>, String> {
    let count = (length & !ALIKE) as usize;
    if length & ALIKE == 0 {
        return Ok(take(left, count)?.to_vec());
    }
    let word = take(left, 1)?[0];
    Ok(vec![word; count])
}

fn read_changes(count: u32, left: &mut &[u32]) -> Result<Vec<(u32, u32)>, String> {
    let words = take(left, count as usize * 2)?;
    Ok(words
        .chunks_exact(2)
        .map(|pair| (pair[0], pair[1]))
        .collect())
}

fn take<'a>(left: &mut &'a [u32], count: usize) -> Result<&'a [u32], String> {
    if count > left.len() {
        return Err(format!("{count} words wanted, {} are left", left.len()));
    }
    let (taken, rest) = left.split_at(count);
    *left = rest;
    Ok(taken)
}
