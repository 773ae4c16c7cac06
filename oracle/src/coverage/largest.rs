//! Runs at the sizes' limits: all at once are let in, and one alone above its
//! own isn't; the last point, contour and line are come to.

use super::keys::sized_lists;
use crate::{
    answer,
    case::{Case, Outcome},
    direct::Call,
    world::*,
};

const ALL: &str = "all sizes at their limits";
const LAST: [&str; 3] = [
    "n is the limit: the contour that ends at its last point follows",
    "n and contours are the limit: the last contour is shifted",
    "sheet words are the limit: the last line moves a point",
];

pub fn keys(case: &Case, outcome: &Outcome) -> Vec<String> {
    let Call::Run { .. } = case.call else {
        return Vec::new();
    };
    let number = outcome.returned.answer.number;
    let mut keys: Vec<String> = filled(&case.world)
        .map(|above| all_key(above, number))
        .into_iter()
        .collect();
    if number == answer::END {
        let seen = lasts(&case.world, outcome).into_iter().zip(LAST);
        keys.extend(seen.filter(|(seen, _)| *seen).map(|(_, key)| key.into()));
    }
    keys
}

pub fn required() -> Vec<String> {
    let mut keys = [answer::END, answer::ENDS]
        .map(|number| all_key(None, number))
        .to_vec();
    keys.extend(sized_lists().map(|(name, ..)| all_key(Some(name), answer::SIZES)));
    keys.extend(LAST.map(String::from));
    keys
}

fn all_key(above: Option<&str>, number: u32) -> String {
    match above {
        None => format!("{ALL}: answer {number}"),
        Some(name) => format!("{ALL}, but {name} above: answer {number}"),
    }
}

/// Where every size is at its limit: which one is above, if one alone is.
fn filled(world: &World) -> Option<Option<&'static str>> {
    let over = |(_, list, most): &(&str, usize, usize)| world.lists[*list].len().checked_sub(*most);
    let sizes = sized_lists();
    let over: Vec<usize> = sizes.iter().map(over).collect::<Option<_>>()?;
    match over.iter().sum() {
        0 => Some(None),
        1 => Some(Some(sizes[over.iter().position(|more| *more == 1)?].0)),
        _ => None,
    }
}

/// Whether the last point's contour follows it at the limit of points; whether
/// a line of the contour moves it at that of contours too, where it has no other;
/// whether the last line moves its point at that of words.
fn lasts(world: &World, outcome: &Outcome) -> [bool; 3] {
    let lists = &world.lists;
    let points = lists[FLAGS].len();
    let ends_there = lists[CONTOURS].last().map(|end| *end as usize + 1) == Some(points);
    // A line of its own moves the last point: what follows is the one before.
    let follows = ends_there && points == MOST_POINTS && moves(world, outcome, points - 2);
    let last_operand = lists[SHEET].last().copied().unwrap_or_default() as usize;
    [
        follows,
        lists[CONTOURS].len() == MOST_CONTOURS && moves(world, outcome, points - 1),
        lists[SHEET].len() == MOST_SHEET_WORDS && moves(world, outcome, last_operand),
    ]
}

/// Whether a glyph point's x or y is another afterwards.
fn moves(world: &World, outcome: &Outcome, point: usize) -> bool {
    let before = |list: usize| world.lists[..list].iter().map(Vec::len).sum::<usize>();
    [CURRENT_X, CURRENT_Y].into_iter().any(|list| {
        let index = (STATE_WORDS + before(list) + point) as u32;
        point < world.lists[list].len()
            && outcome.changes.iter().any(|(changed, _)| *changed == index)
    })
}
