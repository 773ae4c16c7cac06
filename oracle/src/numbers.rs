//! Numbers at which arithmetic on 26.6 and 2.14 words turns.

use crate::random::Random;

/// The turning points' magnitudes; 2^31 is there by wrapping.
const TURNS: [i64; 9] = [0, 1, 31, 32, 63, 64, 1 << 14, 1 << 30, 1 << 31];

/// Every turning point, its negative, and the neighbours of both, in order.
pub fn corners() -> Vec<i32> {
    let mut all: Vec<i32> = TURNS
        .iter()
        .flat_map(|turn| [*turn, -*turn])
        .flat_map(|turn| [turn - 1, turn, turn + 1])
        .map(|number| number as i32)
        .collect();
    all.sort_unstable();
    all.dedup();
    all
}

/// Any word at all, with every size of magnitude about as likely.
pub fn any_word(random: &mut Random) -> i32 {
    (random.next() as i32) >> random.below(32)
}

/// A word near a turning point.
pub fn near_corner(random: &mut Random) -> i32 {
    let turn = random.pick(&TURNS) as i32;
    let signed = if random.flip() {
        turn
    } else {
        turn.wrapping_neg()
    };
    signed.wrapping_add(random.between(-2, 2))
}

/// A coordinate as hinted glyphs have them.
pub fn everyday(random: &mut Random) -> i32 {
    random.between(-1500, 1500)
}

/// Any of the three above.
pub fn mixed(random: &mut Random) -> i32 {
    match random.below(4) {
        0 => near_corner(random),
        1 => any_word(random),
        _ => everyday(random),
    }
}
