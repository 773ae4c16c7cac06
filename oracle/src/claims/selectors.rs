//! Claims about SROUND and S45ROUND of document 02.

use super::Claims;
use crate::scene::{Played, Scene};
use reference::door::Rounding;

const SROUND: i32 = 0x76;
const S45ROUND: i32 = 0x77;

pub fn check(claims: &mut Claims) {
    selectors_by_hand(claims);
    bits_that_do_not_count(claims);
    when_the_shift_comes(claims);
    counts_of_operands(claims);
    periods_of_zero(claims);
}

fn rounding(mode: u32, threshold: i32, phase: i32, period: i32) -> Rounding {
    Rounding {
        mode,
        threshold,
        phase,
        period,
    }
}

fn set(opcode: i32, operand: i32) -> Rounding {
    rounding_of(&Scene::new(&[]).sheet(&[opcode, 1, operand]).play())
}

fn rounding_of(played: &Played) -> Rounding {
    played.world.state.rounding
}

fn selectors_by_hand(claims: &mut Claims) {
    let rows = [
        (
            "SROUND 0x48: RTG's grid",
            SROUND,
            0x48,
            rounding(6, 32, 0, 64),
        ),
        (
            "SROUND 0: period less one is 8191, and 31 at the end",
            SROUND,
            0,
            rounding(6, 31, 0, 32),
        ),
        (
            "SROUND 0x9B: two pixels",
            SROUND,
            0x9B,
            rounding(6, 112, 32, 128),
        ),
        (
            "SROUND 0xC8: both top bits set keep the grid",
            SROUND,
            0xC8,
            rounding(6, 32, 0, 64),
        ),
        (
            "SROUND 0x71: three quarters, less three eighths",
            SROUND,
            0x71,
            rounding(6, -24, 48, 64),
        ),
        (
            "S45ROUND 0x01: -2172 is shifted to -9",
            S45ROUND,
            0x01,
            rounding(7, -9, 0, 22),
        ),
        (
            "S45ROUND 0x30: three quarters of 5792",
            S45ROUND,
            0x30,
            rounding(7, 22, 16, 22),
        ),
        (
            "S45ROUND 0x48: half of 11585",
            S45ROUND,
            0x48,
            rounding(7, 22, 0, 45),
        ),
    ];
    for (what, opcode, selector, wanted) in rows {
        claims.same(what, set(opcode, selector), wanted);
    }
    let rounds = Scene::new(&[(75, 0)]).sheet(&[SROUND, 1, 0x48, 0x2F, 1, 0]);
    claims.same("MDAP[1] rounds by it", rounds.play().point(0), (64, 0));
}

fn bits_that_do_not_count(claims: &mut Claims) {
    for operand in [-184, 256 + 0x48, i32::MIN + 0x48, 0x7FFF_FF48] {
        for opcode in [SROUND, S45ROUND] {
            let what = format!("{opcode:X} of {operand} is that of 0x48");
            claims.same(&what, set(opcode, operand), set(opcode, 0x48));
        }
    }
}

/// All is shifted at the end: the thresholds show it, the phases don't.
fn when_the_shift_comes(claims: &mut Claims) {
    let parted = |part: fn(Rounding, i32) -> (i32, i32)| {
        let both = [SROUND, S45ROUND].into_iter();
        let sets = both.flat_map(|opcode| (0..=255).map(move |byte| (set(opcode, byte), byte)));
        sets.filter(|(set, byte)| {
            let (number, of_shifted) = part(*set, *byte);
            number != of_shifted
        })
        .count()
    };
    claims.same(
        "phases that aren't quarters of the shifted period, of 512",
        parted(|set, byte| (set.phase, set.period * (byte >> 4 & 3) / 4)),
        0,
    );
    claims.same(
        "thresholds that aren't eighths of it, or it less one, of 512",
        parted(|set, byte| match byte & 15 {
            0 => (set.threshold, set.period - 1),
            eighths => (set.threshold, (eighths - 4) * set.period / 8),
        }),
        100,
    );
}

fn counts_of_operands(claims: &mut Claims) {
    let brought = rounding(1, 5, 3, 7);
    let scene = Scene::new(&[]).state(|state| state.rounding = brought);
    for opcode in [SROUND, S45ROUND] {
        let none = scene.clone().sheet(&[opcode, 0]).play();
        claims.same(&format!("{opcode:X} without operand"), none.said(), (6, 0));
        claims.same("the rounding stays", rounding_of(&none), brought);
        let two = scene.clone().sheet(&[opcode, 2, 0x48, 0x48]).play();
        claims.same(&format!("{opcode:X} with two"), two.said(), (5, 0));
        claims.same("the rounding stays", rounding_of(&two), brought);
    }
}

fn periods_of_zero(claims: &mut Claims) {
    let smallest = |opcode: i32| (0..=255).map(|byte| set(opcode, byte).period).min();
    claims.same("SROUND's smallest period", smallest(SROUND), Some(32));
    claims.same("S45ROUND's smallest period", smallest(S45ROUND), Some(22));
    let with_period_0 = |mode: u32| {
        Scene::new(&[(75, 0)])
            .state(|state| state.rounding = rounding(mode, 5, 3, 0))
            .sheet(&[S45ROUND, 1, 0x48, 0x2F, 1, 0])
    };
    claims.same(
        "02: Super45 with period 0 is 3, though a selector would set it",
        with_period_0(7).play().said(),
        (3, 0),
    );
    let usable = with_period_0(6).play();
    claims.same("Super with period 0 is taken", usable.said(), (0, 0));
    claims.same("and S45ROUND after it rounds", usable.point(0), (90, 0));
}
