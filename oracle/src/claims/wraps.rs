//! Claims about document 02's wrapped roundings and their count.

use super::{Claims, MIN};
use crate::{math_rows::MathRow, scene::Scene};

const MAX: i32 = i32::MAX;
const END: u32 = u32::MAX;
const SUPER: u32 = 6;
const SUPER45: u32 = 7;

pub fn check(claims: &mut Claims) {
    rows_by_hand(claims);
    counts(claims);
}

fn rows_by_hand(claims: &mut Claims) {
    let rows = [
        ("Grid of 2^31 - 33 doesn't", 0, [MAX - 32, 0, 0, 64], false),
        ("Grid of 2^31 - 32 does", 0, [MAX - 31, 0, 0, 64], true),
        ("HalfGrid of 2^31 - 1 doesn't", 1, [MAX, 0, 0, 64], false),
        ("HalfGrid of -2^31 does", 1, [MIN, 0, 0, 64], true),
        ("down of -2^31 does", 3, [MIN, 0, 0, 64], true),
        ("Off of -2^31 doesn't", 5, [MIN, MAX, MIN, MIN], false),
        (
            "Grid minds no bias and no period",
            0,
            [64, MAX, MIN, MIN],
            false,
        ),
        ("Super's bias does", SUPER, [64, MAX, -1, 64], true),
        ("Super's period -2^31 does", SUPER, [64, 0, 0, MIN], true),
        (
            "Super45's period -2^31 doesn't",
            SUPER45,
            [64, 0, 0, MIN],
            false,
        ),
        ("Super of -2^31 needn't", SUPER, [MIN, -1, 0, 64], false),
        (
            "Super45 of -2^31 over -1 does",
            SUPER45,
            [0, MIN, 0, -1],
            true,
        ),
        (
            "the phase's negation does below 0",
            SUPER,
            [-1, -2, MIN, 1],
            true,
        ),
        ("there is none from 0 on", SUPER, [0, -2, MIN, 1], false),
    ];
    for (what, mode, arguments, wanted) in rows {
        let got = MathRow::new(16 + mode, arguments).outcome().wrapped;
        claims.same(&format!("02: wraps: {what}"), got, wanted);
    }
}

fn counts(claims: &mut Claims) {
    let after = |scene: Scene| scene.play().world.state.wrapped_roundings;
    let wraps =
        |count: u32| Scene::new(&[(MAX, 0)]).state(move |state| state.wrapped_roundings = count);
    let mdap = [0x2F, 1, 0];
    let miap = [0x3F, 2, 0, 0];
    let mut claim = |what: &str, got: u32, wanted: u32| {
        claims.same(&format!("02: the count: {what}"), got, wanted);
    };
    claim("MDAP[1] adds one", after(wraps(0).sheet(&mdap)), 1);
    claim("MDAP[0] adds none", after(wraps(7).sheet(&[0x2E, 1, 0])), 7);
    claim(
        "it reaches its end",
        after(wraps(END - 1).sheet(&mdap)),
        END,
    );
    claim("it stops there", after(wraps(END).sheet(&mdap)), END);
    let valued = |count: u32| {
        let far = |state: &mut reference::door::State| state.cut_in = MAX;
        wraps(count).control_values(&[MIN]).state(far)
    };
    claim("MIAP[1] adds one", after(valued(2).sheet(&miap)), 3);
    claim(
        "a MIAP[1] that is refused adds none",
        after(valued(2).sheet(&[0x3F, 2, 0, 1])),
        2,
    );
    let native = wraps(2).state(|state| state.native_cleartype_x = true);
    claim(
        "native ClearType x adds none",
        after(native.sheet(&mdap)),
        2,
    );
    claim(
        "an MDAP[1] that is let pass adds none",
        after(wraps(2).sheet(&[0x2F, 1, 1])),
        2,
    );
}
