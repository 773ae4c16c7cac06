//! Claims about GC, MD, MDRP and MIRP of document 02.

use super::{Claims, MIN};
use crate::{
    notable::{along, DIAGONAL, X, Y},
    scene::{Played, Scene},
};
use reference::door::State;

const MAX: i32 = i32::MAX;
/// 1.0 in 16.16.
const UNIT: i32 = 0x1_0000;
const MD_FITTED: i32 = 0x49;
const MD_ORIGINAL: i32 = 0x4A;
const MDRP: i32 = 0xC0;
const MIRP: i32 = 0xE0;
const ROUNDS: i32 = 4;
const KEEPS_MINIMUM: i32 = 8;
const SETS_RP0: i32 = 16;

pub fn check(claims: &mut Claims) {
    coordinates(claims);
    distances_between(claims);
    points_that_are_not_there(claims);
    what_is_read_first(claims);
    control_values(claims);
    single_widths(claims);
    flips_and_cut_ins(claims);
    minimum_distances(claims);
    native_cleartype(claims);
    refused_lines_count_nothing(claims);
    bits_that_do_not_count(claims);
}

fn pedantic(state: &mut State) {
    state.pedantic = true;
}

fn native(state: &mut State) {
    state.native_cleartype_x = true;
}

/// What was pushed last, and how often something was.
fn pushed(played: &Played) -> (i32, u32) {
    (played.world.state.last_pushed, played.world.state.pushes)
}

fn references(played: &Played) -> [u64; 3] {
    played.world.state.references
}

/// Two points, no coordinate like another.
fn two() -> Scene {
    Scene::new(&[(10, 20), (70, 50)])
        .unscaled(&[(100, 300), (900, 500)])
        .original(&[(12, 22), (92, 62)])
        .state(|state| {
            state.vectors = along(X, Y, X);
            state.scale = UNIT / 2;
        })
}

fn coordinates(claims: &mut Claims) {
    let gc = |scene: &Scene, line: &[i32]| scene.clone().sheet(line).play();
    let scene = two().twilight(&[(1, 2)], &[(3, 4)]);
    claims.same(
        "GC[0] is the current point along the projection",
        pushed(&gc(&scene, &[0x46, 1, 1])),
        (70, 1),
    );
    claims.same(
        "GC[1] is the original point along the dual vector",
        pushed(&gc(&scene, &[0x47, 1, 1])),
        (62, 1),
    );
    let in_twilight = scene.clone().state(|state| state.zones[2] = 0);
    claims.same(
        "GC goes by zp2",
        pushed(&gc(&in_twilight, &[0x47, 1, 0])),
        (2, 1),
    );
    let counted = scene.state(|state| state.pushes = u32::MAX - 1);
    let twice = gc(&counted, &[0x46, 1, 1, 0x46, 1, 0]);
    claims.same(
        "02: pushes stop at their end",
        pushed(&twice),
        (10, u32::MAX),
    );
}

fn distances_between(claims: &mut Claims) {
    let md = |scene: &Scene, line: &[i32]| pushed(&scene.clone().sheet(line).play()).0;
    let scene = two().twilight(&[(1, 2)], &[(3, 4)]);
    claims.same(
        "MD 49 is from its first point to its second, fitted",
        md(&scene, &[MD_FITTED, 2, 0, 1]),
        60,
    );
    claims.same(
        "MD 4A is scaled from font units, along the dual vector",
        md(&scene, &[MD_ORIGINAL, 2, 0, 1]),
        100,
    );
    let from_twilight = scene.clone().state(|state| state.zones[1] = 0);
    claims.same(
        "its first point is zp1's, its second zp0's; with twilight 4A takes originals",
        md(&from_twilight, &[MD_ORIGINAL, 2, 0, 1]),
        60,
    );
    let unscaled = scene.state(|state| state.scale = 0);
    claims.same(
        "02: 4A measures 0 with the scale of older records",
        md(&unscaled, &[MD_ORIGINAL, 2, 0, 1]),
        0,
    );
    let line = [MDRP, 1, 1];
    claims.same(
        "02: and so does MDRP, which moves the point to rp0",
        unscaled.sheet(&line).play().point(1),
        (10, 50),
    );
}

fn points_that_are_not_there(claims: &mut Claims) {
    let scene = two().state(|state| {
        state.vectors = along(X, X, X);
        state.scale = UNIT;
        state.last_pushed = 5;
        state.references = [1, 0, 0];
    });
    let strict = scene.clone().state(pedantic);
    let play = |scene: &Scene, line: &[i32]| scene.clone().sheet(line).play();
    for (name, line) in [("GC", vec![0x46, 1, 9]), ("MD", vec![MD_FITTED, 2, 9, 0])] {
        let passed = play(&scene, &line);
        claims.same(&format!("{name} outside pushes 0"), pushed(&passed), (0, 1));
        let refused = play(&strict, &line);
        claims.same(
            &format!("{name} outside, pedantic"),
            (refused.said(), pushed(&refused)),
            ((7, 9), (5, 0)),
        );
    }
    let wild = play(&strict, &[MD_ORIGINAL, 2, 0, -7]);
    claims.same(
        "MD 4A of glyph points refuses none: one outside is (0, 0)",
        (wild.said(), pushed(&wild)),
        ((0, 0), (-100, 1)),
    );
    claims.same(
        "but not pedantic it pushes 0",
        pushed(&play(&scene, &[MD_ORIGINAL, 2, 0, -7])),
        (0, 1),
    );
    let into_twilight = strict
        .clone()
        .twilight(&[(1, 2)], &[(3, 4)])
        .state(|state| state.zones[0] = 0);
    claims.same(
        "and with a twilight point it refuses",
        play(&into_twilight, &[MD_ORIGINAL, 2, 0, 1]).said(),
        (7, 1),
    );
    for (name, code, line) in [
        ("MDRP", MDRP, vec![9]),
        ("MIRP", MIRP, vec![-1, 9]),
        ("MIRP with a bad control value", MIRP, vec![0, 0]),
    ] {
        let operand = *line.last().unwrap_or(&0) as u64;
        let run = |scene: &Scene, bits: i32| {
            let sheet = [&[code | bits, line.len() as i32][..], &line].concat();
            play(scene, &sheet)
        };
        let passed = run(&scene, SETS_RP0);
        claims.same(
            &format!("{name} outside sets its references"),
            (passed.said(), references(&passed), passed.xs()),
            ((0, 0), [operand, 1, operand], vec![10, 70]),
        );
        claims.same(
            &format!("{name} outside without its bit keeps rp0"),
            references(&run(&scene, 0)),
            [1, 1, operand],
        );
        claims.same(
            &format!("02: {name} refused changes nothing"),
            references(&run(&strict, SETS_RP0)),
            [1, 0, 0],
        );
    }
}

fn what_is_read_first(claims: &mut Claims) {
    let scene = two().state(pedantic).state(|state| state.references[0] = 8);
    let said = |scene: &Scene, line: &[i32]| scene.clone().sheet(line).play().said();
    claims.same(
        "MD reads its second point first",
        said(&scene, &[MD_FITTED, 2, 7, 9]),
        (7, 9),
    );
    claims.same(
        "MDRP reads its point before rp0",
        said(&scene, &[MDRP, 1, 7]),
        (7, 7),
    );
    claims.same(
        "MIRP reads its control value first",
        said(&scene, &[MIRP, 2, 6, 7]),
        (8, 6),
    );
    claims.same("then its point", said(&scene, &[MIRP, 2, -1, 7]), (7, 7));
    let into_twilight = scene.clone().state(|state| state.zones[1] = 0);
    claims.same(
        "but rp0 where the point is in twilight",
        said(&into_twilight, &[MIRP, 2, -1, 7]),
        (7, 8),
    );
    claims.same(
        "MDRP's point even there",
        said(&into_twilight, &[MDRP, 1, 7]),
        (7, 7),
    );
    claims.same(
        "MIRP with one operand is 6, the control value being bad",
        said(&scene, &[MIRP, 1, 6]),
        (6, 0),
    );
}

fn control_values(claims: &mut Claims) {
    let scene = two().state(|state| state.vectors = along(X, X, X));
    let mirp = |scene: &Scene, line: &[i32]| scene.clone().sheet(line).play();
    claims.same(
        "MIRP of -1 takes the value 0",
        mirp(&scene, &[MIRP, 2, -1, 1]).point(1),
        (10, 50),
    );
    let strict = scene.clone().state(pedantic);
    claims.same(
        "MIRP of 2^31 - 1 wraps",
        mirp(&strict, &[MIRP, 2, MAX, 1]).said(),
        (8, 18446744071562067967),
    );
    claims.same(
        "MIRP of -2",
        mirp(&strict, &[MIRP, 2, -2, 1]).said(),
        (8, u64::MAX - 1),
    );
    let into_twilight = scene
        .twilight(&[(40, 40)], &[(50, 50)])
        .control_values(&[100])
        .state(|state| {
            state.vectors = along(Y, Y, Y);
            state.zones[1] = 0;
        });
    let made = mirp(&into_twilight, &[MIRP, 2, 0, 0]);
    claims.same(
        "MIRP into twilight: a quarter of its control value from rp0's original",
        made.twilight_original(0),
        (12, 47),
    );
    claims.same(
        "and its current point as far as the whole from rp0",
        made.twilight_point(0),
        (12, 120),
    );
}

/// Two points so far apart along x, in font units and before any line, and rp0
/// the first of them.
fn apart(distance: i32) -> Scene {
    Scene::new(&[(0, 0), (7, 0)])
        .unscaled(&[(0, 0), (distance, 0)])
        .original(&[(0, 0), (distance, 0)])
        .state(|state| {
            state.scale = UNIT;
            // Nothing is cut in but where a claim says so.
            state.cut_in = MAX;
        })
}

/// How far the second point is put from the first.
fn put(scene: Scene, line: &[i32]) -> i32 {
    scene.sheet(line).play().point(1).0
}

fn single_widths(claims: &mut Claims) {
    let direct = |distance: i32, width: i32, cut_in: i32| {
        let scene = apart(distance).state(|state| {
            state.single_width = width;
            state.single_width_cut_in = cut_in;
        });
        put(scene, &[MDRP, 1, 1])
    };
    let indirect = |value: i32, width: i32, cut_in: i32| {
        let scene = apart(0).control_values(&[value]).state(|state| {
            state.single_width = width;
            state.single_width_cut_in = cut_in;
            state.auto_flip = false;
        });
        put(scene, &[MIRP, 2, 0, 1])
    };
    for (what, got, wanted) in [
        (
            "MDRP's single width, 10 away with cut-in 11",
            direct(70, 80, 11),
            80,
        ),
        ("10 away with cut-in 10", direct(70, 80, 10), 70),
        ("10 beyond with cut-in 10", direct(90, 80, 10), 90),
        (
            "a distance below 0 takes its opposite",
            direct(-70, -80, 11),
            80,
        ),
        ("a cut-in of 0 takes none", direct(80, 80, 0), 80),
        (
            "its sum wraps: 10 + (2^31 - 1) is below 5",
            direct(5, 10, MAX),
            5,
        ),
        (
            "MIRP's single width, 10 away with cut-in 11",
            indirect(100, 90, 11),
            90,
        ),
        ("10 away with cut-in 10", indirect(100, 90, 10), 100),
        (
            "a value below 0 takes its opposite",
            indirect(-100, -90, 11),
            90,
        ),
        ("2^31 away is below a cut-in of 0", indirect(MIN, 0, 0), 0),
        ("and not below one of -2^31", indirect(MIN, 0, MIN), MIN),
    ] {
        claims.same(what, got, wanted);
    }
}

fn flips_and_cut_ins(claims: &mut Claims) {
    let mirp = |distance: i32, value: i32, change: fn(&mut State)| {
        let scene = apart(distance).control_values(&[value]).state(change);
        put(scene, &[MIRP | ROUNDS, 2, 0, 1])
    };
    fn unflipped(state: &mut State) {
        state.auto_flip = false;
    }
    fn narrow(state: &mut State) {
        state.cut_in = 68;
    }
    for (what, got, wanted) in [
        (
            "auto flip takes the measured sign",
            mirp(-70, 100, |_| {}),
            -128,
        ),
        ("and 0 is from 0 on", mirp(0, -100, |_| {}), 128),
        (
            "without it the value keeps its own",
            mirp(-70, 100, unflipped),
            128,
        ),
        (
            "68 away the cut-in of 68 keeps the value",
            mirp(70, 138, narrow),
            128,
        ),
        (
            "69 away it takes what was measured",
            mirp(70, 139, narrow),
            64,
        ),
        (
            "it is looked at after the flip",
            mirp(-70, 100, narrow),
            -128,
        ),
        ("2^31 away is never above it", mirp(MIN, 0, narrow), 0),
    ] {
        claims.same(&format!("MIRP: {what}"), got, wanted);
    }
    let unrounded = apart(70).control_values(&[500]).state(narrow);
    claims.same(
        "MIRP: without its bit the cut-in isn't looked at",
        put(unrounded, &[MIRP, 2, 0, 1]),
        500,
    );
    let between_zones = apart(70)
        .twilight(&[(0, 0)], &[(0, 0)])
        .control_values(&[500])
        .state(narrow)
        .state(|state| state.zones[0] = 0);
    claims.same(
        "MIRP: nor between two zones",
        put(between_zones, &[MIRP | ROUNDS, 2, 0, 1]),
        512,
    );
}

fn minimum_distances(claims: &mut Claims) {
    let mdrp = |distance: i32, minimum: i32, bits: i32| {
        let scene = apart(distance).state(|state| state.min_distance = minimum);
        put(scene, &[MDRP | KEEPS_MINIMUM | bits, 1, 1])
    };
    for (what, got, wanted) in [
        ("after the rounding", mdrp(20, 40, ROUNDS), 40),
        ("below 0 on that side", mdrp(-20, 40, ROUNDS), -40),
        ("at it", mdrp(64, 64, 0), 64),
        ("one of -2^31 negates to itself", mdrp(-5, MIN, 0), MIN),
        ("and keeps no distance from 0 on", mdrp(5, MIN, 0), 5),
    ] {
        claims.same(&format!("MDRP's minimum distance: {what}"), got, wanted);
    }
    let scene = apart(-5)
        .control_values(&[20])
        .state(|state| state.auto_flip = false);
    claims.same(
        "MIRP's minimum distance goes by the sign of what was measured",
        put(scene, &[MIRP | KEEPS_MINIMUM, 2, 0, 1]),
        -64,
    );
}

fn native_cleartype(claims: &mut Claims) {
    let mdrp = |distance: i32, minimum: i32| {
        let scene = apart(distance).state(native);
        let scene = scene.state(|state| state.min_distance = minimum);
        put(scene, &[MDRP | KEEPS_MINIMUM | ROUNDS, 1, 1])
    };
    claims.same("02: native MDRP doesn't round", mdrp(70, 64), 70);
    claims.same("02: half the minimum distance", mdrp(20, 65), 32);
    let below = |minimum: i32| {
        let scene = apart(0).control_values(&[-9]).state(native);
        let scene = scene.state(|state| {
            state.min_distance = minimum;
            state.auto_flip = false;
        });
        put(scene, &[MIRP | KEEPS_MINIMUM, 2, 0, 1])
    };
    claims.same("02: it is shifted, not divided: -5 is -3", below(-5), -3);
    let mirp = |value: i32| {
        let scene = apart(70).control_values(&[value]).state(native);
        put(
            scene.state(|state| state.cut_in = 68),
            &[MIRP | ROUNDS, 2, 0, 1],
        )
    };
    claims.same(
        "02: a sixteenth of the cut-in keeps the value",
        mirp(74),
        74,
    );
    claims.same("02: and not one more", mirp(75), 70);
}

fn refused_lines_count_nothing(claims: &mut Claims) {
    let scene = Scene::new(&[(0, 0)])
        .unscaled(&[(MIN, 0)])
        .state(pedantic)
        .state(|state| {
            state.scale = UNIT;
            state.wrapped_roundings = 7;
        })
        .sheet(&[MDRP | ROUNDS, 1, 5]);
    let (refused, told) = reference::door::with_roundings(|| scene.by_the_rust_alone().0);
    claims.same("MDRP rounds before it looks for its point", told.len(), 1);
    claims.same("and is then refused", refused.is_some(), true);
    let played = scene.play();
    claims.same(
        "02: it counts nothing",
        (played.said(), played.world.state.wrapped_roundings),
        ((7, 5), 7),
    );
    let wrapped = |code: i32, line: &[i32]| {
        let scene = apart(MAX).control_values(&[MAX]);
        let sheet = [&[code | ROUNDS, line.len() as i32][..], line].concat();
        scene.sheet(&sheet).play().world.state.wrapped_roundings
    };
    claims.same(
        "02: MDRP counts a rounding that wraps",
        wrapped(MDRP, &[1]),
        1,
    );
    claims.same("02: and so does MIRP", wrapped(MIRP, &[0, 1]), 1);
}

/// The two bits of the engine's kinds of distances, in every other combination.
fn bits_that_do_not_count(claims: &mut Claims) {
    let left = |code: i32| {
        let scene = apart(75).control_values(&[90]).state(|state| {
            state.vectors = along(X, X, DIAGONAL);
            state.single_width_cut_in = 3;
        });
        let operands: &[i32] = if code < MIRP { &[1] } else { &[0, 1] };
        let sheet = [&[code, operands.len() as i32], operands].concat();
        let played = scene.sheet(&sheet).play();
        (played.said(), played.xs(), played.ys(), played.world.state)
    };
    let parted = (MDRP..=0xFF)
        .filter(|code| left(*code) != left(code & !3))
        .count();
    claims.same(
        "codes of which the last two bits say something, of 64",
        parted,
        0,
    );
}
