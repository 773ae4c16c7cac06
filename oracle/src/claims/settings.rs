//! The lines that set vectors and sizes: what they set and go by, and each place of
//! their order of refusals, with the smallest input known.

use super::Claims;
use crate::{
    notable::{along, DIAGONAL, NOWHERE, X, Y},
    scene::{Played, Scene},
};
use reference::door::{Pair, State};

/// SPVTL, SFVTL and SDPVTL, each along the line and across it.
const TO_LINE: [(&str, i32); 6] = [
    ("SPVTL[0]", 6),
    ("SPVTL[1]", 7),
    ("SFVTL[0]", 8),
    ("SFVTL[1]", 9),
    ("SDPVTL[0]", 134),
    ("SDPVTL[1]", 135),
];

pub fn check(claims: &mut Claims) {
    units(claims);
    lines(claims);
    dual_lines(claims);
    equal_points(claims);
    order_of_lines(claims);
    from_stack(claims);
    to_projection(claims);
    sizes(claims);
    flips(claims);
    behind(claims);
}

fn pedantic(state: &mut State) {
    state.pedantic = true;
}

/// Projection, dual vector and freedom.
fn vectors(played: &Played) -> [i32; 6] {
    played.world.state.vectors
}

/// Two points, of which the second lies so far from the first, and lay another way.
fn apart((x, y): Pair, was: Pair) -> Scene {
    Scene::new(&[(0, 0), (x, y)])
        .original(&[(0, 0), was])
        .state(|state| state.vectors = along(Y, DIAGONAL, DIAGONAL))
}

/// How long a vector becomes: to a part in 16,384 or so, and not always rounded.
fn units(claims: &mut Claims) {
    for (apart_by, unit) in [
        ((3, 4), (9830, 13_107)),
        ((1, 1), (11_585, 11_585)),
        ((5, -12), (6301, -15_123)),
        ((1, 1000), (16, 16_384)),
        ((16_384, 1), (16_383, 0)),
        ((1, 65_535), (0, 16_383)),
        ((-7, 0), (-16_384, 0)),
        ((i32::MIN, 1), (-16_384, 0)),
        ((i32::MAX, 1), (16_383, 0)),
        ((i32::MIN, i32::MIN), (-11_585, -11_585)),
    ] {
        let played = apart(apart_by, (0, 64)).sheet(&[6, 2, 0, 1]).play();
        let [x, y, ..] = vectors(&played);
        claims.same(&format!("a unit vector along {apart_by:?}"), (x, y), unit);
    }
}

fn lines(claims: &mut Claims) {
    let scene = apart((3, 4), (0, 64));
    let set = |opcode: i32| vectors(&scene.clone().sheet(&[opcode, 2, 0, 1]).play());
    claims.same(
        "SPVTL[0] sets projection and dual vector, from zp2's point to zp1's",
        set(6),
        [9830, 13_107, 9830, 13_107, 11_585, 11_585],
    );
    claims.same(
        "SPVTL[1] a quarter turn counter-clockwise from that",
        set(7),
        [-13_107, 9830, -13_107, 9830, 11_585, 11_585],
    );
    claims.same(
        "SFVTL[0] sets the freedom vector alone",
        set(8),
        [0, 0x4000, 11_585, 11_585, 9830, 13_107],
    );
    claims.same(
        "SFVTL[1] too",
        set(9),
        [0, 0x4000, 11_585, 11_585, -13_107, 9830],
    );
    let back = scene.clone().sheet(&[6, 2, 1, 0]).play();
    claims.same(
        "SPVTL the other way",
        vectors(&back)[..2].to_vec(),
        vec![-9830, -13_107],
    );
    let shaded = scene
        .clone()
        .twilight(&[(0, 0)], &[(0, 64)])
        .state(|state| state.zones = [1, 0, 1])
        .sheet(&[6, 2, 0, 0]);
    claims.same(
        "SPVTL's second operand lies in zp1's zone",
        vectors(&shaded.play())[..2].to_vec(),
        vec![0, 0x4000],
    );
    let shaded = shaded.state(|state| state.zones = [1, 1, 0]);
    claims.same(
        "its first in zp2's",
        vectors(&shaded.play())[..2].to_vec(),
        vec![0, -0x4000],
    );
    let wide = apart((i32::MIN, 0), (0, 64)).sheet(&[6, 2, 1, 0]);
    claims.same(
        "SPVTL: 0 - -2^31 wraps",
        vectors(&wide.play())[..2].to_vec(),
        vec![-0x4000, 0],
    );
    let wide = apart((0, i32::MIN), (0, 64)).sheet(&[7, 2, 0, 1]);
    claims.same(
        "SPVTL[1]: the negation of -2^31 wraps",
        vectors(&wide.play())[..2].to_vec(),
        vec![-0x4000, 0],
    );
}

fn dual_lines(claims: &mut Claims) {
    let scene = apart((3, 4), (0, 64));
    let set = |opcode: i32| vectors(&scene.clone().sheet(&[opcode, 2, 0, 1]).play());
    claims.same(
        "SDPVTL[0]: the projection by where points are, the dual vector by where they were",
        set(134),
        [9830, 13_107, 0, 0x4000, 11_585, 11_585],
    );
    claims.same(
        "SDPVTL[1]: both a quarter turn from that",
        set(135),
        [-13_107, 9830, -0x4000, 0, 11_585, 11_585],
    );
    let unscaled = scene.clone().unscaled(&[(0, 0), (64, 0)]);
    claims.same(
        "SDPVTL goes by no font units",
        vectors(&unscaled.sheet(&[134, 2, 0, 1]).play()),
        set(134),
    );
}

fn equal_points(claims: &mut Claims) {
    for (name, opcode) in TO_LINE {
        let place = if matches!(opcode, 8 | 9) { 4 } else { 0 };
        let one = apart((0, 0), (0, 0)).sheet(&[opcode, 2, 0, 1]).play();
        claims.same(
            &format!("{name} of points on one place: the x axis"),
            vectors(&one)[place..place + 2].to_vec(),
            X.to_vec(),
        );
    }
    let was_one = apart((0, 64), (0, 0)).sheet(&[135, 2, 0, 1]).play();
    claims.same(
        "SDPVTL[1] of points that were on one place: across where they are, and the x axis",
        vectors(&was_one)[..4].to_vec(),
        vec![-0x4000, 0, 0x4000, 0],
    );
    let is_one = apart((0, 0), (0, 64)).sheet(&[135, 2, 0, 1]).play();
    claims.same(
        "SDPVTL[1] of points that are on one place: the x axis, and across where they were",
        vectors(&is_one)[..4].to_vec(),
        vec![0x4000, 0, -0x4000, 0],
    );
}

fn order_of_lines(claims: &mut Claims) {
    for (name, opcode) in TO_LINE {
        for is_pedantic in [false, true] {
            let said = |operands: &[i32]| {
                let sheet = [&[opcode, operands.len() as i32], operands].concat();
                let scene = apart((3, 4), (0, 64)).state(|state| state.pedantic = is_pedantic);
                let played = scene.clone().sheet(&sheet).play();
                let kept = vectors(&played) == scene.world().state.vectors;
                (played.said(), kept)
            };
            let called = |what: &str| format!("{name}, pedantic {is_pedantic}: {what}");
            claims.same(&called("an operand"), said(&[9]), ((6, 0), true));
            claims.same(&called("zp1's point first"), said(&[8, 9]), ((7, 9), true));
            claims.same(&called("then zp2's"), said(&[8, 1]), ((7, 8), true));
            claims.same(&called("three operands"), said(&[0, 1, 1]), ((5, 0), true));
        }
    }
}

fn from_stack(claims: &mut Claims) {
    let scene = apart((3, 4), (0, 64));
    let set = |sheet: &[i32]| vectors(&scene.clone().sheet(sheet).play());
    claims.same(
        "SPVFS takes y, then x, and sets projection and dual vector",
        set(&[10, 2, 12, -5]),
        [-6301, 15_123, -6301, 15_123, 11_585, 11_585],
    );
    claims.same(
        "SFVFS sets the freedom vector alone",
        set(&[11, 2, 12, -5]),
        [0, 0x4000, 11_585, 11_585, -6301, 15_123],
    );
    claims.same(
        "SPVFS (0, 0) keeps the projection, and the dual vector becomes it",
        set(&[10, 2, 0, 0]),
        [0, 0x4000, 0, 0x4000, 11_585, 11_585],
    );
    claims.same(
        "SFVFS (0, 0) keeps the freedom vector",
        set(&[11, 2, 0, 0]),
        scene.world().state.vectors,
    );
    claims.same(
        "SPVFS: 16 bits of each count",
        set(&[10, 2, 0x7_0000, 0x8000]),
        [-0x4000, 0, -0x4000, 0, 11_585, 11_585],
    );
    for (name, opcode) in [("SPVFS", 10), ("SFVFS", 11)] {
        let said = |sheet: &[i32]| scene.clone().state(pedantic).sheet(sheet).play().said();
        claims.same(
            &format!("{name} of one operand"),
            said(&[opcode, 1, 0]),
            (6, 0),
        );
        claims.same(
            &format!("{name} of three"),
            said(&[opcode, 3, 0, 0, 0]),
            (5, 0),
        );
    }
}

fn to_projection(claims: &mut Claims) {
    let scene = Scene::new(&[]).state(|state| state.vectors = along([-1, 7], DIAGONAL, Y));
    let set = scene.clone().sheet(&[14, 0]).play();
    claims.same(
        "SFVTPV takes the projection, and not the dual vector",
        vectors(&set),
        along([-1, 7], DIAGONAL, [-1, 7]),
    );
    let nowhere = scene.clone().state(|state| {
        state.vectors = along(NOWHERE, X, Y);
    });
    claims.same(
        "SFVTPV takes (0, 0) too",
        vectors(&nowhere.sheet(&[14, 0]).play()),
        along(NOWHERE, X, NOWHERE),
    );
    let said = scene.sheet(&[14, 1, 0]).play().said();
    claims.same("SFVTPV of an operand", said, (5, 0));
}

fn sizes(claims: &mut Claims) {
    let scene = Scene::new(&[]).state(|state| {
        state.scale = 0x8000;
        state.single_width_cut_in = 5;
    });
    let set = |opcode: i32, number: i32| {
        let state = scene.clone().sheet(&[opcode, 1, number]).play().world.state;
        [
            state.min_distance,
            state.cut_in,
            state.single_width_cut_in,
            state.single_width,
        ]
    };
    claims.same("SMD", set(26, -7), [-7, 68, 5, 0]);
    claims.same("SCVTCI", set(29, -7), [64, -7, 5, 0]);
    claims.same("SSWCI", set(30, -7), [64, 68, -7, 0]);
    claims.same(
        "SSW is scaled, halves away from 0",
        set(31, -7),
        [64, 68, 5, -4],
    );
    let unscaled = Scene::new(&[]).sheet(&[31, 1, 700]).play();
    claims.same("SSW with no scale", unscaled.world.state.single_width, 0);
    let wide = Scene::new(&[]).state(|state| state.scale = i32::MAX);
    let wide = wide.sheet(&[31, 1, i32::MAX]).play();
    claims.same(
        "SSW keeps the low 32 bits of its product",
        wide.world.state.single_width,
        -65_536,
    );
    for (name, opcode) in [("SMD", 26), ("SCVTCI", 29), ("SSWCI", 30), ("SSW", 31)] {
        let said = |sheet: &[i32]| scene.clone().sheet(sheet).play().said();
        claims.same(&format!("{name} of nothing"), said(&[opcode, 0]), (6, 0));
        claims.same(
            &format!("{name} of two operands"),
            said(&[opcode, 2, 1, 1]),
            (5, 0),
        );
    }
}

fn flips(claims: &mut Claims) {
    for (name, opcode, on) in [("FLIPON", 77, true), ("FLIPOFF", 78, false)] {
        for before in [false, true] {
            let scene = Scene::new(&[]).state(|state| state.auto_flip = before);
            let played = scene.sheet(&[opcode, 0]).play();
            claims.same(
                &format!("{name} after auto flip {before}"),
                played.world.state.auto_flip,
                on,
            );
        }
        let said = Scene::new(&[]).sheet(&[opcode, 1, 0]).play().said();
        claims.same(&format!("{name} of an operand"), said, (5, 0));
    }
}

/// Lines that go by what was set.
fn behind(claims: &mut Claims) {
    let scene = Scene::new(&[(0, 0), (100, 0)])
        .control_values(&[-90])
        .state(|state| (state.scale, state.references) = (0x1_0000, [0; 3]));
    let moved = |sheet: &[i32]| scene.clone().sheet(sheet).play().point(1).0;
    claims.same("MDRP after SMD", moved(&[26, 1, 170, 0xC8, 1, 1]), 170);
    claims.same(
        "MDRP after SSW and SSWCI",
        moved(&[31, 1, 120, 30, 1, 21, 0xC0, 1, 1]),
        120,
    );
    claims.same(
        "at the cut-in the single width isn't taken",
        moved(&[31, 1, 120, 30, 1, 20, 0xC0, 1, 1]),
        100,
    );
    claims.same("MIRP after FLIPON", moved(&[77, 0, 0xE0, 2, 0, 1]), 90);
    claims.same("MIRP after FLIPOFF", moved(&[78, 0, 0xE0, 2, 0, 1]), -90);
    claims.same(
        "MIAP[1] after SCVTCI keeps its control value",
        moved(&[29, 1, 190, 0x3F, 2, 0, 1]),
        -64,
    );
    claims.same(
        "and one less doesn't",
        moved(&[29, 1, 189, 0x3F, 2, 0, 1]),
        128,
    );
    let slanted = Scene::new(&[(0, 0), (60, 80), (100, 0)]).sheet(&[6, 2, 0, 1, 0x46, 1, 2]);
    claims.same(
        "GC along a line of 3 to 4",
        slanted.play().world.state.last_pushed,
        60,
    );
    let across = Scene::new(&[(0, 0), (60, 80), (100, 0)]).sheet(&[7, 2, 0, 1, 0x46, 1, 2]);
    claims.same("and across it", across.play().world.state.last_pushed, -80);
}
