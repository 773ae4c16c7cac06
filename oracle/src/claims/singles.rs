//! Document 02's IP, ALIGNPTS and UTP, K14: what they go by, and each place of
//! their order of refusals, with the smallest input known.

use super::Claims;
use crate::{
    notable::{along, DIAGONAL, NOWHERE, X, Y},
    scene::Scene,
};
use reference::door::State;

pub fn check(claims: &mut Claims) {
    interpolated(claims);
    level_references(claims);
    order_of_ip(claims);
    aligned(claims);
    untouched(claims);
    alike(claims);
}

/// The third point was halfway between the two others in font units, and a quarter
/// of the way in originals; the others are 80 apart now.
fn between() -> Scene {
    Scene::new(&[(0, 0), (80, 0), (30, 0)])
        .unscaled(&[(0, 0), (100, 200), (50, 50)])
        .original(&[(0, 0), (64, 0), (16, 0)])
        .twilight(&[(16, 0), (64, 0)], &[(30, 0), (80, 0)])
        .state(|state| (state.references, state.loop_counter) = ([2, 0, 1], 1))
        .sheet(&[57, 1, 2])
}

fn pedantic(state: &mut State) {
    state.pedantic = true;
}

fn interpolated(claims: &mut Claims) {
    let done = between().play();
    claims.same("IP goes by font units", done.point(2), (40, 0));
    claims.same("IP touches its point", done.flags(), &[1, 1, 3]);
    let references = done.world.state.references;
    claims.same("IP keeps the references", references, [2, 0, 1]);
    let scaled = between().state(|state| state.scale = 0x1234).play();
    claims.same("IP goes by no scale", scaled.point(2), (40, 0));
    let dual = between().state(|state| state.vectors = along(X, Y, X));
    claims.same(
        "IP measures before by the dual vector",
        dual.play().point(2),
        (20, 0),
    );
    let shaded = between().state(|state| state.zones = [1, 1, 0]);
    let shaded = shaded.sheet(&[57, 1, 0]).play();
    claims.same(
        "IP of a twilight point goes by originals",
        shaded.twilight_point(0),
        (20, 0),
    );
    let by_shade = between().state(|state| state.zones = [1, 0, 1]).play();
    claims.same(
        "so does one from a twilight reference",
        by_shade.point(2),
        (20, 0),
    );
    let looped = between()
        .state(|state| state.loop_counter = 2)
        .sheet(&[57, 2, 2, 1])
        .play();
    claims.same(
        "IP leaves its reference where it is",
        looped.point(1),
        (80, 0),
    );
    claims.same("IP sets the loop counter back", looped.loop_counter(), 1);
}

/// The references were in one place along the dual vector: points keep their
/// distance from the first, in font units, and those that had none come to lie on it.
fn level_references(claims: &mut Claims) {
    let scene = Scene::new(&[(10, 0), (80, 0), (30, 0)])
        .unscaled(&[(0, 0), (0, 9), (50, 0)])
        .state(|state| state.references = [2, 0, 1]);
    let kept = scene.clone().sheet(&[57, 1, 2]).play();
    claims.same("IP with level references", kept.point(2), (60, 0));
    let own = scene.sheet(&[57, 1, 1]).play();
    claims.same("IP of rp2, which was level with rp1", own.point(1), (10, 0));
}

fn order_of_ip(claims: &mut Claims) {
    let outside = |rp1: u64, rp2: u64, is_pedantic: bool, count: u32, sheet: &[i32]| {
        let scene = between().state(|state| {
            state.references = [2, rp1, rp2];
            state.pedantic = is_pedantic;
            state.loop_counter = count;
        });
        scene.sheet(sheet)
    };
    for (what, rp1, rp2) in [("rp1", 9, 1), ("rp2", 0, 9), ("both", 8, 9)] {
        let scene = outside(rp1, rp2, false, 3, &[57, 1, 2]);
        let played = scene.play();
        claims.same(
            &format!("IP, {what} outside, not pedantic, a point of three"),
            played.said(),
            (0, 0),
        );
        let unmoved = scene.state(|state| state.loop_counter = 1);
        claims.same(
            "it sets the counter to 1 and nothing else",
            &played.world == unmoved.world(),
            true,
        );
    }
    let said = |rp1, rp2, count, sheet: &[i32]| {
        let played = outside(rp1, rp2, true, count, sheet).play();
        (played.said(), played.loop_counter())
    };
    claims.same(
        "IP pedantic: rp1 first",
        said(8, 9, 2, &[57, 2, 7, 7]),
        ((7, 8), 1),
    );
    claims.same(
        "IP pedantic: then rp2",
        said(0, 9, 2, &[57, 2, 7, 7]),
        ((7, 9), 1),
    );
    claims.same(
        "IP pedantic: both before a missing operand",
        said(0, 9, 2, &[57, 0]),
        ((7, 9), 1),
    );
    claims.same(
        "IP pedantic: both with counter 0",
        said(8, 1, 0, &[57, 0]),
        ((7, 8), 1),
    );
    claims.same(
        "IP: an operand too many before all",
        said(8, 9, 1, &[57, 2, 7, 7]),
        ((5, 0), 1),
    );
    claims.same("IP with counter 0", said(0, 1, 0, &[57, 0]), ((0, 0), 1));
    let points = |is_pedantic, sheet: &[i32]| {
        let played = outside(0, 1, is_pedantic, 2, sheet).play();
        (played.said(), played.point(2), played.loop_counter())
    };
    claims.same(
        "IP pedantic: a point outside, the one before stays moved",
        points(true, &[57, 2, 2, 9]),
        ((7, 9), (40, 0), 1),
    );
    claims.same(
        "IP pedantic: before the next is taken",
        points(true, &[57, 1, 9]),
        ((7, 9), (30, 0), 1),
    );
    claims.same(
        "IP not pedantic: it is passed over",
        points(false, &[57, 2, 9, 2]),
        ((0, 0), (40, 0), 1),
    );
    claims.same(
        "IP: 6 after a point, which stays moved",
        points(false, &[57, 1, 2]),
        ((6, 0), (40, 0), 1),
    );
}

fn aligned(claims: &mut Claims) {
    let scene = Scene::new(&[(0, 0), (7, 0)]);
    let line = |scene: &Scene, sheet: &[i32]| scene.clone().sheet(sheet).play();
    let done = line(&scene, &[39, 2, 0, 1]);
    claims.same("ALIGNPTS halves toward 0", done.xs(), vec![3, 4]);
    claims.same("ALIGNPTS touches both", done.flags(), &[3, 3]);
    let other = line(&scene, &[39, 2, 1, 0]);
    claims.same("ALIGNPTS, the other way round", other.xs(), vec![3, 4]);
    for scene in [scene.clone(), scene.clone().state(pedantic)] {
        claims.same(
            "ALIGNPTS reads its first operand's point first",
            line(&scene, &[39, 2, 8, 9]).said(),
            (7, 8),
        );
        claims.same(
            "ALIGNPTS then reads the other",
            line(&scene, &[39, 2, 0, 9]).said(),
            (7, 9),
        );
        claims.same(
            "ALIGNPTS takes both before it looks",
            line(&scene, &[39, 1, 9]).said(),
            (6, 0),
        );
    }
    let apart = scene
        .clone()
        .twilight(&[(0, 0)], &[(20, 0)])
        .state(|state| state.zones = [0, 1, 1]);
    let met = line(&apart, &[39, 2, 0, 1]);
    claims.same(
        "ALIGNPTS: its first operand lies in zp0",
        met.twilight_point(0),
        (14, 0),
    );
    claims.same("ALIGNPTS: its second in zp1", met.point(1), (13, 0));
    let still = scene.state(|state| state.vectors = along(X, X, NOWHERE));
    claims.same(
        "ALIGNPTS with freedom (0, 0) looks",
        line(&still, &[39, 2, 0, 9]).said(),
        (7, 9),
    );
    claims.same(
        "ALIGNPTS with freedom (0, 0) touches nothing",
        line(&still, &[39, 2, 0, 1]).flags(),
        &[1, 1],
    );
}

fn untouched(claims: &mut Claims) {
    let scene = Scene::new(&[(0, 0)]).flags(&[0xFF]);
    let by = |freedom: [i32; 2], is_pedantic: bool, sheet: &[i32]| {
        let scene = scene.clone().state(|state| {
            state.vectors = along(Y, Y, freedom);
            state.pedantic = is_pedantic;
        });
        scene.sheet(sheet).play()
    };
    for (what, freedom, left) in [
        ("along x", X, 0xFD),
        ("along y", Y, 0xFB),
        ("along both", DIAGONAL, 0xF9),
        ("along (1, -1)", [1, -1], 0xF9),
        ("along nothing", NOWHERE, 0xFF),
    ] {
        claims.same(
            &format!("UTP {what}"),
            by(freedom, false, &[41, 1, 0]).flags(),
            &[left],
        );
    }
    for is_pedantic in [false, true] {
        claims.same(
            "UTP outside",
            by(X, is_pedantic, &[41, 1, 9]).said(),
            (7, 9),
        );
        claims.same(
            "UTP with freedom (0, 0) never looks",
            by(NOWHERE, is_pedantic, &[41, 1, 9]).said(),
            (0, 0),
        );
        claims.same(
            "UTP without its operand, freedom (0, 0)",
            by(NOWHERE, is_pedantic, &[41, 0]).said(),
            (6, 0),
        );
    }
    let shaded = Scene::new(&[])
        .twilight(&[(0, 0)], &[(0, 0)])
        .twilight_flags(&[7])
        .state(|state| state.zones = [0, 1, 1])
        .sheet(&[41, 1, 0]);
    claims.same("UTP in twilight", &shaded.play().world.lists[12], &vec![5]);
    let iup = Scene::new(&[(4, 0), (10, 0)])
        .original(&[(0, 0), (10, 0)])
        .flags(&[7, 7])
        .contours(&[1])
        .sheet(&[41, 1, 1, 49, 0]);
    claims.same(
        "IUP moves a point that UTP untouched",
        iup.play().point(1),
        (14, 0),
    );
}

/// None of the three goes by the rules.
fn alike(claims: &mut Claims) {
    let shaded = |zones: [u32; 3]| between().state(|state| state.zones = zones);
    let scenes = [
        ("IP", between()),
        ("IP in twilight", shaded([0, 0, 0]).sheet(&[57, 1, 1])),
        ("ALIGNPTS", between().sheet(&[39, 2, 1, 2])),
        (
            "ALIGNPTS in twilight",
            shaded([0, 0, 1]).sheet(&[39, 2, 1, 0]),
        ),
        ("UTP", between().flags(&[7, 7, 7]).sheet(&[41, 1, 2])),
    ];
    for (what, scene) in scenes {
        let [skrifa, freetype] = [scene.play(), scene.play_by_freetype()];
        claims.same(
            &format!("02: {what}: alike by both rules"),
            (skrifa.answer, skrifa.world == freetype.world),
            (freetype.answer, true),
        );
    }
}
