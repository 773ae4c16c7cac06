//! Document 02's two rules for MSIRP into twilight, K9: the smallest input that
//! tells them apart, and where they are one.

use super::Claims;
use crate::{
    notable::msirp_into_twilight,
    scene::{Played, Scene},
};

pub fn check(claims: &mut Claims) {
    the_finding(claims);
    from_the_glyph(claims);
    one_from_another(claims);
    alike(claims);
}

/// A twilight point's original and its current place.
fn made(played: &Played, index: usize) -> [(i32, i32); 2] {
    [
        played.twilight_original(index),
        played.twilight_point(index),
    ]
}

fn the_finding(claims: &mut Claims) {
    let scene = msirp_into_twilight();
    claims.same(
        "02: MSIRP into twilight by skrifa",
        made(&scene.play(), 1),
        [(71, 9), (1164, 9)],
    );
    claims.same(
        "02: MSIRP into twilight by freetype",
        made(&scene.play_by_freetype(), 1),
        [(1064, 500), (1164, 500)],
    );
}

/// rp0 is a glyph point: its original, and neither its current nor its unscaled
/// place.
fn from_the_glyph(claims: &mut Claims) {
    let scene = Scene::new(&[(1100, 600)])
        .unscaled(&[(3, 4)])
        .original(&[(1000, 500)])
        .twilight(&[(7, 9)], &[(1, 2)])
        .state(|state| state.zones = [1, 0, 0])
        .sheet(&[58, 2, 64, 0]);
    claims.same(
        "02: MSIRP into twilight from the glyph, by skrifa",
        made(&scene.play(), 0),
        [(71, 9), (1164, 9)],
    );
    claims.same(
        "02: MSIRP into twilight from the glyph, by freetype",
        made(&scene.play_by_freetype(), 0),
        [(1064, 500), (1164, 500)],
    );
}

/// The second is made from the original that the first was given.
fn one_from_another(claims: &mut Claims) {
    let scene = Scene::new(&[])
        .twilight(
            &[(1000, 500), (7, 9), (3, 4)],
            &[(1100, 600), (1, 2), (5, 6)],
        )
        .state(|state| state.zones = [0, 0, 0])
        .sheet(&[59, 2, 64, 1, 59, 2, 64, 2]);
    claims.same(
        "02: MSIRP from a point just made, by skrifa",
        made(&scene.play(), 2),
        [(67, 4), (1228, 4)],
    );
    claims.same(
        "02: MSIRP from a point just made, by freetype",
        made(&scene.play_by_freetype(), 2),
        [(1128, 500), (1228, 500)],
    );
}

/// From itself, onto the glyph, outside, without an operand.
fn alike(claims: &mut Claims) {
    let zones = |zp0, zp1| {
        Scene::new(&[(10, 20), (30, 40)])
            .original(&[(11, 22), (33, 44)])
            .twilight(&[(1000, 500), (7, 9)], &[(1100, 500), (1, 2)])
            .state(move |state| state.zones = [zp0, zp1, 0])
    };
    let far = |state: &mut reference::door::State| state.references[0] = 2;
    let strict = |state: &mut reference::door::State| state.pedantic = true;
    let scenes = [
        ("rp0 is the point", zones(0, 0).sheet(&[58, 2, 64, 0])),
        ("onto the glyph", zones(0, 1).sheet(&[58, 2, 64, 1])),
        ("the point outside", zones(0, 0).sheet(&[58, 2, 64, 2])),
        ("rp0 outside", zones(1, 0).state(far).sheet(&[58, 2, 64, 1])),
        (
            "the point outside, pedantic",
            zones(0, 0).state(strict).sheet(&[58, 2, 64, 2]),
        ),
        (
            "rp0 outside, pedantic",
            zones(1, 0).state(strict).state(far).sheet(&[58, 2, 64, 1]),
        ),
        ("one operand", zones(0, 0).sheet(&[58, 1, 64])),
        ("three operands", zones(0, 0).sheet(&[58, 3, 64, 1, 1])),
    ];
    for (what, scene) in scenes {
        let [skrifa, freetype] = [scene.play(), scene.play_by_freetype()];
        claims.same(
            &format!("02: MSIRP, {what}: alike by both rules"),
            (skrifa.answer, skrifa.world == freetype.world),
            (freetype.answer, true),
        );
    }
    let unmoved = zones(1, 0).state(far).sheet(&[58, 2, 64, 1]);
    claims.same(
        "02: MSIRP passed over by freetype changes nothing",
        &unmoved.play_by_freetype().world == unmoved.world(),
        true,
    );
}
