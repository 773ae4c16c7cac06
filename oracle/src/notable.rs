//! Scenes that show one thing each, with the smallest numbers known.

use crate::{case::Case, direct::Call, scene::Scene};
use reference::door::Pair;

pub const X: [i32; 2] = [0x4000, 0];
pub const Y: [i32; 2] = [0, 0x4000];
/// 45 degrees.
pub const DIAGONAL: [i32; 2] = [11585, 11585];
pub const NOWHERE: [i32; 2] = [0, 0];
/// 60 degrees: a move along x is half of one along it, so signs tell.
const STEEP: [i32; 2] = [8192, 14189];
/// ISECT of a from 0 to 1 and b from 2 to 3, into 4.
const CROSS: [i32; 7] = [15, 5, 3, 2, 1, 0, 4];
const MIN: i32 = i32::MIN;

/// The state's six components from three vectors.
pub fn along(projection: [i32; 2], dual: [i32; 2], freedom: [i32; 2]) -> [i32; 6] {
    let [px, py] = projection;
    let [dx, dy] = dual;
    let [fx, fy] = freedom;
    [px, py, dx, dy, fx, fy]
}

/// Two lines that cross in the middle, all locks set.
pub fn isect_locked() -> Scene {
    Scene::new(&[(0, 0), (64, 64), (0, 64), (64, 0), (9, 9)])
        .state(|state| {
            state.backward_compatibility = true;
            state.x_interpolated = true;
            state.y_interpolated = true;
        })
        .sheet(&CROSS)
}

/// Two lines along one: the quarter of -7 is taken.
pub fn isect_quarter() -> Scene {
    Scene::new(&[(-1, -1), (-2, -2), (-1, -1), (-3, -3), (9, 9)]).sheet(&CROSS)
}

/// Discriminant 0, but the dot product is -2^31 and so below it.
pub fn isect_flat() -> Scene {
    Scene::new(&[(7, -5), (1048583, -5), (0, 0), (-131072, 0), (9, 9)]).sheet(&CROSS)
}

/// The second line falls by 2^31, whose negation wraps.
pub fn isect_steepest() -> Scene {
    Scene::new(&[(3, 0), (4, 0), (0, 0), (0, MIN), (9, 9)]).sheet(&CROSS)
}

/// The control value is 2^31 away, whose absolute value stays negative.
pub fn miap_farthest() -> Scene {
    Scene::new(&[(MIN, 0)])
        .control_values(&[0])
        .sheet(&[63, 2, 0, 0])
}

/// The distance to align is -2^31, whose negation wraps.
pub fn alignrp_farthest() -> Scene {
    steep(&[(0, 0), (MIN, 0)]).sheet(&[60, 1, 1])
}

/// The distance left to move is -2^31 - 1, which wraps.
pub fn msirp_farthest() -> Scene {
    steep(&[(0, 0), (1, 0)]).sheet(&[58, 2, MIN, 1])
}

/// HalfGrid takes -2^31 to 0, and the difference wraps.
pub fn mdap_farthest() -> Scene {
    steep(&[(MIN, 0)])
        .state(|state| state.rounding.mode = 1)
        .sheet(&[47, 1, 0])
}

/// The control value is 2^31 away, and nothing is rounded.
pub fn miap_unrounded_farthest() -> Scene {
    steep(&[(MIN, 0)])
        .control_values(&[0])
        .sheet(&[62, 2, 0, 0])
}

/// Points measured along x that move steeply.
fn steep(points: &[Pair]) -> Scene {
    Scene::new(points).state(|state| state.vectors = along(X, X, STEEP))
}

/// Twilight points whose originals and currents differ.
pub fn msirp_into_twilight() -> Scene {
    Scene::new(&[])
        .twilight(&[(1000, 500), (7, 9)], &[(1100, 500), (1, 2)])
        .state(|state| state.zones = [0, 0, 0])
        .sheet(&[58, 2, 64, 1])
}

/// A rounded point along 45 degrees, measured along x.
pub fn mdap_horizontal(both_marks: bool) -> Scene {
    Scene::new(&[(10, 10)])
        .state(|state| {
            state.vectors = along(X, X, DIAGONAL);
            state.backward_compatibility = true;
            state.x_interpolated = both_marks;
            state.y_interpolated = both_marks;
        })
        .sheet(&[47, 1, 0])
}

/// A shift along 45 degrees, measured along x, under backward compatibility.
pub fn shp_horizontal() -> Scene {
    Scene::new(&[(10, 10), (74, 10)])
        .original(&[(10, 10), (10, 10)])
        .state(|state| {
            state.vectors = along(X, X, DIAGONAL);
            state.backward_compatibility = true;
            state.references = [0, 0, 1];
        })
        .sheet(&[50, 1, 0])
}

/// References whose unscaled numbers are 2^31 apart, and a point between them
/// that needs no scale.
pub fn iup_wide_references() -> Scene {
    Scene::new(&[(0, 0), (0, 0), (1, 1)])
        .unscaled(&[(-1, -1), (0, 0), (i32::MAX, i32::MAX)])
        .original(&[(0, 0), (0, 0), (0, 0)])
        .flags(&[6, 0, 6])
        .contours(&[2])
}

/// A point whose unscaled number is 2^31 away from its first reference.
pub fn iup_wide_point() -> Scene {
    Scene::new(&[(0, 0), (1, 1), (1, 1)])
        .unscaled(&[(-1, -1), (i32::MAX, i32::MAX), (0, 0)])
        .original(&[(0, 0), (1, 1), (2, 2)])
        .flags(&[6, 0, 6])
        .contours(&[2])
}

/// The scenes that are a line each.
pub fn lines() -> Vec<Case> {
    let run = Call::run(0, 1);
    let scenes = [
        isect_locked(),
        isect_quarter(),
        isect_flat(),
        isect_steepest(),
        miap_farthest(),
        miap_unrounded_farthest(),
        alignrp_farthest(),
        msirp_farthest(),
        mdap_farthest(),
        msirp_into_twilight(),
        mdap_horizontal(false),
        mdap_horizontal(true),
        shp_horizontal(),
    ];
    scenes.iter().map(|scene| scene.case(run)).collect()
}

/// The scenes of IUP, along both axes.
pub fn iups() -> Vec<Case> {
    let mut cases = Vec::new();
    for scene in [iup_wide_references(), iup_wide_point()] {
        cases.push(scene.case(Call::Iup { axis: 1 }));
        cases.push(scene.case(Call::Iup { axis: 2 }));
    }
    cases
}
