//! Faces as large as may be: every size at its limit at once, a contour that
//! ends at the last point, as many contours as may be, each of which is walked,
//! and a sheet whose last line is seen to be done. Words all alike take no room
//! in a file.

use crate::{case::Case, direct::Call, scene::Scene, world::*};
use std::ops::RangeInclusive;

const WHOLE_RUN: Call = Call::run(0, u64::MAX);
const LAST_POINT: i32 = MOST_POINTS as i32 - 1;
const LAST_CONTOUR: i32 = MOST_CONTOURS as i32 - 1;

pub fn largest_faces() -> Vec<Case> {
    [every_size(), last_point(), last_contour(), last_line()].concat()
}

/// All sizes at their limits, and then each alone above its own.
fn every_size() -> Vec<Case> {
    let whole = face(&[LAST_POINT as u32; MOST_CONTOURS])
        .twilight(&[(3, 4); MOST_POINTS], &[(5, 6); MOST_POINTS])
        .control_values(&[7; MOST_CONTROL_VALUES])
        .sheet(&[0; MOST_SHEET_WORDS])
        .case(WHOLE_RUN);
    let above = |lists: RangeInclusive<usize>| {
        let mut case = whole.clone();
        for list in lists {
            let word = case.world.lists[list][0];
            case.world.lists[list].push(word);
        }
        case
    };
    let limited = [
        GLYPH_LISTS,
        TWILIGHT_LISTS,
        CONTOURS..=CONTOURS,
        CONTROL_VALUES..=CONTROL_VALUES,
        SHEET..=SHEET,
    ];
    let mut cases = limited.map(above).to_vec();
    cases.push(whole);
    cases
}

/// The last contour ends at the last point, or at none, which is taken as the
/// last; it has three points, two or one, and the one before it all others.
fn last_point() -> Vec<Case> {
    let mut cases = Vec::new();
    for before in [3, 2, 1] {
        for end in [LAST_POINT, LAST_POINT + 1] {
            let ends = [LAST_POINT - before, end].map(|end| end as u32);
            cases.push(face(&ends).sheet(&moved_along_both()).case(WHOLE_RUN));
        }
    }
    cases
}

/// A contour for each of the first points, two without any, and three points
/// for the last one.
fn last_contour() -> Vec<Case> {
    let with_a_point = LAST_CONTOUR - 3;
    let mut ends: Vec<u32> = (0..=LAST_POINT as u32).collect();
    for empty in [LAST_CONTOUR - 2, LAST_CONTOUR - 1] {
        ends[empty as usize] = with_a_point as u32;
    }
    let shifted = [
        0,
        with_a_point,
        LAST_CONTOUR - 1,
        LAST_CONTOUR,
        LAST_CONTOUR + 1,
    ];
    let scene = face(&ends);
    vec![
        scene.clone().sheet(&moved_along_both()).case(WHOLE_RUN),
        scene
            .original(&[(30, 35); MOST_POINTS])
            .sheet(&shifted.map(|contour| [0x34, 1, contour]).concat())
            .case(WHOLE_RUN),
    ]
}

/// SVTCA[y] lines between two that move a point each.
fn last_line() -> Vec<Case> {
    let mut sheet = vec![0; MOST_SHEET_WORDS];
    sheet[..3].copy_from_slice(&[0x2F, 1, 0]);
    sheet[MOST_SHEET_WORDS - 3..].copy_from_slice(&[0x2F, 1, 1]);
    vec![Scene::new(&[(40, 40); 2]).sheet(&sheet).case(WHOLE_RUN)]
}

/// As many points as may be, with these contours.
fn face(ends: &[u32]) -> Scene {
    Scene::new(&[(40, 40); MOST_POINTS]).contours(ends)
}

/// The last point is moved, from 40 to 64, and its contour follows: along y,
/// then along x.
fn moved_along_both() -> Vec<i32> {
    let along = |svtca, iup| [svtca, 0, 0x2F, 1, LAST_POINT, iup, 0];
    [along(0x00, 0x30), along(0x01, 0x31)].concat()
}
