//! Indices and references far outside every zone whose low 32 bits are a point
//! of it: in every direct call, in both ends of a range, and in the references
//! that lines go by.

use super::{calls::every_call, lengths::peopled};
use crate::{
    case::Case,
    direct::Call,
    opcodes::{rows_of, Family, Operand, Row, TABLE},
    random::Random,
    scene::Scene,
};

/// What a reading of 32 bits takes for 0.
pub const FAR: [u64; 6] = [
    1 << 32,
    1 << 33,
    3 << 32,
    1 << 48,
    1 << 63,
    0xFFFF_FFFF << 32,
];
const POINTS: u64 = 3;

const ZONES: [[u32; 3]; 4] = [[1, 1, 1], [0, 0, 0], [1, 0, 1], [0, 1, 0]];

/// Every direct call with an index, and every kind of range.
pub fn far_calls(random: &mut Random) -> Vec<Case> {
    let mut cases = Vec::new();
    for (place, far) in FAR.into_iter().enumerate() {
        let near = place as u64 % POINTS;
        let mut calls = every_call(random, far + near);
        calls.retain(|call| !matches!(call, Call::Iup { .. }));
        calls.extend(far_ranges(far, near));
        for near in 0..POINTS {
            let index = far + near;
            // The glyph alone has unscaled points to mistake it for.
            calls.push(Call::Unscaled { zone: 1, index });
            // A lock or a freedom along one axis may leave nothing to look at.
            calls.push(Call::MoveZp2Point {
                index,
                by: (64, -64),
                do_touch: true,
            });
        }
        for call in calls {
            let world = peopled(random, far + near);
            cases.push(Case { call, world });
        }
    }
    cases
}

/// Ranges of which one end or the other is far.
fn far_ranges(far: u64, near: u64) -> Vec<Call> {
    let mut calls = Vec::new();
    for zone in 0..2 {
        for on in [false, true] {
            for (start, end) in [(near, far + POINTS), (far + near, POINTS)] {
                calls.push(Call::SetOnCurve {
                    zone,
                    start,
                    end,
                    on,
                });
            }
        }
    }
    calls
}

/// Each line that goes by a reference, in zones of every kind, pedantic or not;
/// the distances, which have many codes, and IP, which has two, have their own.
pub fn far_references() -> Vec<Case> {
    let mut cases = Vec::new();
    for line in lines_by_reference(older_rows()) {
        for zones in ZONES {
            cases.extend((0..FAR.len()).map(|place| far_reference(&line, zones, place)));
        }
    }
    cases
}

/// Each code of the distances that goes by a reference, in zones of every kind,
/// with one far reference after the other.
pub fn far_distances() -> Vec<Case> {
    let mut cases = Vec::new();
    for line in lines_by_reference(rows_of(Family::Distances)) {
        for zones in ZONES {
            cases.push(far_reference(&line, zones, cases.len() % FAR.len()));
        }
    }
    cases
}

fn far_reference(line: &[i32], zones: [u32; 3], place: usize) -> Case {
    let reference = FAR[place] + place as u64 % POINTS;
    let scene = Scene::new(&[(0, 10), (90, -70), (200, 33)])
        .original(&[(5, 0), (75, -64), (180, 30)])
        .twilight(&[(7, 1), (2, 8), (50, 60)], &[(9, 3), (4, 4), (70, 80)])
        .contours(&[2])
        .state(|state| {
            state.references = [reference; 3];
            state.zones = zones;
            state.pedantic = place % 2 == 1;
        });
    scene.sheet(line).case(Call::run(0, 1))
}

/// Those of document 01 from the table's last to its first, then the others.
fn older_rows() -> Vec<&'static Row> {
    let is_older = |row: &&Row| row.family != Family::Distances && !row.family.is_later();
    let older = TABLE.iter().filter(is_older);
    let (mut rows, later): (Vec<&Row>, Vec<&Row>) = older.partition(|row| row.family.is_of_01());
    rows.reverse();
    rows.extend(later);
    rows
}

/// A line of each code that goes by a reference, its operands right.
fn lines_by_reference(rows: Vec<&Row>) -> Vec<Vec<i32>> {
    let codes = rows
        .iter()
        .flat_map(|row| row.codes().map(|code| (*row, code)));
    let by_reference = codes.filter(|(row, code)| !row.references(*code).is_empty());
    by_reference
        .map(|(row, code)| right_line(row, code))
        .collect()
}

/// A line for the scene's zones, contour and loop counter.
fn right_line(row: &Row, code: u8) -> Vec<i32> {
    let right = |operand: &Operand| match operand {
        Operand::Distance => 70,
        Operand::Contour => 0,
        Operand::ControlValueOrNone => -1,
        _ => 1,
    };
    let looped = row.looped.map(|_| 1);
    let operands: Vec<i32> = row.operands.iter().map(right).chain(looped).collect();
    let head = [i32::from(code), operands.len() as i32];
    [&head[..], &operands].concat()
}
