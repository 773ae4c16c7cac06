//! The lines that document 02 decides otherwise than the Rust. They are decided
//! here, before the Rust is asked; it decides every other line. And what comes in
//! front of the Rust's own line by rules that aren't the Rust's.

use crate::{answer, rules::Rules, words::widened};
use reference::door::Machine;

/// Done, or the number and detail of a refusal. Nothing is changed either way.
type Decided = Result<(), (u32, u64)>;

/// The number that one more has no room above: -1 as an index.
const LAST_INDEX: u64 = u64::MAX;

/// The twilight zone's number.
const TWILIGHT: u32 = 0;

/// What becomes of the line, where document 02 and the Rust part.
pub fn decided(machine: &Machine, opcode: u8, operands: &[i32]) -> Option<Decided> {
    match (opcode, operands) {
        (0x34 | 0x35, [contour, ..]) => bad_contour(machine, widened(*contour)),
        (0x38, _) => shift_by_pixels(machine),
        (0x81 | 0x82, [high, low, ..]) => range_to_the_last(widened(*high), widened(*low)),
        _ => None,
    }
}

/// What a line has done before the Rust runs it: by FreeType's rules a MSIRP that
/// makes a twilight point has put it on rp0, where the Rust moves it from where it
/// is.
pub fn make_ready(machine: &mut Machine, rules: Rules, opcode: u8, operands: &[i32]) {
    if let (Rules::FreeType, 0x3A | 0x3B, [_, point]) = (rules, opcode, operands) {
        put_on_rp0(machine, widened(*point));
    }
}

/// Originals alone. Where one of the two isn't there the line is refused or passed
/// over, and nothing is put.
fn put_on_rp0(machine: &mut Machine, point: u64) {
    let [zp0, zp1, _] = machine.zone_pointers();
    let reference = machine.original(zp0, machine.rp0());
    let is_there = machine.original(zp1, point).is_ok();
    if let (TWILIGHT, true, Ok(reference)) = (zp1, is_there, reference) {
        machine.set_original(zp1, point, reference);
    }
}

/// The Rust looks at the reference point first, and takes twilight contour 1.
fn bad_contour(machine: &Machine, contour: u64) -> Option<Decided> {
    let is_bad = contour >= machine.contours_of_zp2();
    (is_bad && machine.is_pedantic()).then_some(Err((answer::CONTOUR, contour)))
}

/// The Rust moves some of the points.
fn shift_by_pixels(machine: &Machine) -> Option<Decided> {
    machine
        .is_backward_compatible()
        .then_some(Err((answer::SHIFT_BY_PIXELS, 0)))
}

/// The Rust refuses the high point with 7, before it asks for the IUPs.
fn range_to_the_last(high: u64, low: u64) -> Option<Decided> {
    (high == LAST_INDEX).then_some(Err((answer::RANGE, low)))
}
