//! Vectors of 2.14 numbers, of every kind that the projection tells apart.

use crate::{numbers::near_corner, random::Random};

/// 1.0 in 2.14.
pub const ONE: i32 = 0x4000;

/// Half the square root of two in 2.14.
const DIAGONAL: i32 = 11585;

/// The kinds of a vector, as the coverage counts them.
#[derive(Copy, Clone, PartialEq, Eq, PartialOrd, Ord, Debug)]
pub enum VectorKind {
    XAxis,
    YAxis,
    NegativeXAxis,
    NegativeYAxis,
    Zero,
    Diagonal,
    General,
    OutOfRange,
}

pub const KINDS: [VectorKind; 8] = [
    VectorKind::XAxis,
    VectorKind::YAxis,
    VectorKind::NegativeXAxis,
    VectorKind::NegativeYAxis,
    VectorKind::Zero,
    VectorKind::Diagonal,
    VectorKind::General,
    VectorKind::OutOfRange,
];

pub fn kind_of([x, y]: [i32; 2]) -> VectorKind {
    match (x, y) {
        (ONE, 0) => VectorKind::XAxis,
        (0, ONE) => VectorKind::YAxis,
        (x, 0) if x == -ONE => VectorKind::NegativeXAxis,
        (0, y) if y == -ONE => VectorKind::NegativeYAxis,
        (0, 0) => VectorKind::Zero,
        _ if !is_component(x) || !is_component(y) => VectorKind::OutOfRange,
        _ if x.abs() == y.abs() => VectorKind::Diagonal,
        _ => VectorKind::General,
    }
}

/// Document 01's test for answer 3, over all six components.
pub fn in_range(vectors: [i32; 6]) -> bool {
    vectors.iter().all(|component| is_component(*component))
}

fn is_component(number: i32) -> bool {
    (-ONE..=ONE).contains(&number)
}

pub fn any_vector(random: &mut Random) -> [i32; 2] {
    if random.once_in(40) {
        return [out_of_range(random), random.between(-ONE, ONE)];
    }
    vector_in_range(random)
}

pub fn vector_in_range(random: &mut Random) -> [i32; 2] {
    match random.weighted(&[6, 6, 1, 1, 1, 3, 6, 1, 3, 1]) {
        0 => [ONE, 0],
        1 => [0, ONE],
        2 => [-ONE, 0],
        3 => [0, -ONE],
        4 => [0, 0],
        5 => [signed(random, DIAGONAL), signed(random, DIAGONAL)],
        6 => unit(random),
        7 => [signed(random, ONE), signed(random, ONE)],
        8 => [random.between(-ONE, ONE), random.between(-ONE, ONE)],
        _ => [random.between(-0x401, 0x401), random.between(-ONE, ONE)],
    }
}

fn out_of_range(random: &mut Random) -> i32 {
    loop {
        let number = near_corner(random);
        if !is_component(number) {
            return number;
        }
    }
}

fn signed(random: &mut Random, magnitude: i32) -> i32 {
    if random.flip() {
        magnitude
    } else {
        -magnitude
    }
}

/// A vector of length one, to the nearest 2.14 number below.
fn unit(random: &mut Random) -> [i32; 2] {
    let x = random.between(-ONE, ONE);
    let square = i64::from(ONE) * i64::from(ONE) - i64::from(x) * i64::from(x);
    let y = square.isqrt() as i32;
    [x, signed(random, y)]
}
