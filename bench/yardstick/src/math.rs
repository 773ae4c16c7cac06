//! Fixed-point helpers: math.rs of the Rust, and dot14 of its projection.rs.

/// Down to a whole pixel.
pub fn floor(x: i32) -> i32 {
    x & !63
}

/// a b / c on magnitudes, halves upward, then the sign; divisor 0 gives 0x7FFFFFFF.
pub fn mul_div(a: i32, b: i32, c: i32) -> i32 {
    let product = u64::from(a.unsigned_abs()) * u64::from(b.unsigned_abs());
    let divisor = u64::from(c.unsigned_abs());
    let magnitude = match divisor {
        0 => 0x7FFF_FFFF,
        _ => (product + divisor / 2) / divisor,
    };
    let word = magnitude as i32;
    if (a < 0) ^ (b < 0) ^ (c < 0) {
        word.wrapping_neg()
    } else {
        word
    }
}

/// a b of 16.16 numbers, halves away from zero.
pub fn mul(a: i32, b: i32) -> i32 {
    let product = i64::from(a) * i64::from(b);
    ((product + 0x8000 - i64::from(product < 0)) >> 16) as i32
}

/// a / b of 16.16 numbers.
pub fn div(a: i32, b: i32) -> i32 {
    mul_div(a, 0x10000, b)
}

/// a b of a number and a 2.14 number, halves away from zero.
pub fn mul14(a: i32, b: i32) -> i32 {
    over14(i64::from(a) * i64::from(b))
}

/// The product of two vectors, the second of 2.14 numbers.
pub fn dot14(ax: i32, ay: i32, bx: i32, by: i32) -> i32 {
    over14((i64::from(ax) * i64::from(bx)).wrapping_add(i64::from(ay) * i64::from(by)))
}

/// The vector of length 1.0 in 2.14 along another, which isn't (0, 0): scaled to about 1.0 in 16.16, then Newton's steps.
pub fn unit(x: i32, y: i32) -> (i32, i32) {
    if x == 0 || y == 0 {
        return (x.signum() * 0x4000, y.signum() * 0x4000);
    }
    let about = |a: u32, b: u32| a.max(b) + a.min(b) / 2;
    let (mut a, mut b) = (x.unsigned_abs(), y.unsigned_abs());
    let mut length = about(a, b);
    let zeros = length.leading_zeros();
    let down = 15 + u32::from(length >= 0xAAAA_AAAA >> zeros);
    if zeros > down {
        a <<= zeros - down;
        b <<= zeros - down;
        length = about(a, b);
    } else {
        a >>= down - zeros;
        b >>= down - zeros;
        length >>= down - zeros;
    }
    let (a, b) = (a as i32, b as i32);
    let mut bent = 0x10000 - length as i32;
    loop {
        let u = a.wrapping_add(a.wrapping_mul(bent) >> 16);
        let v = b.wrapping_add(b.wrapping_mul(bent) >> 16);
        let square = u.wrapping_mul(u).wrapping_add(v.wrapping_mul(v));
        let step = (square.wrapping_neg() / 0x200).wrapping_mul((0x10000 + bent) >> 8) / 0x10000;
        if step <= 0 {
            return (u * x.signum() / 4, v * y.signum() / 4);
        }
        bent += step;
    }
}

fn over14(product: i64) -> i32 {
    (product.wrapping_add(0x2000 + (product >> 63)) >> 14) as i32
}
