//! Callgrind's client requests: counts from here to there, each written out under a name. Outside valgrind they do nothing.

use std::{arch::asm, ffi::CString};

/// 'C' and 'T', then the request's number: valgrind/callgrind.h.
const BASE: u64 = (b'C' as u64) << 24 | (b'T' as u64) << 16;
const ZERO: u64 = BASE + 1;
const DUMP_AT: u64 = BASE + 3;

fn request(number: u64, argument: u64) {
    let words = [number, argument, 0, 0, 0, 0];
    unsafe {
        asm!(
            "rol rdi, 3",
            "rol rdi, 13",
            "rol rdi, 61",
            "rol rdi, 51",
            "xchg rbx, rbx",
            in("rax") words.as_ptr(),
            inout("rdx") 0u64 => _,
            inout("rdi") 0u64 => _,
        );
    }
}

/// The instructions of what is done, under a name.
pub fn counted<R>(name: &str, done: impl FnOnce() -> R) -> R {
    let name = CString::new(name).unwrap_or_default();
    request(ZERO, 0);
    let result = done();
    request(DUMP_AT, name.as_ptr() as u64);
    result
}
