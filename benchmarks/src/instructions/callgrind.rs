//! Requests to callgrind from the program that runs under it, in the form that valgrind's manual
//! gives for C: a sequence of instructions that does nothing on the processor itself.

use std::arch::asm;
use std::ffi::{CString, c_char};
use std::hint::black_box;
use std::ptr;

/// `VG_USERREQ_TOOL_BASE('C', 'T')` of valgrind.h, from which callgrind.h numbers its requests.
const BASE: u64 = u32::from_be_bytes([b'C', b'T', 0, 0]) as u64;
const TOGGLE_COLLECT: u64 = BASE + 2;
const DUMP_STATS_AT: u64 = BASE + 3;

/// Not inlined, so that it takes the same number of instructions in every place.
#[inline(never)]
fn request(code: u64, operand: *const c_char) {
    let arguments = [code, operand as u64, 0, 0, 0, 0];
    // SAFETY: on the processor rdi is rotated by a total of 128 bits, and rbx is exchanged with
    // itself. Callgrind reads the arguments and the operand, and answers in rdx.
    unsafe {
        asm!(
            "rol rdi, 3",
            "rol rdi, 13",
            "rol rdi, 61",
            "rol rdi, 51",
            "xchg rbx, rbx",
            in("rax") arguments.as_ptr(),
            inout("rdx") 0_u64 => _,
        );
    }
}

/// Counts the instructions of a call, together with those of the bracket around it.
pub fn counting<Answer>(call: impl FnOnce() -> Answer) -> Answer {
    request(TOGGLE_COLLECT, ptr::null());
    let answer = black_box(call());
    request(TOGGLE_COLLECT, ptr::null());
    answer
}

/// Writes what was counted since the last part as a part of this name.
pub fn end_part(name: &str) {
    let name = CString::new(name).expect("a name without zeros");
    request(DUMP_STATS_AT, name.as_ptr());
}
