//! Measures the stack that the library's entries take.

use std::arch::asm;

use hwmp_tests::answers::{ACCEPTED, NO_NEXT_HOP, NOT_HELD};
use hwmp_tests::elements::KINDS;
use hwmp_tests::library::raw;
use hwmp_tests::probe;
use hwmp_tests::random::Random;
use hwmp_tests::reference::element::MOST_NUMBERS;
use hwmp_tests::tables;

use crate::cases::{self, CLOCK, LIFETIME, LINK};
use crate::element_cases;
use crate::walk_cases;

const OCTETS: usize = 16 * 1024;
const PAINT: u8 = 0xa5;

/// The caller's part at the top, which does not count. Arguments from the seventh on lie there, up
/// to three of them; 32 octets keep the stack aligned.
const CALLER_OCTETS: usize = 32;

#[repr(align(16))]
struct Stack([u8; OCTETS]);

/// A C function by its name, and the answer that shows that it did all its work.
type Entry = (&'static str, *const (), u32);

/// Calls a function on a painted stack. The lowest octet that lost its paint tells how deep the
/// call went, its return address included. The answer must be the expected one, so that a call that
/// is refused early does not pass unseen.
///
/// # Safety
///
/// The function must be a C function that may be called with these arguments, at most nine, and
/// must return its answer in the low 32 bits of rax.
unsafe fn depth((name, function, expected): Entry, arguments: &[usize]) -> (&'static str, usize) {
    let mut all = [0; 9];
    all[..arguments.len()].copy_from_slice(arguments);
    let mut stack = Box::new(Stack([PAINT; OCTETS]));
    let (below, callers) = stack.0.split_at_mut(OCTETS - CALLER_OCTETS);
    for (place, argument) in callers.chunks_exact_mut(8).zip(&all[6..]) {
        place.copy_from_slice(&argument.to_ne_bytes());
    }
    let top = below.as_mut_ptr_range().end;
    let returned: u64;
    // SAFETY: the stack is large enough for any entry and aligned as C requires. The caller vouches
    // for the call.
    unsafe {
        asm!(
            "mov r12, rsp",
            "mov rsp, {top}",
            "call {function}",
            "mov rsp, r12",
            top = in(reg) top,
            function = in(reg) function,
            in("rdi") all[0],
            in("rsi") all[1],
            in("rdx") all[2],
            in("rcx") all[3],
            in("r8") all[4],
            in("r9") all[5],
            out("r12") _,
            lateout("rax") returned,
            clobber_abi("C"),
        );
    }
    assert_eq!(returned as u32, expected, "answer of {name}");
    let painted = stack.0.iter().take_while(|octet| **octet == PAINT);
    (name, OCTETS - CALLER_OCTETS - painted.count())
}

const NEXT_HOP: Entry = ("hwmp_next_hop", raw::hwmp_next_hop as _, NO_NEXT_HOP);
const FORGET: Entry = ("hwmp_forget", raw::hwmp_forget as _, NOT_HELD);
const ASK: Entry = ("hwmp_ask", raw::hwmp_ask as _, ACCEPTED);
const ANNOUNCE: Entry = ("hwmp_announce", raw::hwmp_announce as _, ACCEPTED);
const ROOT_REQUEST: Entry = ("hwmp_root_request", raw::hwmp_root_request as _, ACCEPTED);
const BREAK: Entry = ("hwmp_break", raw::hwmp_break as _, ACCEPTED);
const RECEIVE: Entry = ("hwmp_receive", raw::hwmp_receive as _, ACCEPTED);
const WALK: Entry = ("hwmp_walk", raw::hwmp_walk as _, ACCEPTED);
const FRESH: Entry = ("hwmp_fresh", raw::hwmp_fresh as _, ACCEPTED);

/// Arguments in their order. Those that belong together form one part.
type Parts<'a> = &'a [&'a [usize]];

/// Returns each entry with its depth, on a table and with operands that make it do the most.
pub fn depths(random: &mut Random) -> [(&'static str, usize); 7] {
    let mut input = cases::largest(random);
    let table = [input.table.as_mut_ptr() as usize, input.table.len()];
    let output = [input.output.as_mut_ptr() as usize, input.output.len()];
    let items = [input.items.as_ptr() as usize, input.items.len()];
    let address = input.address.as_ptr() as usize;
    let (clock, lifetime, flags) = (CLOCK as usize, LIFETIME as usize, 1);
    // The break, which loses the rows, comes last but one. Fresh, which overwrites the table, comes
    // last.
    let calls: [(Entry, Parts); 7] = [
        (NEXT_HOP, &[&table, &[clock, address]]),
        (FORGET, &[&table, &[address]]),
        (ASK, &[&table, &output, &[lifetime], &items]),
        (ANNOUNCE, &[&table, &output, &[flags, lifetime]]),
        (ROOT_REQUEST, &[&table, &output, &[flags, lifetime]]),
        (BREAK, &[&table, &output, &[clock, address]]),
        (FRESH, &[&table, &[address, 7]]),
    ];
    // SAFETY: everything lent outlives the calls, and each entry gets the arguments that
    // include/hwmp.h declares.
    calls.map(|(entry, parts)| unsafe { depth(entry, &parts.concat()) })
}

/// Returns the depth of receive, for the type that goes deepest.
pub fn receive_depth(random: &mut Random) -> (&'static str, usize) {
    let depths = cases::largest_received(random).map(|mut input| {
        let table = [input.table.as_mut_ptr() as usize, input.table.len()];
        let output = [input.output.as_mut_ptr() as usize, input.output.len()];
        let arrival = [
            CLOCK as usize,
            input.address.as_ptr() as usize,
            LINK as usize,
        ];
        let element = [input.element.as_ptr() as usize, input.element.len()];
        let parts: Parts = &[&table, &output, &arrival, &element];
        // SAFETY: everything lent outlives the call, and the entry gets the arguments that
        // include/hwmp.h declares.
        unsafe { depth(RECEIVE, &parts.concat()) }
    });
    let deepest = depths.into_iter().max_by_key(|(_, octets)| *octets);
    deepest.expect("four types")
}

/// Returns the depth of the walk, through the most points and rows that there can be.
pub fn walk_depth(random: &mut Random) -> (&'static str, usize) {
    let input = walk_cases::input(16, 128, random);
    let arguments = [
        input.tables.as_ptr() as usize,
        input.tables.len(),
        input.count as usize,
        CLOCK as usize,
        input.start.as_ptr() as usize,
        input.destination.as_ptr() as usize,
    ];
    // SAFETY: everything lent outlives the call, and the entry gets the arguments that
    // include/hwmp.h declares.
    unsafe { depth(WALK, &arguments) }
}

const READ: Entry = ("probe_read", probe::raw::probe_read as _, ACCEPTED);
const WRITE: Entry = ("probe_write", probe::raw::probe_write as _, ACCEPTED);
const WRITE_SINGLY: Entry = (
    "probe_write, one by one",
    probe::raw::probe_write as _,
    ACCEPTED,
);
const FAULTS: Entry = ("probe_faults", probe::raw::probe_faults as _, 0);

/// Returns the depth of the element functions, for the type whose list is read most closely.
pub fn element_depths(random: &mut Random) -> [(&'static str, usize); 4] {
    let element = element_cases::faultless(&KINDS[1], 20, random);
    let element = [element.as_ptr() as usize, element.len()];
    let address = tables::individual(random).0;
    let address = address.as_ptr() as usize;
    let mut numbers = [0u64; MOST_NUMBERS];
    let numbers = numbers.as_mut_ptr() as usize;
    let mut out = [0u8; 300];
    let out = [out.as_mut_ptr() as usize, out.len()];
    let calls: [(Entry, Parts); 4] = [
        (READ, &[&element, &[numbers]]),
        (WRITE, &[&element, &[address], &out, &[0, 0]]),
        (WRITE_SINGLY, &[&element, &[address], &out, &[0, 1]]),
        (FAULTS, &[&element, &[address]]),
    ];
    // SAFETY: everything lent outlives the calls, and each function gets the arguments that the
    // tests declare for it.
    calls.map(|(entry, parts)| unsafe { depth(entry, &parts.concat()) })
}
