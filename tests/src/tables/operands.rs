//! Operands of calls that suit a table, and some that do not.

use super::{
    address_at, boundary32, clock48, individual, length, not_individual, number_at, some_held_row,
};
use crate::random::Random;
use crate::reference::LEAST_OUTPUT;
use crate::reference::table::CLOCK_MAX;

/// Returns a destination to ask the table for, mostly that of one of its rows.
pub fn some_destination(octets: &[u8], random: &mut Random) -> [u8; 6] {
    let listed = octets.len() >= length(1);
    match random.below(8) {
        0 => not_individual(random).0,
        1 => individual(random).0,
        2 if listed => address_at(octets, 0),
        3..8 if listed => {
            let at = some_held_row(octets, random) + random.pick(&[4, 4, 4, 4, 10]);
            address_at(octets, at)
        }
        _ => [2, 0, 0, 0, 0, 1],
    }
}

/// Returns a neighbour that may have broken, mostly the next hop of some row.
pub fn some_neighbour(octets: &[u8], random: &mut Random) -> [u8; 6] {
    let listed = octets.len() >= length(1);
    match random.below(16) {
        0 => not_individual(random).0,
        1 => individual(random).0,
        2 if listed => address_at(octets, 0),
        3 if listed => address_at(octets, some_held_row(octets, random) + 4),
        4..16 if listed => address_at(octets, some_held_row(octets, random) + 10),
        _ => [2, 0, 0, 0, 0, 1],
    }
}

/// Returns a clock at or near one that the table holds, at an end of the range, or beyond it.
pub fn some_clock(octets: &[u8], random: &mut Random) -> u64 {
    let listed = octets.len() >= length(1);
    let near = match random.below(10) {
        0 => random.pick(&[CLOCK_MAX + 1, u64::MAX, 1 << 63]),
        1..5 if listed => number_at(octets, 16),
        5..8 if listed => number_at(octets, some_held_row(octets, random) + 24),
        _ => clock48(random),
    };
    let step = random.pick(&[0, 0, 1, u64::MAX]);
    near.wrapping_add(step)
}

/// Returns flags for an announcement or a root request, mostly ones that a root may set.
pub fn some_flags(random: &mut Random) -> u8 {
    let any = random.octet();
    random.pick(&[0, 0, 1, 1, 4, 5, 2, any])
}

pub fn some_lifetime(random: &mut Random) -> u32 {
    let (edge, any) = (boundary32(random), random.number() as u32);
    random.pick(&[0, 1, u32::MAX, edge, any, any, any, any])
}

/// Returns mostly the least length that every call accepts, sometimes more, rarely less.
pub fn some_output_length(random: &mut Random) -> usize {
    let shorter = random.below(LEAST_OUTPUT);
    let longer = LEAST_OUTPUT + 1 + random.below(500);
    match random.below(12) {
        0 => random.pick(&[0, 1, LEAST_OUTPUT - 1, shorter]),
        1..4 => longer,
        _ => LEAST_OUTPUT,
    }
}
