//! Random elements, well-formed and damaged, and operands that suit them.

mod damage;
mod kind;
mod operands;

use crate::random::Random;
use crate::tables::{boundary32, individual, not_individual, one_bit_off};

pub use damage::damaged;
pub use kind::{KINDS, Kind};
pub use operands::{Room, listed_places, some_address, some_room};

use kind::Field;

/// Returns an element that is well-formed in half of all cases. All types are equally likely, and
/// so are all counts of a type.
pub fn any(random: &mut Random) -> Vec<u8> {
    match random.below(16) {
        0 => damage::shapeless(random),
        1..8 => damage::damaged(any_well_formed(random), random),
        _ => any_well_formed(random),
    }
}

fn any_well_formed(random: &mut Random) -> Vec<u8> {
    let kind = &KINDS[random.below(KINDS.len())];
    let counts: Vec<usize> = kind.counts().collect();
    well_formed(kind, random.pick(&counts), random)
}

/// Returns an element of that type with `count` entries and any values in its fields.
pub fn well_formed(kind: &Kind, count: usize, random: &mut Random) -> Vec<u8> {
    let mut octets = vec![kind.id, 0];
    for &field in kind.fields {
        let address = any_address(random);
        push(&mut octets, field, address, random);
    }
    if let Some(list) = &kind.list {
        octets.push(count as u8);
        for address in listed_addresses(count, random) {
            for &field in list.entry {
                push(&mut octets, field, address, random);
            }
        }
    }
    fit_length(&mut octets);
    octets
}

fn push(octets: &mut Vec<u8>, field: Field, address: [u8; 6], random: &mut Random) {
    match field {
        Field::Octet => octets.push(any_octet(random)),
        Field::Number => octets.extend(any_number(random).to_le_bytes()),
        Field::Address => octets.extend(address),
    }
}

/// Returns the element with these octets after ID and Length.
pub fn framed(id: u8, fields: &[u8]) -> Vec<u8> {
    let mut octets = [&[id, 0], fields].concat();
    fit_length(&mut octets);
    octets
}

/// Returns the fields of a path, which stand together in every type but a RERR: the subject
/// (`end`), number, lifetime and metric.
pub fn path_fields(end: [u8; 6], number: u32, lifetime: u32, metric: u32) -> Vec<u8> {
    let [number, lifetime, metric] = [number, lifetime, metric].map(u32::to_le_bytes);
    [&end[..], &number, &lifetime, &metric].concat()
}

/// Sets the Length octet to count what follows it. From 256 octets on it wraps.
fn fit_length(octets: &mut [u8]) {
    if octets.len() >= 2 {
        octets[1] = (octets.len() - 2) as u8;
    }
}

/// Flags have each bit set and clear, reserved bits too. Counts include both ends of their range.
fn any_octet(random: &mut Random) -> u8 {
    let any = random.octet();
    random.pick(&[0, 1, 2, 4, 7, 0x80, 0xF8, 0xFF, any, any, any, any])
}

fn any_number(random: &mut Random) -> u32 {
    let numbers = [boundary32(random), random.number() as u32];
    random.pick(&numbers)
}

fn any_address(random: &mut Random) -> [u8; 6] {
    if random.one_in(3) {
        not_individual(random).0
    } else {
        individual(random).0
    }
}

/// Returns the addresses of a list: unrelated ones, ones that differ in one octet or one bit only,
/// or any at all. Some then get faults.
fn listed_addresses(count: usize, random: &mut Random) -> Vec<[u8; 6]> {
    let base = individual(random).0;
    let sort = random.below(8);
    let octet = 1 + random.below(5);
    let mut addresses = Vec::with_capacity(count);
    for place in 0..count {
        addresses.push(match sort {
            0 => one_bit_off(base, random),
            1 => any_address(random),
            2 | 3 => one_octet_off(base, octet, place as u8),
            _ => individual(random).0,
        });
    }
    if count > 0 {
        lay_faults(&mut addresses, random);
    }
    addresses
}

fn one_octet_off(mut address: [u8; 6], octet: usize, by: u8) -> [u8; 6] {
    address[octet] = address[octet].wrapping_add(by);
    address
}

/// Makes each fault alone, several together, and addresses that are nearly faulty.
fn lay_faults(addresses: &mut [[u8; 6]], random: &mut Random) {
    let count = addresses.len();
    if random.one_in(4) {
        addresses[random.below(count)] = [0xFF; 6];
    }
    if random.one_in(8) {
        addresses[random.below(count)] = one_bit_off([0xFF; 6], random);
    }
    if random.one_in(8) {
        addresses[random.below(count)] = not_individual(random).0;
    }
    if random.one_in(4) {
        addresses[random.below(count)] = addresses[random.below(count)];
    }
}
