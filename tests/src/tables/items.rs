//! The items of an ask, each flags and address.

use super::{address_at, individual, length, not_individual, one_bit_off, some_held_row};
use crate::random::Random;
use crate::reference::element::Rreq;

const OCTETS: usize = 7;

/// Returns items that suit the table, for destinations with and without rows. Some have faults.
pub fn some_items(octets: &[u8], random: &mut Random) -> Vec<u8> {
    let any = 1 + random.below(Rreq::MOST);
    let count = random.pick(&[1, 2, Rreq::MOST, any]);
    let mut addresses = distinct(octets, count, random);
    lay_faults(&mut addresses, octets, random);
    let mut items = Vec::with_capacity(count * OCTETS);
    for address in addresses {
        items.push(random.below(4) as u8);
        items.extend(address);
    }
    if random.one_in(8) {
        let flags = random.pick(&[3, 4, 5, 8, 0x80, 0xFF]);
        items[random.below(count) * OCTETS] = flags;
    }
    if random.one_in(10) {
        resize(&mut items, random);
    }
    items
}

/// Returns different individual addresses, without the own one.
fn distinct(octets: &[u8], count: usize, random: &mut Random) -> Vec<[u8; 6]> {
    let mut addresses: Vec<[u8; 6]> = Vec::with_capacity(count);
    while addresses.len() < count {
        let mut address = some_address(octets, &addresses, random);
        address[0] &= !1;
        let is_own = octets.starts_with(&address);
        if address != [0; 6] && !is_own && !addresses.contains(&address) {
            addresses.push(address);
        }
    }
    addresses
}

/// Returns mostly the destination of a row; otherwise a next hop, an address much like another, or
/// any.
fn some_address(octets: &[u8], others: &[[u8; 6]], random: &mut Random) -> [u8; 6] {
    let listed = octets.len() >= length(1);
    match (random.below(8), others) {
        (0..5, _) if listed => address_at(octets, some_held_row(octets, random) + 4),
        (5, _) if listed => address_at(octets, some_held_row(octets, random) + 10),
        (6, [.., like]) => one_bit_off(*like, random),
        _ => individual(random).0,
    }
}

fn lay_faults(addresses: &mut [[u8; 6]], octets: &[u8], random: &mut Random) {
    let count = addresses.len();
    if random.one_in(12) {
        addresses[random.below(count)] = not_individual(random).0;
    }
    if random.one_in(8) {
        addresses[random.below(count)] = addresses[random.below(count)];
    }
    if random.one_in(8) && octets.len() >= length(1) {
        addresses[random.below(count)] = address_at(octets, 0);
    }
}

/// Some of these lengths fit an ask again.
fn resize(items: &mut Vec<u8>, random: &mut Random) {
    let here = items.len();
    let lengths = [
        0,
        here - 1,
        here + 1,
        OCTETS * (Rreq::MOST + 1),
        random.below(161),
    ];
    items.resize(random.pick(&lengths), random.octet());
}
