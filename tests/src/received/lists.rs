use super::known::{Known, near};
use crate::elements;
use crate::random::Random;
use crate::reference::element::{Destination, Rerr, Rreq};
use crate::tables::{individual, not_individual};

/// Returns the destinations of a request: all ones alone, or several, among them the own address,
/// destinations of rows, the transmitter, and new addresses.
pub(super) fn destinations(
    known: &Known,
    transmitter: [u8; 6],
    originator: [u8; 6],
    random: &mut Random,
) -> Vec<Vec<u8>> {
    if random.one_in(10) {
        let any = random.number() as u32;
        let number = random.pick(&[0, any]);
        return vec![destination(some_flags(random), [0xFF; 6], number)];
    }
    let any = 1 + random.below(Rreq::MOST);
    let count = random.pick(&[1, 1, 2, any, Rreq::MOST, Rreq::MOST]);
    let all_answered = random.one_in(8);
    let draw = |random: &mut Random| {
        let row = known.some_row(random).destination.0;
        let (own, new) = (known.head.own.0, individual(random).0);
        let any = random.pick(&[own, transmitter, row, row, row, row, row, new]);
        if all_answered { row } else { any }
    };
    let addresses = distinct(count, &[originator], draw, random);
    let listed = |address: &[u8; 6]| {
        let held = known.number_for(*address);
        let (flags, nearby) = (some_flags(random), near(held, random));
        // A 0 without a mark is a number like any other, however far it is from the one held.
        let number = random.pick(&[nearby, nearby, nearby, 0]);
        if all_answered {
            // Each row that is active and of known number answers.
            destination(flags & !Destination::DO, *address, held)
        } else {
            destination(flags, *address, number)
        }
    };
    addresses.iter().map(listed).collect()
}

/// Returns a destination. If it is marked, it has 0 instead of the number, which would be refused.
fn destination(flags: u8, address: [u8; 6], number: u32) -> Vec<u8> {
    let is_marked = flags & Destination::NUMBER_UNKNOWN != 0;
    let number = if is_marked { 0 } else { number };
    [&[flags][..], &address, &number.to_le_bytes()].concat()
}

/// Returns flags with DO, RF and the mark in each of their eight combinations, with any reserved
/// bits or none. A third of all destinations is marked.
fn some_flags(random: &mut Random) -> u8 {
    random.octet() & random.pick(&[0x03, 0x07, 0xFF])
}

/// Returns flags for a request with these destinations, with unicast set only where it is allowed.
pub(super) fn request_flags(list: &[Vec<u8>], random: &mut Random) -> u8 {
    let flags = random.octet();
    let one = matches!(list, [only] if only[1..7] != [0xFF; 6]);
    if one { flags } else { flags & !Rreq::UNICAST }
}

/// Returns the entries of a RERR: rows through its transmitter, other rows, and new addresses.
pub(super) fn errors(known: &Known, transmitter: [u8; 6], random: &mut Random) -> Vec<Vec<u8>> {
    let any = 1 + random.below(Rerr::MOST);
    let count = random.pick(&[1, 2, any, any, Rerr::MOST]);
    let through: Vec<[u8; 6]> = known
        .rows
        .iter()
        .filter(|row| row.next_hop.0 == transmitter)
        .map(|row| row.destination.0)
        .collect();
    let all_through = random.one_in(4);
    let draw = |random: &mut Random| {
        let row = known.some_row(random).destination.0;
        let hit = match through[..] {
            [] => row,
            _ => random.pick(&through),
        };
        let new = individual(random).0;
        let any = random.pick(&[hit, hit, hit, hit, hit, hit, row, new]);
        if all_through { hit } else { any }
    };
    let addresses = distinct(count, &[], draw, random);
    let listed = |address: &[u8; 6]| {
        let number = near(known.number_for(*address), random);
        [&address[..], &number.to_le_bytes()].concat()
    };
    addresses.iter().map(listed).collect()
}

/// Returns `count` individual addresses, all different and none of those taken. If drawing does not
/// find enough, new addresses fill the list.
fn distinct(
    count: usize,
    taken: &[[u8; 6]],
    draw: impl Fn(&mut Random) -> [u8; 6],
    random: &mut Random,
) -> Vec<[u8; 6]> {
    let mut addresses: Vec<[u8; 6]> = Vec::with_capacity(count);
    for attempt in 0.. {
        if addresses.len() == count {
            break;
        }
        let address = if attempt < 4 * count {
            draw(random)
        } else {
            individual(random).0
        };
        let individual = address[0] & 1 == 0 && address != [0; 6];
        if individual && !taken.contains(&address) && !addresses.contains(&address) {
            addresses.push(address);
        }
    }
    addresses
}

/// Puts a bad address into the list, or sets a flag that does not suit it. A list without entries
/// stays.
pub(super) fn spoil(element: &mut [u8], own: [u8; 6], random: &mut Random) {
    let places = elements::listed_places(element);
    let (Some(&first), Some(&last)) = (places.first(), places.last()) else {
        return;
    };
    let at = random.pick(&places);
    if element[0] == Rreq::ID && random.one_in(3) {
        return mark_a_number(&mut element[at - 1..], random);
    }
    let other: [u8; 6] = element[random.pick(&[first, last])..][..6]
        .try_into()
        .unwrap();
    let address = match random.below(5) {
        0 => not_individual(random).0,
        1 => [0xFF; 6],
        2 => other,
        // In a RREQ these octets are the originator. In other types they are any octets.
        3 => element
            .get(9..15)
            .map_or(other, |octets| octets.try_into().unwrap()),
        _ => {
            element[2] |= Rreq::UNICAST;
            own
        }
    };
    element[at..][..6].copy_from_slice(&address);
}

/// Marks the destination at the start of these octets, and gives it a number other than 0. Half of
/// these numbers have one bit only, because a mark must be judged by the whole number.
fn mark_a_number(destination: &mut [u8], random: &mut Random) {
    let one_bit = 1_u32 << random.below(32);
    let any = one_bit | random.number() as u32;
    destination[0] |= Destination::NUMBER_UNKNOWN;
    destination[7..11].copy_from_slice(&random.pick(&[one_bit, any]).to_le_bytes());
}
