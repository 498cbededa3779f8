use super::Kind;
use crate::random::Random;
use crate::tables::{individual, not_individual, one_bit_off};

/// Returns an address to search for: one of the list, one that is nearly in it, any octets of the
/// element, or an unrelated one.
pub fn some_address(octets: &[u8], random: &mut Random) -> [u8; 6] {
    let listed = some_listed_address(octets, random);
    let stretch = some_stretch(octets, random);
    match (random.below(6), listed, stretch) {
        (0 | 1, Some(listed), _) => listed,
        (2, Some(listed), _) => one_bit_off(listed, random),
        (3, _, Some(stretch)) => stretch,
        (4, ..) => not_individual(random).0,
        _ => individual(random).0,
    }
}

fn some_listed_address(octets: &[u8], random: &mut Random) -> Option<[u8; 6]> {
    let places = listed_places(octets);
    let at = *places.get(random.below(places.len().max(1)))?;
    octets[at..at + 6].try_into().ok()
}

/// Returns the places of the addresses of all whole entries in the list, as far as the octets go.
pub fn listed_places(octets: &[u8]) -> Vec<usize> {
    let Some(kind) = Kind::of(octets) else {
        return Vec::new();
    };
    let Some(list) = &kind.list else {
        return Vec::new();
    };
    let (at, width) = (kind.list_at(), list.entry_octets());
    let entries = octets.len().saturating_sub(at) / width;
    let place = |entry| at + entry * width + list.address_at();
    (0..entries).map(place).collect()
}

fn some_stretch(octets: &[u8], random: &mut Random) -> Option<[u8; 6]> {
    let last = octets.len().checked_sub(6)?;
    let at = random.below(last + 1);
    octets[at..at + 6].try_into().ok()
}

/// The length of an output, and a place in it or beyond it.
#[derive(Clone, Copy, Debug)]
pub struct Room {
    pub out: usize,
    pub at: usize,
}

/// Returns room for the element's frame in the middle or at the end of an output, or too little
/// room.
pub fn some_room(octets: &[u8], random: &mut Random) -> Room {
    let frame = 6 + octets.len();
    let (near, beyond) = (random.below(40), random.below(40));
    let at = random.pick(&[0, 1, 6, near]);
    let out = at + frame + random.pick(&[0, 0, 1, beyond]);
    let (out, at) = match random.below(16) {
        0 => (at + frame - 1, at),
        1 => (random.below(frame), 0),
        2 => (out, out - random.below(frame)),
        3 => (out, out + random.below(3)),
        // The sum of place and frame wraps, or the place is negative if read as signed.
        4 => (out, usize::MAX - random.below(frame + 8)),
        5 => (out, at + random.pick(&[1 << 16, 1 << 31, 1 << 32, 1 << 63])),
        _ => (out, at),
    };
    Room { out, at }
}
