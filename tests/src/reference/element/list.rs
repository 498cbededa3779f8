//! The entries of a list, and the faults that a list can have.

use super::Destinations;
use crate::reference::octets::{field, put};
use crate::reference::{Address, SequenceNumber};

const NOT_ALLOWED: u32 = 1;
const TWICE: u32 = 2;
const ALL_ONES_BESIDE_OTHERS: u32 = 4;
const GIVEN_AMONG_THEM: u32 = 8;

/// An entry of a RREQ.
#[derive(Clone, Copy, Debug, PartialEq, Eq)]
pub struct Destination {
    pub flags: u8,
    pub address: Address,
    pub number: SequenceNumber,
}

impl Destination {
    pub const OCTETS: usize = 11;

    /// The flag 'destination only'.
    pub const DO: u8 = 1;
    /// The flag 'reply and forward'.
    pub const RF: u8 = 2;
    /// The flag 'number unknown', called the mark. The number of a marked destination is 0 and
    /// plays no part.
    pub const NUMBER_UNKNOWN: u8 = 4;

    /// Returns a destination with the number that is known for it. Without a known number the
    /// destination is marked, so that no point takes its 0 for a number.
    pub fn new(flags: u8, address: Address, known: Option<SequenceNumber>) -> Destination {
        let mark = match known {
            Some(_) => 0,
            None => Self::NUMBER_UNKNOWN,
        };
        Destination {
            flags: flags | mark,
            address,
            number: known.unwrap_or_default(),
        }
    }

    /// Returns the requested number, or None if the destination is marked.
    pub fn requested(self) -> Option<SequenceNumber> {
        let is_marked = self.flags & Self::NUMBER_UNKNOWN != 0;
        (!is_marked).then_some(self.number)
    }

    /// Reports whether the destination has a number although its mark says that it has none.
    pub fn contradicts_its_mark(self) -> bool {
        self.requested().is_none() && self.number != SequenceNumber(0)
    }

    pub fn decode(octets: &[u8; Self::OCTETS]) -> Destination {
        Destination {
            flags: octets[0],
            address: Address(field(octets, 1)),
            number: SequenceNumber(u32::from_le_bytes(field(octets, 7))),
        }
    }

    pub fn encode(&self) -> [u8; Self::OCTETS] {
        let mut octets = [self.flags; Self::OCTETS];
        put(&mut octets, 1, self.address.0);
        put(&mut octets, 7, self.number.0.to_le_bytes());
        octets
    }
}

/// An entry of a RREP or a RERR.
#[derive(Clone, Copy, Debug, PartialEq, Eq)]
pub struct NumberedAddress {
    pub address: Address,
    pub number: SequenceNumber,
}

impl NumberedAddress {
    pub const OCTETS: usize = 10;

    pub fn decode(octets: &[u8; Self::OCTETS]) -> NumberedAddress {
        NumberedAddress {
            address: Address(field(octets, 0)),
            number: SequenceNumber(u32::from_le_bytes(field(octets, 6))),
        }
    }

    pub fn encode(&self) -> [u8; Self::OCTETS] {
        let mut octets = [0; Self::OCTETS];
        put(&mut octets, 0, self.address.0);
        put(&mut octets, 6, self.number.0.to_le_bytes());
        octets
    }
}

/// A list of at most MOST entries, built one by one without a heap.
pub struct Entries<const OCTETS: usize, const MOST: usize> {
    entries: [[u8; OCTETS]; MOST],
    count: usize,
}

impl<const OCTETS: usize, const MOST: usize> Entries<OCTETS, MOST> {
    pub fn new() -> Self {
        Entries {
            entries: [[0; OCTETS]; MOST],
            count: 0,
        }
    }

    /// There must be a place left.
    pub fn push(&mut self, entry: [u8; OCTETS]) {
        self.entries[self.count] = entry;
        self.count += 1;
    }

    pub fn as_slice(&self) -> &[[u8; OCTETS]] {
        &self.entries[..self.count]
    }
}

/// Cuts the list part into `count` entries. Returns None if it does not have exactly their octets.
pub(super) fn cut<const OCTETS: usize>(list: &[u8], count: u8) -> Option<&[[u8; OCTETS]]> {
    let (entries, remainder) = list.as_chunks();
    let fits = remainder.is_empty() && entries.len() == usize::from(count);
    fits.then_some(entries)
}

pub(super) fn lay_numbers(places: &mut [u64], entries: impl Iterator<Item = NumberedAddress>) {
    let (places, _) = places.as_chunks_mut();
    for (place, entry) in places.iter_mut().zip(entries) {
        *place = [entry.address.number(), entry.number.0.into()];
    }
}

/// Writes a list as the octets it has, or entry by entry, each decoded and encoded again.
pub(super) fn write<const OCTETS: usize>(
    list: &mut [u8],
    entries: &[[u8; OCTETS]],
    destinations: Destinations,
    again: impl Fn(&[u8; OCTETS]) -> [u8; OCTETS],
) {
    match destinations {
        Destinations::AsOnePart => list.copy_from_slice(entries.as_flattened()),
        Destinations::Singly => {
            let (places, _) = list.as_chunks_mut();
            for (place, entry) in places.iter_mut().zip(entries) {
                *place = again(entry);
            }
        }
    }
}

/// Returns the faults of a list in which only individual addresses are allowed.
pub(super) fn faults_of_individuals(
    entries: impl ExactSizeIterator<Item = NumberedAddress> + Clone,
    given: Address,
) -> u32 {
    let addresses = entries.map(|entry| entry.address);
    faults(addresses, Address::is_individual, given)
}

pub(super) fn faults(
    addresses: impl ExactSizeIterator<Item = Address> + Clone,
    allowed: impl Fn(Address) -> bool,
    given: Address,
) -> u32 {
    let all = || addresses.clone();
    let not_allowed = all().any(|address| !allowed(address));
    let twice = has_twice(all());
    let all_ones = all().any(|address| address == Address::ALL_ONES);
    let given_among_them = all().any(|address| address == given);
    u32::from(not_allowed) * NOT_ALLOWED
        + u32::from(twice) * TWICE
        + u32::from(all_ones && all().len() > 1) * ALL_ONES_BESIDE_OTHERS
        + u32::from(given_among_them) * GIVEN_AMONG_THEM
}

/// Reports whether an address stands in two places.
pub(in crate::reference) fn has_twice(addresses: impl Iterator<Item = Address> + Clone) -> bool {
    let mut rest = addresses;
    while let Some(address) = rest.next() {
        if rest.clone().any(|later| later == address) {
            return true;
        }
    }
    false
}
