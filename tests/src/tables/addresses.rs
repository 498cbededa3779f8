//! Random addresses.

use crate::random::Random;
use crate::reference::Address;

/// How the addresses of one table resemble each other. A search that confuses addresses shows it
/// only if some of them are alike.
#[derive(Clone, Copy)]
pub(super) enum Family {
    Unrelated,
    /// All octets are alike except one.
    OneOctet {
        base: [u8; 6],
        at: usize,
    },
    /// All addresses, as little-endian numbers, differ by multiples of 2042 below 2^21. They have
    /// one remainder modulo 1021, and at most two of the marks by which the library finds a
    /// destination that stands twice.
    OneRemainder {
        base: u64,
    },
}

impl Family {
    pub(super) fn random(random: &mut Random) -> Family {
        match random.below(4) {
            0 => Family::OneOctet {
                base: individual(random).0,
                at: 1 + random.below(5),
            },
            1 => Family::OneRemainder {
                base: 2 + 2 * (random.number() >> 18),
            },
            _ => Family::Unrelated,
        }
    }

    pub(super) fn draw(self, random: &mut Random) -> Address {
        match self {
            Family::Unrelated => individual(random),
            Family::OneOctet { mut base, at } => {
                base[at] = random.octet();
                individual_from(base)
            }
            Family::OneRemainder { base } => {
                let value = base + 2 * 1021 * random.below(1000) as u64;
                individual_from(value.to_le_bytes()[..6].try_into().unwrap())
            }
        }
    }

    pub(super) fn draw_other_than(self, taken: &[Address], random: &mut Random) -> Address {
        loop {
            let address = self.draw(random);
            if !taken.contains(&address) {
                return address;
            }
        }
    }
}

fn individual_from(mut octets: [u8; 6]) -> Address {
    octets[0] &= !1;
    if octets == [0; 6] {
        octets[5] = 1;
    }
    Address(octets)
}

pub fn individual(random: &mut Random) -> Address {
    individual_from(random.octets())
}

/// Returns a group address, all ones, or all zero.
pub fn not_individual(random: &mut Random) -> Address {
    let mut group: [u8; 6] = random.octets();
    group[0] |= 1;
    Address(random.pick(&[group, [1, 0, 0, 0, 0, 0], [0xFF; 6], [0; 6]]))
}

/// Returns the address with one bit changed, which may make it a group's or all zero.
pub fn one_bit_off(mut address: [u8; 6], random: &mut Random) -> [u8; 6] {
    address[random.below(6)] ^= 1 << random.below(8);
    address
}

/// Returns different addresses that differ in one octet only, or in all.
pub fn some_addresses(count: usize, random: &mut Random) -> Vec<[u8; 6]> {
    let base = individual(random).0;
    let octet = random.below(6);
    let alike = random.one_in(2);
    let address = |place: usize| {
        let mut address = if alike { base } else { individual(random).0 };
        // Even, because the first octet of an individual address is even.
        address[octet] = 2 + 2 * place as u8;
        address
    };
    (0..count).map(address).collect()
}
