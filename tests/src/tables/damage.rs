//! Tables that are damaged or resized, and octets that are no table.

use super::{
    address_at, boundary32, individual, legal, length, not_individual, some_held_row, some_row,
};
use crate::random::Random;
use crate::reference::table::{EXPIRY_MAX, MAX_ROWS};

/// Returns octets that are hardly ever a table.
pub fn junk(length: usize, random: &mut Random) -> Vec<u8> {
    (0..length).map(|_| random.octet()).collect()
}

type Damage = fn(&mut [u8], &mut Random);

/// Some damages occasionally leave a table legal, for example one octet changed in a number.
const DAMAGES: [Damage; 18] = [
    |octets, random| octets[random.below(octets.len())] ^= 1 << random.below(8),
    |octets, random| octets[random.below(octets.len())] = random.octet(),
    |octets, random| octets[6 + random.below(2)] = random.pick(&[1, 0x80]),
    |octets, random| octets[24 + random.below(8)] = random.pick(&[1, 0x80]),
    |octets, random| octets[22 + random.below(2)] = random.pick(&[1, 0x80]),
    |octets, random| octets[..6].copy_from_slice(&not_individual(random).0),
    |octets, random| in_row(octets, 0, [random.pick(&[0, 1, 2, 3, 255])], random),
    |octets, random| in_row(octets, 1, [random.pick(&[0, 1, 2, 255])], random),
    |octets, random| in_row(octets, 2, [random.pick(&[0, 1, 2, 255])], random),
    |octets, random| in_row(octets, 3, [random.pick(&[1, 0x80])], random),
    |octets, random| in_row(octets, 4, not_individual(random).0, random),
    |octets, random| in_row(octets, 10, not_individual(random).0, random),
    |octets, random| in_row(octets, 10, individual(random).0, random),
    |octets, random| in_row(octets, random.pick(&[4, 10]), address_at(octets, 0), random),
    |octets, random| {
        let twice = address_at(octets, some_held_row(octets, random) + 4);
        in_row(octets, 4, twice, random);
    },
    |octets, random| in_row(octets, 16, boundary32(random).to_le_bytes(), random),
    |octets, random| in_row(octets, 20, [0; 4], random),
    |octets, random| {
        let expiry: u64 = EXPIRY_MAX + random.pick(&[0, 1, 1 << 32]);
        in_row(octets, 24, expiry.to_le_bytes(), random);
    },
];

fn in_row<const N: usize>(octets: &mut [u8], at: usize, value: [u8; N], random: &mut Random) {
    let start = some_row(octets, random) + at;
    octets[start..start + N].copy_from_slice(&value);
}

/// Does one damage to a table.
pub fn damage(octets: &mut [u8], random: &mut Random) {
    let damage = random.pick(&DAMAGES);
    damage(octets, random);
}

/// Returns a legal table with one damage done to it.
pub fn damaged(rows: usize, random: &mut Random) -> Vec<u8> {
    let mut octets = legal(rows, random);
    damage(&mut octets, random);
    octets
}

/// Returns a legal table, cut short or lengthened. If it loses or gains whole rows, it may stay
/// legal.
pub fn resized(rows: usize, random: &mut Random) -> Vec<u8> {
    let mut octets = legal(rows, random);
    let here = octets.len();
    let beyond = length(MAX_ROWS + 1);
    let any = random.below(length(MAX_ROWS + 3));
    let lengths = [0, 31, 32, here - 1, here + 1, beyond, any];
    octets.resize(random.pick(&lengths), random.pick(&[0, 0xFF]));
    octets
}
