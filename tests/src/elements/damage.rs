//! Elements that are cut, lengthened, miscounted or wrong in another way.

use super::{KINDS, Kind, fit_length};
use crate::random::Random;

type Damage = fn(&mut Vec<u8>, &mut Random);

/// Some damages occasionally leave an element well-formed, for example a bit flipped in a number.
const DAMAGES: [Damage; 16] = [
    // Cut.
    |octets, random| octets.truncate(random.below(octets.len())),
    |octets, random| octets.truncate(random.below(3)),
    |octets, random| {
        octets.truncate(2 + random.below(octets.len() - 2));
        fit_length(octets);
    },
    |octets, _| {
        octets.pop();
        fit_length(octets);
    },
    // Lengthened.
    |octets, random| lengthen(octets, 1 + random.below(12), random),
    |octets, random| {
        lengthen(octets, 1 + random.below(12), random);
        fit_length(octets);
    },
    |octets, random| lengthen(octets, 256, random),
    |octets, random| {
        lengthen(octets, 258 + random.below(300), random);
        fit_length(octets);
    },
    // Counted wrong.
    |octets, random| set_count(octets, random.pick(&[0, 255])),
    |octets, random| set_count(octets, random.octet()),
    |octets, random| {
        let wrong = count(octets).wrapping_add(random.pick(&[1, 255, 0x80]));
        set_count(octets, wrong);
    },
    count_beyond_the_most,
    // Another Length, another ID.
    |octets, random| {
        let wrong = [octets[1] + 1, octets[1] - 1, random.octet()];
        octets[1] = random.pick(&wrong);
    },
    |octets, random| octets[0] = some_id(random),
    |octets, random| {
        let (near, any) = (octets[0] ^ 1 << random.below(8), random.octet());
        octets[0] = random.pick(&[0, 255, 125, 127, 129, 133, near, any]);
    },
    // A bit flipped anywhere.
    |octets, random| {
        let at = random.below(octets.len());
        octets[at] ^= 1 << random.below(8);
    },
];

pub fn damaged(mut octets: Vec<u8>, random: &mut Random) -> Vec<u8> {
    let damage = random.pick(&DAMAGES);
    damage(&mut octets, random);
    octets
}

/// Returns octets that share with an element at most a type's ID, a correct Length, and the absence
/// of entries.
pub fn shapeless(random: &mut Random) -> Vec<u8> {
    let mut octets = Vec::new();
    lengthen(&mut octets, random.below(300), random);
    if random.one_in(2) && !octets.is_empty() {
        octets[0] = some_id(random);
    }
    if random.one_in(2) {
        without_list(&mut octets);
    }
    if random.one_in(2) {
        fit_length(&mut octets);
    }
    octets
}

fn some_id(random: &mut Random) -> u8 {
    KINDS[random.below(KINDS.len())].id
}

fn lengthen(octets: &mut Vec<u8>, by: usize, random: &mut Random) {
    octets.extend((0..by).map(|_| random.octet()));
}

/// Returns the count octet, or 0 if there is none.
fn count(octets: &[u8]) -> u8 {
    let at = Kind::of(octets).and_then(Kind::count_at);
    at.and_then(|at| octets.get(at)).copied().unwrap_or(0)
}

fn set_count(octets: &mut [u8], count: u8) {
    let at = Kind::of(octets).and_then(Kind::count_at);
    if let Some(place) = at.and_then(|at| octets.get_mut(at)) {
        *place = count;
    }
}

fn without_list(octets: &mut Vec<u8>) {
    if let Some(kind) = Kind::of(octets) {
        octets.truncate(kind.list_at());
        set_count(octets, 0);
    }
}

/// Gives the element a count above the most, with a Length that fits the count only modulo 256, and
/// as many octets as that Length says.
fn count_beyond_the_most(octets: &mut Vec<u8>, random: &mut Random) {
    let kind = Kind::of(octets).expect("was well-formed");
    if let Some(list) = &kind.list {
        let most = *kind.counts().end();
        let count = most + 1 + random.below(255 - most);
        octets.resize(kind.list_at() + count * list.entry_octets(), 2);
        set_count(octets, count as u8);
        fit_length(octets);
        octets.truncate(2 + usize::from(octets[1]));
    }
}
