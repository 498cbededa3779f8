//! Every Length octet with every count octet, and a right or wrong number of octets after Length.
//! The answers are worked out here from docs/PROTOCOL.md, 'Elements'.

use std::collections::BTreeMap;

use hwmp_tests::answers::{ACCEPTED, BAD_COUNT, ELEMENT_LENGTH, UNKNOWN_ID};
use hwmp_tests::fence::{Fence, Side};
use hwmp_tests::probe::{LIBRARY, Probe, REFERENCE};
use hwmp_tests::random::Random;
use hwmp_tests::reference::element::{MOST_NUMBERS, Numbers};

const IDS: [u8; 10] = [126, 130, 131, 132, 0, 125, 127, 129, 133, 255];
const TO: [u8; 6] = [2, 0, 0, 0, 0, 7];

/// Returns the numbers of octets after Length that are tried: right, one off, or right only modulo
/// 256.
fn octets_after(length: usize) -> impl Iterator<Item = usize> {
    let fewer = length.checked_sub(1);
    fewer.into_iter().chain([length, length + 1, length + 256])
}

fn count_at(id: u8) -> Option<usize> {
    match id {
        130 => Some(27),
        131 => Some(33),
        132 => Some(3),
        _ => None,
    }
}

fn answer(id: u8, length: usize, after: usize, count: usize) -> u32 {
    if after != length {
        return ELEMENT_LENGTH;
    }
    let fits = match id {
        126 => length == 21,
        130 => (1..=20).contains(&count) && length == 26 + 11 * count,
        131 => count <= 22 && length == 32 + 10 * count,
        132 => (1..=25).contains(&count) && length == 2 + 10 * count,
        _ => return UNKNOWN_ID,
    };
    if fits { ACCEPTED } else { BAD_COUNT }
}

/// The element and the output are each lent next to a fence.
struct Comparison {
    element: Fence,
    out: Fence,
    answers: BTreeMap<u32, usize>,
}

impl Comparison {
    /// Tries each count octet with one Length and `after` octets after it.
    fn each_count(&mut self, id: u8, length: usize, after: usize, random: &mut Random) {
        let mut octets: Vec<u8> = (0..2 + after).map(|_| random.octet()).collect();
        octets[..2].copy_from_slice(&[id, length as u8]);
        // Only a count octet that is there can have several values.
        let place = count_at(id).filter(|&at| at < octets.len());
        for count in 0..place.map_or(1, |_| 256) {
            if let Some(at) = place {
                octets[at] = count as u8;
            }
            let expected = answer(id, length, after, count);
            for side in Side::BOTH {
                let found = self.ask(&LIBRARY, &octets, side, expected);
                let by_reference = self.ask(&REFERENCE, &octets, side, expected);
                assert_eq!(found, by_reference, "numbers and faults of {octets:?}");
            }
            *self.answers.entry(expected).or_default() += 1;
        }
    }

    /// Reads, writes and judges an element. Returns its numbers and faults, which are none and 0 if
    /// the element is refused.
    fn ask(&mut self, by: &Probe, octets: &[u8], side: Side, expected: u32) -> (Numbers, u32) {
        let what = || format!("{octets:?}, fence {side:?}, by the {}", by.name);
        let element = &*self.element.lend(octets, side);
        let mut numbers = [u64::MAX; MOST_NUMBERS];
        let found = by.read(element, &mut numbers);
        assert_eq!(found, expected, "read {}", what());
        let faults = by.faults(element, &TO);
        let frame = [&TO, octets].concat();
        let before = vec![0xA5; frame.len()];
        for singly in [0, 1] {
            let out = self.out.lend(&before, side);
            let found = by.write(element, &TO, out, 0, singly);
            assert_eq!(found, expected, "write {}", what());
            let written = if expected == ACCEPTED {
                &frame
            } else {
                &before
            };
            assert_eq!(out, written, "write {}", what());
        }
        if expected != ACCEPTED {
            assert_eq!(numbers, [u64::MAX; MOST_NUMBERS], "read {}", what());
            assert_eq!(faults, 0, "faults of {}", what());
        }
        (numbers, faults)
    }
}

#[test]
fn each_length_fits_just_its_type_and_count() {
    let random = &mut Random::announced("lengths", 0x0131_0132);
    let mut comparison = Comparison {
        element: Fence::build(),
        out: Fence::build(),
        answers: BTreeMap::new(),
    };
    for id in IDS {
        for length in 0..=255 {
            for after in octets_after(length) {
                comparison.each_count(id, length, after, random);
            }
        }
    }
    let answers = comparison.answers;
    println!("lengths and counts, by answer: {answers:?}");
    assert_eq!(answers[&ACCEPTED], 1 + 20 + 23 + 25);
    assert_eq!(answers[&UNKNOWN_ID], 6 * 256);
    assert_eq!(answers.len(), 4, "{answers:?}");
}
