//! Refusals 6, 7 and 8 of docs/PROTOCOL.md, worked out by hand and asked of the library and the
//! reference.

use hwmp_tests::answers::{ACCEPTED, BAD_COUNT, ELEMENT_LENGTH, SHORT_OUTPUT, UNKNOWN_ID};
use hwmp_tests::fence::{Fence, Side};
use hwmp_tests::reference::element::MOST_NUMBERS;

use crate::asking::{BOTH, TO, UNTOUCHED, read};

/// Reads, writes and judges an element that must be refused. Nothing may change.
fn refused(element: &[u8], expected: u32) {
    for by in BOTH {
        let name = by.name;
        let (answer, numbers) = read(by, element);
        assert_eq!(answer, expected, "read {element:?} by the {name}");
        assert_eq!(numbers, [UNTOUCHED; MOST_NUMBERS], "{element:?}: {name}");
        for singly in [0, 1] {
            let mut out = vec![0xA5; 6 + element.len()];
            let answer = by.write(element, &TO, &mut out, 0, singly);
            assert_eq!(answer, expected, "write {element:?} by the {name}");
            assert_eq!(out, vec![0xA5; 6 + element.len()], "{element:?}: {name}");
        }
        assert_eq!(by.faults(element, &TO), 0, "faults of {element:?}: {name}");
    }
}

fn fits(element: &[u8]) {
    for by in BOTH {
        let (answer, numbers) = read(by, element);
        assert_eq!(answer, ACCEPTED, "{element:?} by the {}", by.name);
        let id_and_length = [element[0].into(), element[1].into()];
        assert_eq!(numbers[..2], id_and_length, "{element:?}: {}", by.name);
    }
}

/// Returns an element with zeros for fields and the given N, if the type has one.
fn zeros(id: u8, length: u8, count: Option<(usize, u8)>) -> Vec<u8> {
    let mut octets = vec![0; 2 + usize::from(length)];
    (octets[0], octets[1]) = (id, length);
    if let Some((at, count)) = count {
        octets[at] = count;
    }
    octets
}

#[test]
fn p3_lengths_of_a_rreq() {
    let rreq = |length, count| zeros(130, length, Some((27, count)));
    fits(&rreq(37, 1));
    fits(&rreq(246, 20));
    refused(&rreq(26, 0), BAD_COUNT);
    refused(&rreq(37, 0), BAD_COUNT);
    refused(&rreq(37, 2), BAD_COUNT);
    refused(&rreq(246, 19), BAD_COUNT);
    refused(&rreq(246, 21), BAD_COUNT);
    // The draft has 27 + 11N.
    refused(&rreq(38, 1), BAD_COUNT);
    // No octet can say 257, so 259 octets are refused whatever Length says.
    for length in 0..=255 {
        let mut long = zeros(130, 255, Some((27, 21)));
        long.resize(259, 0);
        long[1] = length;
        refused(&long, ELEMENT_LENGTH);
    }
    println!("RREQ: Lengths 37 and 246 fit, 26 is refused with 8, 259 octets with 6");
}

#[test]
fn p4_lengths_of_a_rerr() {
    let rerr = |length, count| zeros(132, length, Some((3, count)));
    refused(&rerr(2, 0), BAD_COUNT);
    fits(&rerr(12, 1));
    refused(&rerr(12, 0), BAD_COUNT);
    refused(&rerr(12, 2), BAD_COUNT);
    fits(&rerr(252, 25));
    refused(&rerr(252, 26), BAD_COUNT);
    refused(&rerr(252, 24), BAD_COUNT);
    println!("RERR: Lengths 12 and 252 fit, 2 is refused with 8");
}

#[test]
fn lengths_of_a_rrep() {
    let rrep = |length, count| zeros(131, length, Some((33, count)));
    fits(&rrep(32, 0));
    fits(&rrep(42, 1));
    fits(&rrep(252, 22));
    refused(&rrep(32, 1), BAD_COUNT);
    refused(&rrep(42, 0), BAD_COUNT);
    refused(&rrep(252, 21), BAD_COUNT);
    refused(&rrep(252, 23), BAD_COUNT);
    println!("RREP: Lengths 32, 42 and 252 fit");
}

#[test]
fn a_rann_has_length_21() {
    for length in [0, 3, 20, 22, 31, 255] {
        refused(&zeros(126, length, None), BAD_COUNT);
    }
    fits(&zeros(126, 21, None));
    println!("RANN: Length 21 fits, others are refused with 8");
}

/// The element is too short for a count octet. It lies next to the fence, so that reading the octet
/// would end the run.
#[test]
fn a_missing_count_octet_is_refused_with_8() {
    let fence = &mut Fence::build();
    for (id, count_octet) in [(130, 26), (131, 32), (132, 2)] {
        for length in 0..count_octet {
            let element = fence.lend(&zeros(id, length, None), Side::After);
            refused(element, BAD_COUNT);
        }
    }
    println!("RREQ, RREP, RERR: Lengths below 26, 32 and 2 are refused with 8");
}

#[test]
fn under_2_octets_are_refused_with_6() {
    let fence = &mut Fence::build();
    refused(fence.lend(&[], Side::After), ELEMENT_LENGTH);
    for octet in 0..=255 {
        refused(fence.lend(&[octet], Side::After), ELEMENT_LENGTH);
    }
    println!("no octets and one octet of any value: 6");
}

#[test]
fn only_four_ids_are_known() {
    for id in 0..=255 {
        // Length is 0, so that an element of a known type is still refused.
        let expected = if [126, 130, 131, 132].contains(&id) {
            BAD_COUNT
        } else {
            UNKNOWN_ID
        };
        refused(&[id, 0], expected);
    }
    println!("252 other IDs: 7");
}

/// A RERR with any of the faults 6, 7 and 8, and an output with or without room.
#[test]
fn the_lowest_refusal_comes_first_and_room_last() {
    for by in BOTH {
        for chosen in 0..1 << 4 {
            let faults = [ELEMENT_LENGTH, UNKNOWN_ID, BAD_COUNT, SHORT_OUTPUT]
                .into_iter()
                .enumerate()
                .filter(|(bit, _)| chosen >> bit & 1 == 1);
            let faults: Vec<u32> = faults.map(|(_, number)| number).collect();
            let mut element = zeros(132, 12, Some((3, 1)));
            element[0] += u8::from(faults.contains(&UNKNOWN_ID));
            element[3] += u8::from(faults.contains(&BAD_COUNT));
            element.truncate(14 - usize::from(faults.contains(&ELEMENT_LENGTH)));
            let room = 6 + element.len() - usize::from(faults.contains(&SHORT_OUTPUT));
            let mut out = vec![0xA5; room];
            let answer = by.write(&element, &TO, &mut out, 0, 0);
            let expected = faults.first().copied().unwrap_or(ACCEPTED);
            assert_eq!(answer, expected, "{faults:?}: {}", by.name);
            let changed = out.iter().any(|&octet| octet != 0xA5);
            assert_eq!(changed, expected == ACCEPTED, "{faults:?}: {}", by.name);
            if !faults.contains(&SHORT_OUTPUT) {
                assert_eq!(read(by, &element).0, expected, "{faults:?}: {}", by.name);
            }
        }
    }
    println!("every set of faults 6, 7, 8 gives the lowest, and no room comes after them");
}
