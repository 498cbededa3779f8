//! The faults of a list of destinations by refusals 9 and 10 of docs/PROTOCOL.md, worked out by
//! hand and asked of the library and the reference. A point does not judge the dependents of a
//! RREP. Judged here like the destinations of a RERR, they test the function once more.

use crate::asking::BOTH;

type Address = [u8; 6];
type Addresses = &'static [Address];

const A: Address = [2, 0, 0, 0, 0, 1];
const B: Address = [2, 0, 0, 0, 0, 2];
const ABSENT: Address = [2, 0, 0, 0, 9, 9];
const GROUP: Address = [3, 0, 0, 0, 0, 1];
const ZERO: Address = [0; 6];
const ONES: Address = [0xFF; 6];
/// All ones except for the bit that marks a group, and all ones except for another bit.
const ONES_BUT_INDIVIDUAL: Address = [0xFE, 0xFF, 0xFF, 0xFF, 0xFF, 0xFF];
const ONES_BUT_ONE: Address = [0xFF, 0xFF, 0xFF, 0xFF, 0xFF, 0x7F];
const LOW: Address = [0, 0, 0, 0, 0, 1];

const RREQ: u8 = 130;
const RREP: u8 = 131;
const RERR: u8 = 132;

/// Fields hold octets that no address here has. Flags and numbers hold all ones.
fn element(id: u8, addresses: &[Address]) -> Vec<u8> {
    let (fixed, flags) = match id {
        RREQ => (25, vec![0xFF]),
        RREP => (31, vec![]),
        _ => (1, vec![]),
    };
    let mut octets = vec![id, 0];
    octets.resize(2 + fixed, 0x5A);
    octets.push(addresses.len() as u8);
    for address in addresses {
        octets.extend([&flags[..], address, &[0xFF; 4]].concat());
    }
    octets[1] = (octets.len() - 2) as u8;
    octets
}

fn faults(id: u8, addresses: &[Address], given: Address, expected: u32) {
    for by in BOTH {
        let found = by.faults(&element(id, addresses), &given);
        let case = (id, addresses, given);
        assert_eq!(found, expected, "{case:?} by the {}", by.name);
    }
}

#[test]
fn small_lists_have_these_faults() {
    // Addresses and the address asked for; the sum of faults for a RREQ, and for a RREP or a RERR.
    let lists: [(Addresses, Address, u32, u32); 26] = [
        (&[A], B, 0, 0),
        (&[A], A, 8, 8),
        (&[A, B], GROUP, 0, 0),
        (&[A, B], B, 8, 8),
        (&[GROUP], A, 1, 1),
        (&[GROUP], GROUP, 9, 9),
        (&[ZERO], A, 1, 1),
        (&[LOW], ZERO, 0, 0),
        (&[ONES], A, 0, 1),
        (&[ONES], ONES, 8, 9),
        (&[ONES_BUT_INDIVIDUAL], ONES, 0, 0),
        (&[ONES_BUT_ONE], ONES, 1, 1),
        (&[ONES_BUT_INDIVIDUAL, A], B, 0, 0),
        (&[ONES_BUT_ONE, A], B, 1, 1),
        (&[A, A], B, 2, 2),
        (&[A, A], A, 10, 10),
        (&[A, B, A], LOW, 2, 2),
        (&[GROUP, A, GROUP], B, 3, 3),
        (&[ZERO, ZERO], ZERO, 11, 11),
        (&[ONES, A], B, 4, 5),
        (&[A, ONES], A, 12, 13),
        (&[ONES, ONES], A, 6, 7),
        (&[ONES, ONES], ONES, 14, 15),
        (&[ONES, GROUP], A, 5, 5),
        (&[ONES, ZERO, A, A], A, 15, 15),
        (&[A, ONES, B, ONES], B, 14, 15),
    ];
    for (addresses, given, of_rreq, of_others) in lists {
        faults(RREQ, addresses, given, of_rreq);
        faults(RREP, addresses, given, of_others);
        faults(RERR, addresses, given, of_others);
    }
    println!("faults of {} small lists in each type", lists.len());
}

#[test]
fn what_has_no_list_has_no_fault() {
    let mut rann = vec![0xFF; 23];
    (rann[0], rann[1]) = (126, 21);
    for by in BOTH {
        assert_eq!(by.faults(&rann, &ONES), 0, "RANN by the {}", by.name);
        assert_eq!(by.faults(&element(RREP, &[]), &[0x5A; 6]), 0, "{}", by.name);
        // These are refused with 6, 7 and 8.
        let whole = element(RERR, &[A, A]);
        let [mut other, mut miscounted] = [whole.clone(), whole.clone()];
        other[0] = 133;
        miscounted[3] = 1;
        for refused in [&whole[..23], &other, &miscounted] {
            assert_eq!(by.faults(refused, &A), 0, "{refused:?} by the {}", by.name);
        }
        assert_eq!(by.faults(&whole, &A), 2 + 8, "{}", by.name);
    }
    println!("no fault in a RANN, an empty list, or octets that are refused");
}

/// Addresses that differ from each other in their last octets only.
fn distinct(count: usize) -> Vec<Address> {
    (0..count as u8)
        .map(|place| [2, 0, 0, 0, place / 5, place % 5])
        .collect()
}

/// Each fault in each place of lists of each length, and each pair of places alike.
#[test]
fn faults_are_seen_in_every_place() {
    let mut lists = 0;
    for (id, counts, all_ones) in [(RREQ, 1..=20, 0), (RREP, 1..=22, 1), (RERR, 1..=25, 1)] {
        for count in counts {
            let addresses = distinct(count);
            faults(id, &addresses, ABSENT, 0);
            for place in 0..count {
                faults(id, &addresses, addresses[place], 8);
                let with = |address| {
                    let mut addresses = addresses.clone();
                    addresses[place] = address;
                    addresses
                };
                faults(id, &with(GROUP), ABSENT, 1);
                faults(id, &with(ZERO), ABSENT, 1);
                let beside_others = if count > 1 { 4 } else { 0 };
                faults(id, &with(ONES), ABSENT, all_ones + beside_others);
                for &other in &addresses[..place] {
                    faults(id, &with(other), ABSENT, 2);
                    lists += 1;
                }
                lists += 4;
            }
        }
    }
    println!("each fault in each place: {lists} lists");
}
