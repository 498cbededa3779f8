//! Refusal 10 for a number other than 0 that is marked unknown.

use hwmp_tests::answers::{ACCEPTED, BAD_ADDRESS, BAD_LIST};
use hwmp_tests::stand_ins::both;
use hwmp_tests::worked::{ALL_ONES, Address, FREE, GROUP, LEAST_OUTPUT, OWN, Row, table};

use crate::cases::{A, B, CLOCK, LINK, PATH, T, UNKNOWN, active, receive, refuses, rreq};

const ROWS: [Row; 3] = [FREE, FREE, active(A)];

/// Returns a request for these destinations, each flags, address and number.
fn request(asked: &[(u8, Address, u32)]) -> Vec<u8> {
    rreq(0, PATH, asked)
}

/// Numbers that may not stand next to a mark: one that is not 0 in each octet, and others.
const NOT_0: [u32; 7] = [7, 1, 1 << 8, 1 << 16, 1 << 24, 3_000_000_000, u32::MAX];

/// Also where the number would play no part: next to the own address, next to all ones, and where
/// only the destination itself may reply.
#[test]
pub fn a_marked_number_other_than_0_is_refused_with_10() {
    let destinations = [
        ("a row", A),
        ("no row", B),
        ("own", OWN),
        ("all ones", ALL_ONES),
    ];
    for (what, address) in destinations {
        for flags in [0, 1, 2, 3, 0xF8, 0xFF].map(|flags| flags | UNKNOWN) {
            for number in NOT_0 {
                let what = format!("{what}, flags {flags}, number {number}");
                let element = request(&[(flags, address, number)]);
                refuses(&what, &ROWS, &element, BAD_LIST);
            }
            is_accepted(&request(&[(flags, address, 0)]));
        }
    }
}

/// The other destinations have marks, or have none.
#[test]
pub fn marked_numbers_are_judged_in_every_place() {
    let other = |place: usize| [0x20, 0, 0, 0, 0, place as u8];
    for count in [2, 3, 20] {
        for place in 0..count {
            for flags in [0, UNKNOWN] {
                let list = |address, number| {
                    let mut asked: Vec<_> = (0..count).map(|at| (flags, other(at), 0)).collect();
                    asked[place] = (UNKNOWN, address, number);
                    request(&asked)
                };
                let what = format!("place {place} of {count}");
                for address in [other(place), A, OWN] {
                    refuses(&what, &ROWS, &list(address, 7), BAD_LIST);
                    is_accepted(&list(address, 0));
                }
            }
        }
    }
}

/// A bad address comes first, in whatever place.
#[test]
fn addresses_are_judged_before_marks() {
    for asked in [
        [(UNKNOWN, A, 7), (0, GROUP, 0)],
        [(0, GROUP, 0), (UNKNOWN, A, 7)],
    ] {
        refuses("10 and 9", &ROWS, &request(&asked), BAD_ADDRESS);
    }
}

/// The request must be accepted. Otherwise the refusal of another would show nothing.
fn is_accepted(element: &[u8]) {
    for by in both() {
        let (table, output) = (&mut table(5, 7, 1000, &ROWS), &mut [0; LEAST_OUTPUT]);
        let outcome = receive(CLOCK, T, LINK, element)(by, table, output);
        assert_eq!(outcome.answer, ACCEPTED, "{element:?} by the {}", by.name);
    }
}
