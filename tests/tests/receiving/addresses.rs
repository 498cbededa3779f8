//! Refusals 9, 10 and 24: addresses that may not stand where they do.

use hwmp_tests::answers::{ABOUT_ITSELF, BAD_ADDRESS, BAD_LIST};
use hwmp_tests::worked::{ALL_ONES, Address, FREE, GROUP, OWN, Row, ZERO};

use crate::cases::{A, B, C, END, PATH, Path, T, UNKNOWN, active, rann, refuses, rerr, rrep, rreq};

const ROWS: [Row; 2] = [FREE; 2];
const NOT_INDIVIDUAL: [Address; 4] = [GROUP, ZERO, ALL_ONES, [1, 0, 0, 0, 0, 0]];

fn to(end: Address) -> Path {
    Path { end, ..PATH }
}

#[test]
fn ends_and_sources_are_individual() {
    for bad in NOT_INDIVIDUAL {
        let what = format!("{bad:?}");
        refuses(&what, &ROWS, &rann(0, to(bad)), BAD_ADDRESS);
        refuses(&what, &ROWS, &rreq(0, to(bad), &[(0, A, 0)]), BAD_ADDRESS);
        refuses(&what, &ROWS, &rrep(0, to(bad), A, &[]), BAD_ADDRESS);
        refuses(&what, &ROWS, &rrep(0, PATH, bad, &[]), BAD_ADDRESS);
    }
    // Also where both addresses are equal, which alone would give 10.
    refuses("both", &ROWS, &rrep(0, to(GROUP), GROUP, &[]), BAD_ADDRESS);
}

/// All ones may only be the destination of a request. Bad addresses are tried in every place of a
/// list.
#[test]
fn destinations_are_individual() {
    for bad in NOT_INDIVIDUAL {
        for place in 0..20 {
            let address = |at| if at == place { bad } else { listed(at) };
            let asked: Vec<_> = (0..20).map(|at| (0, address(at), 0)).collect();
            let named: Vec<_> = (0..25).map(|at| (address(at), 0)).collect();
            let of_request = if bad == ALL_ONES {
                BAD_LIST
            } else {
                BAD_ADDRESS
            };
            let what = format!("{bad:?} in place {place}");
            refuses(&what, &ROWS, &rreq(0, PATH, &asked), of_request);
            refuses(&what, &ROWS, &rerr(0, &named), BAD_ADDRESS);
        }
        refuses("alone", &ROWS, &rerr(0, &[(bad, 0)]), BAD_ADDRESS);
    }
}

fn listed(place: usize) -> Address {
    [0x20, 0, 0, 0, 0, place as u8]
}

/// Tries each two places of a list.
#[test]
fn no_destination_stands_twice() {
    for later in 1..25 {
        for earlier in 0..later {
            let address = |at| listed(if at == later { earlier } else { at });
            let what = format!("places {earlier} and {later}");
            if later < 20 {
                // An address with other flags and another number is still the same destination.
                let flags = |at: usize| at as u8 & !UNKNOWN;
                let asked: Vec<_> = (0..20)
                    .map(|at| (flags(at), address(at), at as u32))
                    .collect();
                refuses(&what, &ROWS, &rreq(0, PATH, &asked), BAD_LIST);
            }
            let named: Vec<_> = (0..25).map(|at| (address(at), at as u32)).collect();
            let row = Row {
                next_hop: T,
                ..active(listed(earlier))
            };
            refuses(&what, &[row], &rerr(0, &named), BAD_LIST);
        }
    }
}

#[test]
fn lists_that_do_not_go_together() {
    let everyone = (3, ALL_ONES, 0);
    let marked = (3 | UNKNOWN, ALL_ONES, 0);
    type Case<'a> = (&'a str, u8, &'a [(u8, Address, u32)]);
    let cases: [Case; 13] = [
        ("all ones first", 0, &[everyone, (0, A, 0)]),
        ("all ones last", 0, &[(0, A, 0), everyone]),
        ("all ones twice", 0, &[everyone, everyone]),
        ("the originator alone", 0, &[(0, END, 0)]),
        (
            "the originator last",
            0,
            &[(0, A, 0), (0, B, 0), (0, END, 0)],
        ),
        ("unicast to two", 2, &[(0, A, 0), (0, B, 0)]),
        ("unicast to all ones", 2, &[everyone]),
        ("unicast to all ones, all flags", 0xFF, &[everyone]),
        ("marked all ones first", 0, &[marked, (0, A, 0)]),
        ("marked all ones last", 0, &[(UNKNOWN, A, 0), marked]),
        ("marked and not", 0, &[(UNKNOWN, A, 0), (0, A, 7)]),
        ("the originator, marked", 0, &[(UNKNOWN, END, 0)]),
        ("unicast to marked all ones", 2, &[marked]),
    ];
    for (what, flags, asked) in cases {
        refuses(what, &ROWS, &rreq(flags, PATH, asked), BAD_LIST);
    }
    refuses(
        "a reply to its source",
        &ROWS,
        &rrep(0, PATH, END, &[]),
        BAD_LIST,
    );
    // A bad address comes first, in whatever place.
    let asked = [(0, A, 0), (0, A, 0), (0, GROUP, 0)];
    refuses("10 and 9", &ROWS, &rreq(2, PATH, &asked), BAD_ADDRESS);
}

/// The own address may not be the subject of a path. An error may name it, and a request may ask
/// for it.
#[test]
fn no_path_leads_to_the_point_itself() {
    refuses("RANN", &ROWS, &rann(0, to(OWN)), ABOUT_ITSELF);
    refuses("RREQ", &ROWS, &rreq(0, to(OWN), &[(0, A, 0)]), ABOUT_ITSELF);
    refuses("RREP", &ROWS, &rrep(0, to(OWN), C, &[]), ABOUT_ITSELF);
    // Also on a full table, where 27 would be next.
    refuses(
        "full",
        &[active(A), active(B)],
        &rann(0, to(OWN)),
        ABOUT_ITSELF,
    );
}
