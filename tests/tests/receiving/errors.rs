//! Received RERRs.

use hwmp_tests::answers::{NO_LINK, NO_MATCH};
use hwmp_tests::worked::{ALL_ONES, Address, FREE, OWN, Row, accepted, refused_with_room, table};

use crate::cases::{
    A, B, C, CLOCK, LINK, NEIGHBOUR, T, accepts, active, expired, frame, invalidated, receive,
    refuses, rerr,
};

/// Returns an active row of known number 9 through the transmitter.
fn through(destination: Address) -> Row {
    Row {
        next_hop: T,
        ..active(destination)
    }
}

/// Returns what an error with a newer number makes of the row.
fn raised(row: Row, number: u32) -> Row {
    Row {
        status: 2,
        number,
        metric: 0xFFFF_FFFF,
        ..row
    }
}

fn goes_on(flags: u8, matches: &[(Address, u32)]) -> Vec<u8> {
    frame(ALL_ONES, rerr(flags, matches))
}

/// The number received where the row has 9, and whether it is newer.
const RECEIVED_FOR_9: [(u32, bool); 8] = [
    (9, false),
    (10, true),
    (8, false),
    (0, false),
    (0xFFFF_FFFF, false),
    (0x8000_0008, true),
    (0x8000_0009, false),
    (0x8000_000A, false),
];

/// The row is invalidated in any case. Only a newer number is taken, with the largest metric. The
/// RERR that the point sends has the number as received.
#[test]
fn a_match_is_invalidated() {
    for (number, newer) in RECEIVED_FOR_9 {
        let row = through(A);
        let after = match newer {
            true => raised(row, number),
            false => invalidated(row),
        };
        for flags in [0, 1, 0xFF] {
            let named = [(A, number)];
            let (element, frames) = (rerr(flags, &named), [goes_on(flags, &named)]);
            let what = format!("{number} for 9");
            accepts(&what, &[FREE, row], &element, &[FREE, after], &frames);
        }
    }
}

/// Numbers on either side of zero.
#[test]
fn numbers_are_compared_round_zero() {
    let held = |number| Row {
        number,
        ..through(A)
    };
    let cases = [
        (0xFFFF_FFFF, 0, raised(held(0), 0)),
        (0, 0xFFFF_FFFF, invalidated(held(0))),
        (0x7FFF_FFFF, 0x8000_0000, raised(held(0), 0x8000_0000)),
        (0x8000_0000, 0, invalidated(held(0x8000_0000))),
    ];
    for (number, received, after) in cases {
        let named = [(A, received)];
        let what = format!("{received} for {number}");
        let frames = [goes_on(0, &named)];
        accepts(&what, &[held(number)], &rerr(0, &named), &[after], &frames);
    }
}

/// Returns rows that an error does not concern, each for another reason. Matching by destination
/// alone is one of the three errors that docs/PROTOCOL.md, 'Edges', shuts out.
fn not_concerned() -> [(&'static str, Row); 5] {
    [
        ("another next hop", active(A)),
        ("expired", expired(through(A))),
        ("invalidated", invalidated(through(A))),
        ("unknown number", active(A).unknown(3)),
        ("another destination", through(B)),
    ]
}

#[test]
fn without_a_match_it_is_refused_with_26() {
    for (what, row) in not_concerned() {
        refuses(what, &[row], &rerr(0, &[(A, 10)]), NO_MATCH);
        refuses(what, &[row], &rerr(0, &[(A, 10), (C, 10)]), NO_MATCH);
    }
    refuses("no row", &[FREE], &rerr(0, &[(A, 10)]), NO_MATCH);
    refuses(
        "the own address",
        &[through(B)],
        &rerr(0, &[(OWN, 10)]),
        NO_MATCH,
    );
    // The transmitter's row as it is made.
    refuses(
        "unknown neighbour",
        &[NEIGHBOUR],
        &rerr(0, &[(T, 10)]),
        NO_MATCH,
    );
}

/// Only the rows of the matches change, and the RERR that the point sends names only the matches,
/// in the order of the received RERR and not of the table.
#[test]
fn only_matches_go_on() {
    for (what, row) in not_concerned() {
        let hit = Row {
            number: 20,
            ..through(C)
        };
        let named = [(A, 10), (C, 21)];
        let after = [FREE, row, raised(hit, 21)];
        let frames = [goes_on(3, &[(C, 21)])];
        accepts(what, &[FREE, row, hit], &rerr(3, &named), &after, &frames);
    }
    let rows = [through(A), through(B), through(C)];
    let named = [(C, 10), (A, 9), (OWN, 5), (B, 11)];
    let after = [
        invalidated(rows[0]),
        raised(rows[1], 11),
        raised(rows[2], 10),
    ];
    let frames = [goes_on(0, &[(C, 10), (A, 9), (B, 11)])];
    accepts("in order", &rows, &rerr(0, &named), &after, &frames);
}

/// The transmitter's own row is a match like any other.
#[test]
fn an_error_may_name_its_transmitter() {
    let row = through(T);
    let named = [(T, 10)];
    let frames = [goes_on(0, &named)];
    accepts(
        "itself",
        &[row],
        &rerr(0, &named),
        &[raised(row, 10)],
        &frames,
    );
}

/// An error names up to 25 destinations, and every second one matches.
#[test]
fn up_to_twenty_five_are_named() {
    let destination = |place: u8| [0x20, 0, 0, 0, 0, place];
    for count in 1..=25 {
        let (mut before, mut after) = (Vec::new(), Vec::new());
        let (mut named, mut matches) = (Vec::new(), Vec::new());
        for place in 0..count {
            let entry = (destination(place), 5 + u32::from(place));
            named.push(entry);
            if place % 2 == 0 {
                let row = through(destination(place));
                let newer = entry.1 > 9;
                before.push(row);
                after.push(if newer {
                    raised(row, entry.1)
                } else {
                    invalidated(row)
                });
                matches.push(entry);
            } else {
                before.push(active(destination(place)));
                after.push(active(destination(place)));
            }
        }
        let what = format!("{count} named");
        let frames = [goes_on(0, &matches)];
        accepts(&what, &before, &rerr(0, &named), &after, &frames);
    }
}

/// An error has no metric to which the link could be added, but it is refused over a link of metric
/// 0 too. It needs and makes no row.
#[test]
fn the_link_of_an_error() {
    let (row, element) = (through(A), rerr(0, &[(A, 10)]));
    let before = table(5, 7, 1000, &[row]);
    let after = table(5, 7, CLOCK, &[raised(row, 10)]);
    let frames = [goes_on(0, &[(A, 10)])];
    for link in [1, LINK, 0xFFFF_FFFF] {
        let call = receive(CLOCK, T, link, &element);
        accepted(&format!("link {link}"), &before, &call, &after, &frames);
    }
    refused_with_room("link 0", &before, &receive(CLOCK, T, 0, &element), NO_LINK);
}
