//! Replies and announcements that are forwarded.

use hwmp_tests::answers::{LOW_TTL, METRIC_TOO_LARGE, STALE, TOO_MANY_HOPS};
use hwmp_tests::worked::{ALL_ONES, Address, FREE, OWN, Row};

use crate::cases::{
    A, B, C, CLOCK, END, LEARNT, NEIGHBOUR, ONWARD, PATH, Path, T, VIA, accepts, active, expired,
    frame, invalidated, rann, refuses, rrep,
};

/// A reply for the source, on a table with these rows, must be forwarded to `to`, or not at all if
/// that is None.
fn goes_on(what: &str, rows: &[Row], source: Address, to: Option<Address>) {
    let before = [&[FREE, FREE], rows].concat();
    let after = [&[LEARNT, NEIGHBOUR], rows].concat();
    let onward = to.map(|to| frame(to, rrep(0, ONWARD, source, &[])));
    let frames: Vec<_> = onward.into_iter().collect();
    accepts(what, &before, &rrep(0, PATH, source, &[]), &after, &frames);
}

#[test]
fn a_reply_goes_to_the_next_hop_of_its_source() {
    let row = active(C);
    let back = Row { next_hop: T, ..row };
    let ends_now = Row {
        expiry: CLOCK + 1,
        ..row
    };
    goes_on("active", &[active(A), row], C, Some(VIA));
    goes_on("active to the last", &[ends_now], C, Some(VIA));
    goes_on("unknown number", &[row.unknown(3)], C, Some(C));
    goes_on("back to the transmitter", &[back], C, Some(T));
    goes_on("expired", &[expired(row)], C, None);
    goes_on("invalidated", &[invalidated(row)], C, None);
    goes_on("no row", &[active(A)], C, None);
    goes_on("this point", &[active(A)], OWN, None);
    // The transmitter's row was just made.
    goes_on("the transmitter", &[], T, Some(T));
}

/// Flags, dependents and the source number are forwarded as they are. A dependent may be an address
/// that is not individual, or stand twice.
#[test]
fn dependents_are_passed_on_unread() {
    let odd = [
        ([0; 6], 0),
        ([0xFF; 6], 0xFFFF_FFFF),
        (OWN, 1),
        (END, 2),
        (C, 3),
        (C, 3),
        (T, 4),
    ];
    let row = active(C);
    for count in 0..=22 {
        let dependents: Vec<_> = odd.iter().cycle().take(count).copied().collect();
        for flags in [0, 0xFF] {
            let element = rrep(flags, PATH, C, &dependents);
            let onward = frame(VIA, rrep(flags, ONWARD, C, &dependents));
            let (before, after) = ([FREE, FREE, row], [LEARNT, NEIGHBOUR, row]);
            let what = format!("{count} dependents");
            accepts(&what, &before, &element, &after, &[onward]);
        }
    }
}

/// A reply needs TTL 2 or more even at its source. An announcement does not.
#[test]
fn hops_left() {
    let row = active(C);
    let (before, after) = ([FREE, FREE, row], [LEARNT, NEIGHBOUR, row]);
    for ttl in [0, 1] {
        let path = Path { ttl, ..PATH };
        for source in [C, OWN] {
            refuses("reply", &before, &rrep(0, path, source, &[]), LOW_TTL);
        }
        accepts("announcement", &before, &rann(0, path), &after, &[]);
    }
    for ttl in [2, 3, 31, 255] {
        let path = Path { ttl, ..PATH };
        let onward = Path {
            ttl: ttl - 1,
            ..ONWARD
        };
        let frames = [frame(VIA, rrep(0, onward, C, &[]))];
        accepts("reply", &before, &rrep(0, path, C, &[]), &after, &frames);
        for flags in [0, 1, 0xFE] {
            let frames = [frame(ALL_ONES, rann(flags, onward))];
            accepts("announcement", &before, &rann(flags, path), &after, &frames);
        }
    }
}

/// The draft takes a reply with an equal number at any metric. docs/PROTOCOL.md refuses it unless
/// the metric is smaller ('Departures from the draft').
#[test]
fn a_reply_with_an_equal_number_must_be_better() {
    let held = |metric| Row {
        metric,
        ..active(END)
    };
    let element = rrep(0, PATH, OWN, &[]);
    refuses("worse", &[held(38), FREE], &element, STALE);
    refuses("equal", &[held(39), FREE], &element, STALE);
    accepts(
        "better",
        &[held(40), FREE],
        &element,
        &[LEARNT, NEIGHBOUR],
        &[],
    );
    let inactive = invalidated(held(38));
    refuses("worse, inactive", &[inactive, FREE], &element, STALE);
}

/// The largest hop count and metric that can be received, and the row and frame that follow.
#[test]
fn the_largest_path() {
    let path = Path {
        hop_count: 254,
        metric: 0xFFFF_FFFE - 14,
        ..PATH
    };
    let onward = Path {
        hop_count: 255,
        metric: 0xFFFF_FFFE,
        ..ONWARD
    };
    let row = Row {
        hop_count: 255,
        metric: 0xFFFF_FFFE,
        ..LEARNT
    };
    let source = active(B);
    let (before, after) = ([FREE, FREE, source], [row, NEIGHBOUR, source]);
    let frames = [frame(ALL_ONES, rann(0, onward))];
    accepts("announcement", &before, &rann(0, path), &after, &frames);
    let frames = [frame(VIA, rrep(0, onward, B, &[]))];
    accepts("reply", &before, &rrep(0, path, B, &[]), &after, &frames);
    let farther = Path {
        hop_count: 255,
        ..path
    };
    refuses("a hop more", &before, &rann(0, farther), TOO_MANY_HOPS);
    let worse = Path {
        metric: path.metric + 1,
        ..path
    };
    refuses(
        "metric one more",
        &before,
        &rann(0, worse),
        METRIC_TOO_LARGE,
    );
    let largest = Path {
        metric: 0xFFFF_FFFF,
        ..path
    };
    refuses(
        "the sum goes round",
        &before,
        &rann(0, largest),
        METRIC_TOO_LARGE,
    );
}
