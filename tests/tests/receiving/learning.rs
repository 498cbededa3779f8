//! Steps 1 and 2 of docs/PROTOCOL.md, 'Learning', and refusals 25 and 27, which judge the same
//! rows.

use hwmp_tests::answers::{NO_ROOM, STALE};
use hwmp_tests::worked::{FREE, LAST_CLOCK, Row, accepted, refused_with_room, table};

use crate::cases::{
    A, B, C, CLOCK, END, LEARNT, LINK, NEIGHBOUR, PATH, Path, SOURCE_NUMBER, T, VIA, accepts,
    active, expired, invalidated, learns, rann, receive, refuses, rrep, rreq,
};

/// Octet by octet. Hop count 3 becomes 4, and metric 25 over a link of 14 becomes 39. Clock 5000
/// and lifetime 1000 give expiry 6000. The transmitter's row has an unknown number.
#[test]
fn a_path_octet_by_octet() {
    let head = |clock: u8, clock_high: u8| {
        [
            [2, 0, 0, 0, 0, 1, 0, 0, 5, 0, 0, 0, 7, 0, 0, 0],
            [clock, clock_high, 0, 0, 0, 0, 0, 0, 0, 0, 0, 0, 0, 0, 0, 0],
        ]
        .concat()
    };
    let end = [
        [1, 1, 4, 0, 0x0A, 0, 0, 0, 0, 2, 0x0A, 0, 0, 0, 0, 1],
        [9, 0, 0, 0, 39, 0, 0, 0, 0x70, 0x17, 0, 0, 0, 0, 0, 0],
    ]
    .concat();
    let transmitter = [
        [1, 0, 1, 0, 0x0A, 0, 0, 0, 0, 1, 0x0A, 0, 0, 0, 0, 1],
        [0, 0, 0, 0, 14, 0, 0, 0, 0x70, 0x17, 0, 0, 0, 0, 0, 0],
    ]
    .concat();
    let element = [
        &[126, 21, 0x81, 3, 2][..],
        &[0x0A, 0, 0, 0, 0, 2, 9, 0, 0, 0, 0xE8, 3, 0, 0, 25, 0, 0, 0],
    ]
    .concat();
    let onward = [
        &[0xFF; 6][..],
        &[126, 21, 0x81, 4, 1],
        &[0x0A, 0, 0, 0, 0, 2, 9, 0, 0, 0, 0xE8, 3, 0, 0, 39, 0, 0, 0],
    ]
    .concat();
    let before = [head(0xE8, 3), vec![0; 64]].concat();
    let after = [head(0x88, 0x13), end, transmitter].concat();
    let call = receive(5000, T, 14, &element);
    accepted("a RANN", &before, &call, &after, &[onward]);
}

#[test]
fn the_transmitter_itself_is_learnt_once() {
    let own_path = Path { end: T, ..PATH };
    let row = Row {
        destination: T,
        ..LEARNT
    };
    learns("fresh", own_path, &[FREE, FREE], &[row, FREE]);
    let unknown = Row {
        expiry: 5500,
        ..NEIGHBOUR
    };
    learns("known before", own_path, &[FREE, unknown], &[FREE, row]);
}

#[test]
fn all_three_types_teach_the_same() {
    let elements = [
        ("RANN", rann(0, Path { ttl: 1, ..PATH })),
        ("RREQ", rreq(0, Path { ttl: 1, ..PATH }, &[(1, C, 3)])),
        ("RREP", rrep(0, PATH, C, &[(A, 100), (B, 100)])),
    ];
    for (what, element) in elements {
        let (before, after) = ([FREE; 3], [LEARNT, NEIGHBOUR, FREE]);
        accepts(what, &before, &element, &after, &[]);
    }
}

/// The subject's row is replaced, except for a larger expiry of a row that was still active.
#[test]
fn step_1_renews_the_row_of_the_end() {
    let old = Row {
        number: 8,
        hop_count: 77,
        metric: 3,
        ..active(END)
    };
    let unknown = |expiry: u64| until(expiry, old.unknown(3));
    let largest = (1 << 48) + (1 << 32);
    // The row before, and its expiry after.
    let cases = [
        ("expiry below", until(5999, old), 6000),
        ("expiry equal", until(6000, old), 6000),
        ("expiry above", until(6001, old), 6001),
        ("expiry largest", until(largest, old), largest),
        ("active to the last", until(CLOCK + 1, old), 6000),
        ("expired", expired(old), 6000),
        ("long expired", until(0, old), 6000),
        ("invalidated", invalidated(until(7000, old)), 6000),
        ("unknown number", unknown(5500), 6000),
        ("unknown number, expiry above", unknown(7000), 7000),
        ("unknown number, expired", unknown(5000), 6000),
        ("unknown, invalidated", invalidated(unknown(7000)), 6000),
    ];
    for (what, row, expiry) in cases {
        // The subject's row keeps its place, and the transmitter's takes the first free one.
        let after = [NEIGHBOUR, FREE, until(expiry, LEARNT)];
        learns(what, PATH, &[FREE, FREE, row], &after);
    }
}

/// The transmitter's row must change from `before` to `after` when the path is learnt.
fn becomes(what: &str, before: Row, after: Row) {
    learns(what, PATH, &[FREE, before], &[LEARNT, after]);
}

fn stays(what: &str, row: Row) {
    becomes(what, row, row);
}

fn at(metric: u32, row: Row) -> Row {
    Row { metric, ..row }
}

fn until(expiry: u64, row: Row) -> Row {
    Row { expiry, ..row }
}

/// Returns a row of the transmitter through another neighbour, at the metric of the link.
fn roundabout() -> Row {
    let row = Row {
        hop_count: 3,
        ..active(T)
    };
    at(LINK, row)
}

/// Returns that row after a change, which keeps its number.
fn straight() -> Row {
    Row {
        hop_count: 1,
        next_hop: T,
        expiry: 6000,
        ..roundabout()
    }
}

#[test]
fn step_2_makes_a_row_of_unknown_number() {
    becomes("none", FREE, NEIGHBOUR);
}

/// Only a link below the row's metric changes it. The larger expiry then stays.
#[test]
fn step_2_changes_an_active_row_for_a_better_link() {
    let (known, unknown) = (roundabout(), until(5500, NEIGHBOUR));
    becomes("above", at(15, known), straight());
    let later = until(9000, straight());
    becomes("above, later", until(9000, at(15, known)), later);
    stays("equal", known);
    stays("equal, later", until(9000, known));
    stays("below", at(13, known));
    becomes("unknown above", at(15, unknown), NEIGHBOUR);
    let later = until(9000, NEIGHBOUR);
    becomes("unknown above, later", at(15, later), later);
    stays("unknown equal", unknown);
    stays("unknown below", at(1, unknown));
}

/// An inactive row is also renewed at an equal metric, and at any metric if its number is unknown.
#[test]
fn step_2_renews_an_inactive_row_unless_the_link_is_worse() {
    let (known, unknown) = (roundabout(), NEIGHBOUR);
    becomes("expired above", expired(at(15, known)), straight());
    becomes("expired equal", expired(known), straight());
    stays("expired below", expired(at(13, known)));
    let later = until(9000, at(15, known));
    becomes("invalidated above, later", invalidated(later), straight());
    becomes("invalidated equal", invalidated(known), straight());
    stays("invalidated below", invalidated(at(13, known)));
    becomes("broken", invalidated(at(0xFFFF_FFFF, known)), straight());
    becomes("unknown expired below", expired(at(1, unknown)), unknown);
    let later = until(9000, at(1, unknown));
    becomes("unknown invalidated below", invalidated(later), unknown);
}

#[test]
fn rows_of_other_destinations_stay() {
    let others = [active(A), expired(active(B)), invalidated(active(C))];
    let before = [others[0], FREE, others[1], FREE, others[2]];
    let after = [others[0], LEARNT, others[1], NEIGHBOUR, others[2]];
    learns("rows around", PATH, &before, &after);
}

#[test]
fn the_clock_is_stored_and_expiry_counts_from_it() {
    // Latest clock, clock, lifetime and expiry.
    let cases: [(u64, u64, u32, u64); 6] = [
        (0, 0, 1, 1),
        (1000, 1000, 1, 1001),
        (0, 0, u32::MAX, 0xFFFF_FFFF),
        (7, 0xFFFF_FFFF, 1, 0x1_0000_0000),
        (0, LAST_CLOCK, u32::MAX, (1 << 48) + (1 << 32) - 2),
        (LAST_CLOCK, LAST_CLOCK, 1, 1 << 48),
    ];
    for (latest, clock, lifetime, expiry) in cases {
        let path = Path {
            lifetime,
            ttl: 0,
            ..PATH
        };
        let rows = [LEARNT, NEIGHBOUR].map(|row| Row { expiry, ..row });
        let (before, after) = (table(5, 7, latest, &[FREE; 2]), table(5, 7, clock, &rows));
        let element = rann(0, path);
        let call = receive(clock, T, LINK, &element);
        accepted(&format!("clock {clock}"), &before, &call, &after, &[]);
    }
}

/// The row's number and metric, the received number, and whether the path of metric 39 is accepted.
const FRESHNESS: [(u32, u32, u32, bool); 19] = [
    (9, 40, 9, true),
    (9, 39, 9, false),
    (9, 38, 9, false),
    (9, 0xFFFF_FFFF, 9, true),
    (9, 1, 10, true),
    (9, 0xFFFF_FFFF, 8, false),
    (0xFFFF_FFFF, 1, 0, true),
    (0, 0xFFFF_FFFF, 0xFFFF_FFFF, false),
    (0, 1, 0x7FFF_FFFF, true),
    (0, 0xFFFF_FFFF, 0x8000_0000, false),
    (0, 0xFFFF_FFFF, 0x8000_0001, false),
    (0x8000_0000, 0xFFFF_FFFF, 0, false),
    (0x8000_0000, 1, 0xFFFF_FFFF, true),
    (0x8000_0001, 1, 0, true),
    (0x7FFF_FFFF, 1, 0x8000_0000, true),
    (0x8000_0000, 0xFFFF_FFFF, 0x7FFF_FFFF, false),
    (0, 40, 0, true),
    (0, 39, 0, false),
    (0xFFFF_FFFF, 39, 0xFFFF_FFFF, false),
];

/// Returns one element of each type. None is forwarded: the RANN and the RREQ have TTL 1, and the
/// source of the RREP has no row.
fn one_of_each(path: Path) -> [Vec<u8>; 3] {
    let last = Path { ttl: 1, ..path };
    [
        rann(0, last),
        rreq(0, last, &[(0, C, 0)]),
        rrep(0, Path { ttl: 2, ..path }, C, &[]),
    ]
}

/// The row is active, expired or invalidated. An equal number at a worse metric is also refused
/// into an inactive row, for a RREP as for the others.
#[test]
fn numbers_are_compared_round_zero_and_then_metrics() {
    for (held, metric, received, fresh) in FRESHNESS {
        let row = Row {
            number: held,
            metric,
            ..active(END)
        };
        let after = Row {
            number: received,
            ..LEARNT
        };
        let path = Path {
            number: received,
            ..PATH
        };
        for element in one_of_each(path) {
            let what = format!("{received} after {held} at {metric}, {}", element[0]);
            for row in [row, expired(row), invalidated(row)] {
                if fresh {
                    accepts(&what, &[row, FREE], &element, &[after, NEIGHBOUR], &[]);
                } else {
                    refuses(&what, &[row, FREE], &element, STALE);
                }
            }
        }
    }
}

/// Where the row's number is unknown, neither number nor metric is compared.
#[test]
fn any_number_is_accepted_where_none_is_known() {
    for (_, metric, number, _) in FRESHNESS {
        let row = active(END).unknown(metric);
        let after = Row { number, ..LEARNT };
        for element in one_of_each(Path { number, ..PATH }) {
            let what = format!("{number} where none is known at {metric}, {}", element[0]);
            accepts(&what, &[row, FREE], &element, &[after, NEIGHBOUR], &[]);
        }
    }
}

/// P5 of docs/PROTOCOL.md, 'Edges': row number 9, metric 40; element 9, metric 25.
#[test]
fn p5_link_15_is_refused_and_link_14_gives_39() {
    let (before, element) = (table(5, 7, 1000, &[active(END), FREE]), rann(0, PATH));
    refused_with_room("link 15", &before, &receive(CLOCK, T, 15, &element), STALE);
    learns("link 14", PATH, &[active(END), FREE], &[LEARNT, NEIGHBOUR]);
}

/// P8 of docs/PROTOCOL.md, 'Edges', with the subject's row before the transmitter's.
#[test]
fn p8_free_rows_are_taken_in_order() {
    let (a, b, c) = (active(A), active(B), active(C));
    let after = [a, LEARNT, b, NEIGHBOUR];
    learns("rows 0 and 2 held", PATH, &[a, FREE, b, FREE], &after);
    refuses(
        "rows 0, 1, 2 held",
        &[a, b, c, FREE],
        &rann(0, PATH),
        NO_ROOM,
    );
}

/// The source of a reply, its number and the dependents change no row.
#[test]
fn only_the_end_and_the_transmitter_are_learnt() {
    let element = rrep(0, PATH, VIA, &[(A, SOURCE_NUMBER), (B, 77)]);
    let before = [active(A), invalidated(active(B)), FREE, FREE];
    let after = [before[0], before[1], LEARNT, NEIGHBOUR];
    accepts("a reply", &before, &element, &after, &[]);
}
