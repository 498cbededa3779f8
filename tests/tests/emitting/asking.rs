//! Asks. An item is flags and address, 7 octets.

use hwmp_tests::answers::NO_LIFETIME;
use hwmp_tests::implementation::Implementation;
use hwmp_tests::library::Outcome;
use hwmp_tests::worked::{Address, FREE, Row, STEPS, accepted, refused_with_room, rreq, table};

pub const A: Address = [0x0A, 0, 0, 0, 0, 1];
const B: Address = [0x0A, 0, 0, 0, 0, 2];
const C: Address = [0x0A, 0, 0, 0, 0, 3];
const D: Address = [0x0A, 0, 0, 0, 0, 4];
const E: Address = [0x0A, 0, 0, 0, 0, 5];
const F: Address = [0x0A, 0, 0, 0, 0, 6];
pub const ABSENT: Address = [0x0A, 0, 0, 0, 0, 7];

/// Returns a valid row of known number, through F.
fn row(destination: Address, number: u32) -> Row {
    Row {
        status: 1,
        known: 1,
        hop_count: 2,
        destination,
        next_hop: F,
        number,
        metric: 30,
        expiry: 6000,
    }
}

/// Returns a valid row for A, a free row, an expired row for B, an invalidated row for C, a row of
/// unknown number for D, and a row for F through E, which has no row itself.
pub fn rows() -> [Row; 6] {
    [
        row(A, 0x2122_2324),
        FREE,
        Row {
            expiry: 1,
            ..row(B, 0x3132_3334)
        },
        Row {
            status: 2,
            ..row(C, 0xFFFF_FFFF)
        },
        row(D, 0).unknown(3),
        Row {
            next_hop: E,
            ..row(F, 9)
        },
    ]
}

pub fn octets(items: &[(u8, Address)]) -> Vec<u8> {
    let octets = items
        .iter()
        .map(|(flags, address)| [&[*flags][..], address].concat());
    octets.collect::<Vec<_>>().concat()
}

pub fn ask(
    lifetime: u32,
    items: &[u8],
) -> impl Fn(&Implementation, &mut [u8], &mut [u8]) -> Outcome {
    move |by, table, output| (by.ask)(table, output, lifetime, items)
}

/// The mark of a destination: its number is 0 because none is known.
pub const UNKNOWN: u8 = 4;

/// The request has the known numbers of valid, expired and invalidated rows. It has a marked 0 for
/// an unknown number, for an address that is only a next hop, and for one without a row.
#[test]
pub fn an_ask_octet_by_octet() {
    let frame = [
        0xFF, 0xFF, 0xFF, 0xFF, 0xFF, 0xFF, // receiver
        130, 92, // ID, Length
        0, 0, 31, // flags, hop count, TTL
        0x15, 0x13, 0x12, 0x11, // request ID
        2, 0, 0, 0, 0, 1, // originator
        0x05, 0x03, 0x02, 0x01, // number
        0x44, 0x43, 0x42, 0x41, // lifetime
        0, 0, 0, 0, // metric
        6, // N
        0, 0x0A, 0, 0, 0, 0, 3, 0xFF, 0xFF, 0xFF, 0xFF, // flags, C, number
        1, 0x0A, 0, 0, 0, 0, 1, 0x24, 0x23, 0x22, 0x21, // A
        2, 0x0A, 0, 0, 0, 0, 2, 0x34, 0x33, 0x32, 0x31, // B
        7, 0x0A, 0, 0, 0, 0, 4, 0, 0, 0, 0, // D
        4, 0x0A, 0, 0, 0, 0, 5, 0, 0, 0, 0, // E
        5, 0x0A, 0, 0, 0, 0, 7, 0, 0, 0, 0, // ABSENT
    ];
    let items = [
        0, 0x0A, 0, 0, 0, 0, 3, // flags, C
        1, 0x0A, 0, 0, 0, 0, 1, // A
        2, 0x0A, 0, 0, 0, 0, 2, // B
        3, 0x0A, 0, 0, 0, 0, 4, // D
        0, 0x0A, 0, 0, 0, 0, 5, // E
        1, 0x0A, 0, 0, 0, 0, 7, // ABSENT
    ];
    assert_eq!(frame.len(), 100);
    let before = table(0x0102_0304, 0x1112_1314, 5000, &rows());
    let after = table(0x0102_0305, 0x1112_1315, 5000, &rows());
    let call = ask(0x4142_4344, &items);
    accepted("six items", &before, &call, &after, &[frame.to_vec()]);
    println!("ask: six items in a frame of 100 octets");
}

#[test]
fn both_counters_step_and_the_frame_has_them_after_the_step() {
    for (number, next_number) in STEPS {
        for (request_id, next_id) in STEPS {
            let before = table(number, request_id, 5000, &rows());
            let after = table(next_number, next_id, 5000, &rows());
            let frame = rreq(0, next_id, next_number, 1000, &[(1 | UNKNOWN, ABSENT, 0)]);
            let what = format!("number {number}, request ID {request_id}");
            let items = octets(&[(1, ABSENT)]);
            accepted(&what, &before, &ask(1000, &items), &after, &[frame]);
        }
    }
    println!(
        "ask: {} pairs of counters, also past 4,294,967,295",
        STEPS.len().pow(2)
    );
}

#[test]
fn a_lifetime_is_not_0() {
    let (before, after) = (table(5, 7, 5000, &rows()), table(6, 8, 5000, &rows()));
    let items = octets(&[(0, ABSENT)]);
    refused_with_room("lifetime 0", &before, &ask(0, &items), NO_LIFETIME);
    for lifetime in [1, 0x100, 0x8000_0000, u32::MAX] {
        let frame = rreq(0, 8, 6, lifetime, &[(UNKNOWN, ABSENT, 0)]);
        let what = format!("lifetime {lifetime}");
        accepted(&what, &before, &ask(lifetime, &items), &after, &[frame]);
    }
    println!("ask: lifetime 0 refused with 11, 1 and 4,294,967,295 accepted");
}

/// A number is known whatever the row is otherwise, and 0 is a number. Only a row of unknown number,
/// or no row, leaves a point without a number.
#[test]
pub fn only_an_unknown_number_is_marked() {
    let known = [
        0,
        1,
        9,
        0x7FFF_FFFF,
        0x8000_0000,
        3_000_000_000,
        0xFFFF_FFFF,
    ];
    let numbered = known.map(|number| (row(A, number), 0));
    let unknown = (row(A, 0).unknown(3), UNKNOWN);
    for (row, mark) in numbered.into_iter().chain([unknown]) {
        let expired = Row { expiry: 1, ..row };
        let invalidated = Row { status: 2, ..row };
        for (what, row) in [
            ("valid", row),
            ("expired", expired),
            ("invalidated", invalidated),
        ] {
            let what = format!("{what}, number {}, known {}", row.number, row.known);
            let (before, after) = (table(5, 7, 5000, &[row]), table(6, 8, 5000, &[row]));
            for flags in 0..=3 {
                // ABSENT stands beside A, so that known and unknown numbers are in one request.
                let items = octets(&[(flags, A), (flags, ABSENT)]);
                let asked = [(flags | mark, A, row.number), (flags | UNKNOWN, ABSENT, 0)];
                let frame = rreq(0, 8, 6, 1000, &asked);
                accepted(&what, &before, &ask(1000, &items), &after, &[frame]);
            }
        }
    }
    println!("ask: only unknown numbers are marked, not a known 0");
}

/// Rows in every place of a large table, with destinations that differ in one octet.
#[test]
fn a_number_is_found_in_every_row() {
    let destination = |place: usize| {
        let mut address = [0x10, 0x20, 0x30, 0x40, 0x50, 0x60];
        address[place % 6] ^= 2 * (1 + place as u8 / 6);
        address
    };
    let rows: Vec<Row> = (0..128)
        .map(|place| row(destination(place), 1000 + place as u32))
        .collect();
    let (before, after) = (table(5, 7, 0, &rows), table(6, 8, 0, &rows));
    for first in 0..128 {
        let places = [first, (first + 1) % 128, (first + 64) % 128];
        let items = places.map(|place| (3, destination(place)));
        let numbered = places.map(|place| (3, destination(place), 1000 + place as u32));
        let what = format!("rows {places:?}");
        let frame = rreq(0, 8, 6, 1000, &numbered);
        accepted(
            &what,
            &before,
            &ask(1000, &octets(&items)),
            &after,
            &[frame],
        );
    }
    println!("ask: numbers from each of 128 rows");
}
