//! Announcements and root requests.

use hwmp_tests::answers::{BAD_LIST, NO_LIFETIME};
use hwmp_tests::implementation::Implementation;
use hwmp_tests::library::Outcome;
use hwmp_tests::worked::{
    ALL_ONES, Address, FREE, Row, STEPS, accepted, rann, refused_with_room, rreq, table,
};

const DESTINATION: Address = [2, 0, 0, 0, 0, 9];
const NEXT_HOP: Address = [2, 0, 0, 0, 0, 2];

/// The one destination of a root request: flags DO, RF and 'number unknown', number 0.
const EVERYONE: (u8, Address, u32) = (7, ALL_ONES, 0);

/// Returns rows that these calls must leave alone.
fn rows() -> [Row; 3] {
    let held = Row {
        status: 1,
        known: 1,
        hop_count: 4,
        destination: DESTINATION,
        next_hop: NEXT_HOP,
        number: 77,
        metric: 30,
        expiry: 6000,
    };
    let neighbour = Row {
        destination: NEXT_HOP,
        ..held
    };
    [held, FREE, neighbour.unknown(20)]
}

fn announce(flags: u8, lifetime: u32) -> impl Fn(&Implementation, &mut [u8], &mut [u8]) -> Outcome {
    move |by, table, output| (by.announce)(table, output, flags, lifetime)
}

fn root_request(
    flags: u8,
    lifetime: u32,
) -> impl Fn(&Implementation, &mut [u8], &mut [u8]) -> Outcome {
    move |by, table, output| (by.root_request)(table, output, flags, lifetime)
}

#[test]
fn an_announcement_octet_by_octet() {
    let frame = [
        0xFF, 0xFF, 0xFF, 0xFF, 0xFF, 0xFF, // receiver
        126, 21, // ID, Length
        1, 0, 31, // flags, hop count, TTL
        2, 0, 0, 0, 0, 1, // originator
        0x05, 0x03, 0x02, 0x01, // number
        0x44, 0x43, 0x42, 0x41, // lifetime
        0, 0, 0, 0, // metric
    ];
    assert_eq!(frame.len(), 29);
    let before = table(0x0102_0304, 0x1112_1314, 5000, &rows());
    let after = table(0x0102_0305, 0x1112_1314, 5000, &rows());
    let call = announce(1, 0x4142_4344);
    accepted("announce", &before, &call, &after, &[frame.to_vec()]);
    println!("announce: a frame of 29 octets");
}

#[test]
pub fn a_root_request_octet_by_octet() {
    let frame = [
        0xFF, 0xFF, 0xFF, 0xFF, 0xFF, 0xFF, // receiver
        130, 37, // ID, Length
        5, 0, 31, // flags, hop count, TTL
        0x15, 0x13, 0x12, 0x11, // request ID
        2, 0, 0, 0, 0, 1, // originator
        0x05, 0x03, 0x02, 0x01, // number
        0x44, 0x43, 0x42, 0x41, // lifetime
        0, 0, 0, 0, // metric
        1, // N
        7, 0xFF, 0xFF, 0xFF, 0xFF, 0xFF, 0xFF, 0, 0, 0, 0, // flags, destination, number
    ];
    assert_eq!(frame.len(), 45);
    let before = table(0x0102_0304, 0x1112_1314, 5000, &rows());
    let after = table(0x0102_0305, 0x1112_1315, 5000, &rows());
    let call = root_request(5, 0x4142_4344);
    accepted("root request", &before, &call, &after, &[frame.to_vec()]);
    println!("root request: a frame of 45 octets");
}

/// An announcement leaves the request ID, whatever it is.
#[test]
fn counters_step_and_the_frame_has_them_after_the_step() {
    for (number, next_number) in STEPS {
        for (request_id, next_id) in STEPS {
            let what = format!("number {number}, request ID {request_id}");
            let before = table(number, request_id, 5000, &rows());
            let numbered = table(next_number, request_id, 5000, &rows());
            let frame = rann(0, next_number, 1000);
            accepted(&what, &before, &announce(0, 1000), &numbered, &[frame]);
            let requested = table(next_number, next_id, 5000, &rows());
            let frame = rreq(0, next_id, next_number, 1000, &[EVERYONE]);
            accepted(&what, &before, &root_request(0, 1000), &requested, &[frame]);
        }
    }
    println!(
        "announce, root request: {} pairs of counters",
        STEPS.len().pow(2)
    );
}

#[test]
fn flags_of_an_announcement_are_0_or_1() {
    let (before, after) = (table(5, 7, 5000, &rows()), table(6, 7, 5000, &rows()));
    for flags in 0..=255 {
        let what = format!("flags {flags}");
        let call = announce(flags, 1000);
        if [0, 1].contains(&flags) {
            accepted(&what, &before, &call, &after, &[rann(flags, 6, 1000)]);
        } else {
            refused_with_room(&what, &before, &call, BAD_LIST);
        }
    }
    println!("announce: flags 0 and 1 accepted, 254 others refused with 10");
}

#[test]
pub fn flags_of_a_root_request_are_0_1_4_or_5() {
    let (before, after) = (table(5, 7, 5000, &rows()), table(6, 8, 5000, &rows()));
    for flags in 0..=255 {
        let what = format!("flags {flags}");
        let call = root_request(flags, 1000);
        if [0, 1, 4, 5].contains(&flags) {
            let frame = rreq(flags, 8, 6, 1000, &[EVERYONE]);
            accepted(&what, &before, &call, &after, &[frame]);
        } else {
            refused_with_room(&what, &before, &call, BAD_LIST);
        }
    }
    println!("root request: flags 0, 1, 4 and 5 accepted, 252 others refused with 10");
}

#[test]
fn a_lifetime_is_not_0() {
    let before = table(5, 7, 5000, &rows());
    refused_with_room("lifetime 0", &before, &announce(1, 0), NO_LIFETIME);
    refused_with_room("lifetime 0", &before, &root_request(4, 0), NO_LIFETIME);
    for lifetime in [1, 0x100, 0x8000_0000, u32::MAX] {
        let what = format!("lifetime {lifetime}");
        let (call, frame) = (announce(1, lifetime), rann(1, 6, lifetime));
        accepted(&what, &before, &call, &table(6, 7, 5000, &rows()), &[frame]);
        let frame = rreq(4, 8, 6, lifetime, &[EVERYONE]);
        let call = root_request(4, lifetime);
        accepted(&what, &before, &call, &table(6, 8, 5000, &rows()), &[frame]);
    }
    println!("announce, root request: lifetime 0 refused with 11, 1 and 4,294,967,295 accepted");
}
