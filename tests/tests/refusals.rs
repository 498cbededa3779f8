//! Answers of fresh, forget and next hop, worked out by hand from docs/PROTOCOL.md and asked of the
//! library and the reference: lengths, the order of the refusals, and the edges of each call.

use hwmp_tests::answers::{
    ACCEPTED, BAD_ADDRESS, CLOCK_TOO_LARGE, NO_NEXT_HOP, NOT_A_TABLE, NOT_HELD, OLD_CLOCK,
    TABLE_LENGTH,
};
use hwmp_tests::implementation::{Implementation, LIBRARY, REFERENCE};
use hwmp_tests::library::Hop;

const BOTH: [&Implementation; 2] = [&LIBRARY, &REFERENCE];
const OWN: [u8; 6] = [2, 0, 0, 0, 0, 1];
const DESTINATION: [u8; 6] = [2, 0, 0, 0, 0, 9];
const NEXT_HOP: [u8; 6] = [2, 0, 0, 0, 0, 2];
const ABSENT: [u8; 6] = [2, 0, 0, 0, 0, 8];
const GROUP: [u8; 6] = [3, 0, 0, 0, 0, 9];
const LAST_CLOCK: u64 = (1 << 48) - 1;

/// Returns a table of 4 rows. The third leads to DESTINATION through NEXT_HOP.
fn table(status: u8, expiry: u64, latest_clock: u64) -> Vec<u8> {
    let mut octets = vec![0; 32 + 4 * 32];
    octets[..6].copy_from_slice(&OWN);
    octets[16..24].copy_from_slice(&latest_clock.to_le_bytes());
    let row = &mut octets[96..128];
    row[..4].copy_from_slice(&[status, 1, 2, 0]);
    row[4..10].copy_from_slice(&DESTINATION);
    row[10..16].copy_from_slice(&NEXT_HOP);
    row[16..20].copy_from_slice(&7u32.to_le_bytes());
    row[20..24].copy_from_slice(&30u32.to_le_bytes());
    row[24..32].copy_from_slice(&expiry.to_le_bytes());
    octets
}

/// Returns what next hop must return: the address with an acceptance, zeros with a refusal.
fn hop(answer: u32) -> Hop {
    let address = if answer == ACCEPTED { NEXT_HOP } else { [0; 6] };
    Hop { answer, address }
}

#[test]
fn only_whole_tables_of_1_to_128_rows_have_a_length() {
    let lengths: Vec<usize> = (1..=128).map(|rows| 32 + 32 * rows).collect();
    for by in BOTH {
        for length in 0..=32 + 32 * 131 {
            // Zeros are not a table, so a length that fits is refused with 21 instead.
            let (fresh, others) = if lengths.contains(&length) {
                (ACCEPTED, NOT_A_TABLE)
            } else {
                (TABLE_LENGTH, TABLE_LENGTH)
            };
            let mut octets = vec![0; length];
            assert_eq!((by.forget)(&mut octets, &DESTINATION), others, "{length}");
            assert_eq!(
                (by.next_hop)(&octets, 0, &DESTINATION),
                hop(others),
                "{length}"
            );
            assert_eq!(octets, vec![0; length], "{length}: {}", by.name);
            assert_eq!((by.fresh)(&mut octets, &OWN, 0), fresh, "{length}");
        }
    }
    println!("lengths 0 to {}: 128 of them fit", 32 + 32 * 131);
}

/// Returns the faults chosen by the bits of `chosen`, and the answer: the lowest fault, or 0.
fn faults(numbers: &[u32], chosen: u32) -> (Vec<u32>, u32) {
    let bits = numbers.iter().enumerate();
    let faults: Vec<u32> = bits
        .filter(|(bit, _)| chosen >> bit & 1 == 1)
        .map(|(_, &number)| number)
        .collect();
    let lowest = faults.first().copied().unwrap_or(ACCEPTED);
    (faults, lowest)
}

#[test]
fn fresh_gives_the_lowest_refusal() {
    for by in BOTH {
        for chosen in 0..1 << 2 {
            let (faults, expected) = faults(&[TABLE_LENGTH, BAD_ADDRESS], chosen);
            let mut octets = vec![
                0xA5;
                if faults.contains(&TABLE_LENGTH) {
                    95
                } else {
                    96
                }
            ];
            let own = if faults.contains(&BAD_ADDRESS) {
                GROUP
            } else {
                OWN
            };
            let answer = (by.fresh)(&mut octets, &own, 1);
            assert_eq!(answer, expected, "{faults:?}: {}", by.name);
            let changed = octets.iter().any(|&octet| octet != 0xA5);
            assert_eq!(changed, expected == ACCEPTED, "{faults:?}: {}", by.name);
        }
    }
    println!("fresh: every set of faults 1, 9 gives the lowest");
}

#[test]
fn forget_gives_the_lowest_refusal() {
    for by in BOTH {
        for chosen in 0..1 << 4 {
            let (faults, expected) =
                faults(&[TABLE_LENGTH, BAD_ADDRESS, NOT_A_TABLE, NOT_HELD], chosen);
            let mut octets = damaged(table(1, 6000, 1000), &faults);
            let before = octets.clone();
            let absent = faults.contains(&NOT_HELD);
            let answer = (by.forget)(&mut octets, &wanted(&faults, absent));
            assert_eq!(answer, expected, "{faults:?}: {}", by.name);
            assert_eq!(
                octets == before,
                expected != ACCEPTED,
                "{faults:?}: {}",
                by.name
            );
        }
    }
    println!("forget: every set of faults 1, 9, 21, 29 gives the lowest");
}

#[test]
fn next_hop_gives_the_lowest_refusal() {
    for by in BOTH {
        for chosen in 0..1 << 6 {
            let (faults, expected) = faults(
                &[
                    TABLE_LENGTH,
                    CLOCK_TOO_LARGE,
                    BAD_ADDRESS,
                    NOT_A_TABLE,
                    OLD_CLOCK,
                    NO_NEXT_HOP,
                ],
                chosen,
            );
            let octets = damaged(table(1, 6000, 1000), &faults);
            let before = octets.clone();
            let clock = match (
                faults.contains(&CLOCK_TOO_LARGE),
                faults.contains(&OLD_CLOCK),
            ) {
                (true, _) => LAST_CLOCK + 1,
                (_, true) => 999,
                _ => 1000,
            };
            let absent = faults.contains(&NO_NEXT_HOP);
            let found = (by.next_hop)(&octets, clock, &wanted(&faults, absent));
            assert_eq!(found, hop(expected), "{faults:?}: {}", by.name);
            assert_eq!(octets, before, "{faults:?}: {}", by.name);
        }
    }
    println!("next hop: every set of faults 1, 3, 9, 21, 22, 28 gives the lowest");
}

/// Fault 1 cuts off an octet, fault 21 sets the first zero octet of the head.
fn damaged(mut octets: Vec<u8>, faults: &[u32]) -> Vec<u8> {
    octets[6] = faults.contains(&NOT_A_TABLE).into();
    octets.truncate(octets.len() - usize::from(faults.contains(&TABLE_LENGTH)));
    octets
}

fn wanted(faults: &[u32], absent: bool) -> [u8; 6] {
    match (faults.contains(&BAD_ADDRESS), absent) {
        (true, _) => GROUP,
        (_, true) => ABSENT,
        _ => DESTINATION,
    }
}

#[test]
fn next_hop_needs_an_active_row() {
    let last_expiry = (1 << 48) + (1 << 32);
    // Status, expiry, latest clock; clock, destination; answer.
    let edges = [
        (1, 6000, 1000, 1000, DESTINATION, ACCEPTED),
        (1, 6000, 1000, 5999, DESTINATION, ACCEPTED),
        (1, 6000, 1000, 6000, DESTINATION, NO_NEXT_HOP),
        (1, 6000, 1000, 6001, DESTINATION, NO_NEXT_HOP),
        (2, 6000, 1000, 1000, DESTINATION, NO_NEXT_HOP),
        (1, 6000, 1000, 999, DESTINATION, OLD_CLOCK),
        (1, 0, 0, 0, DESTINATION, NO_NEXT_HOP),
        (1, 1, 0, 0, DESTINATION, ACCEPTED),
        (
            1,
            last_expiry,
            LAST_CLOCK,
            LAST_CLOCK,
            DESTINATION,
            ACCEPTED,
        ),
        (
            1,
            LAST_CLOCK,
            LAST_CLOCK,
            LAST_CLOCK,
            DESTINATION,
            NO_NEXT_HOP,
        ),
        (
            1,
            last_expiry,
            LAST_CLOCK,
            LAST_CLOCK - 1,
            DESTINATION,
            OLD_CLOCK,
        ),
        (
            1,
            last_expiry,
            0,
            LAST_CLOCK + 1,
            DESTINATION,
            CLOCK_TOO_LARGE,
        ),
        (1, last_expiry, 0, u64::MAX, DESTINATION, CLOCK_TOO_LARGE),
        // A clock whose low 32 bits alone are below the expiry.
        (1, 1 << 32, 0, (1 << 32) + 1, DESTINATION, NO_NEXT_HOP),
        (1, 6000, 1000, 1000, OWN, NO_NEXT_HOP),
        (1, 6000, 1000, 1000, NEXT_HOP, NO_NEXT_HOP),
        (1, 6000, 1000, 1000, ABSENT, NO_NEXT_HOP),
        (1, 6000, 1000, 1000, GROUP, BAD_ADDRESS),
        (1, 6000, 1000, 1000, [0; 6], BAD_ADDRESS),
        (1, 6000, 1000, 1000, [0xFF; 6], BAD_ADDRESS),
    ];
    for by in BOTH {
        for (status, expiry, latest_clock, clock, destination, answer) in edges {
            let octets = table(status, expiry, latest_clock);
            let found = (by.next_hop)(&octets, clock, &destination);
            let case = (status, expiry, latest_clock, clock, destination);
            assert_eq!(found, hop(answer), "{case:?}: {}", by.name);
            assert_eq!(octets, table(status, expiry, latest_clock), "{case:?}");
        }
    }
    println!("next hop: {} edges", edges.len());
}

#[test]
fn forget_needs_a_held_row_and_zeroes_it() {
    // Status, expiry; destination; answer. The latest clock does not matter.
    let edges = [
        (1, 6000, DESTINATION, ACCEPTED),
        (1, 0, DESTINATION, ACCEPTED),
        (2, 6000, DESTINATION, ACCEPTED),
        (1, 6000, OWN, NOT_HELD),
        (1, 6000, NEXT_HOP, NOT_HELD),
        (1, 6000, ABSENT, NOT_HELD),
        (1, 6000, GROUP, BAD_ADDRESS),
        (1, 6000, [0; 6], BAD_ADDRESS),
        (1, 6000, [0xFF; 6], BAD_ADDRESS),
    ];
    for by in BOTH {
        for (status, expiry, destination, answer) in edges {
            let mut octets = table(status, expiry, LAST_CLOCK);
            let mut expected = octets.clone();
            if answer == ACCEPTED {
                expected[96..128].fill(0);
            }
            let case = (status, expiry, destination);
            let found = (by.forget)(&mut octets, &destination);
            assert_eq!(found, answer, "{case:?}: {}", by.name);
            assert_eq!(octets, expected, "{case:?}: {}", by.name);
        }
    }
    println!("forget: {} edges", edges.len());
}

#[test]
fn fresh_overwrites_everything() {
    for by in BOTH {
        for (rows, number) in [(1, 0), (4, 0x0403_0201), (128, u32::MAX)] {
            let mut octets = vec![0xA5; 32 + 32 * rows];
            assert_eq!(
                (by.fresh)(&mut octets, &OWN, number),
                ACCEPTED,
                "{}",
                by.name
            );
            let mut expected = vec![0; 32 + 32 * rows];
            expected[..6].copy_from_slice(&OWN);
            expected[8..12].copy_from_slice(&number.to_le_bytes());
            assert_eq!(octets, expected, "{rows} rows: {}", by.name);
        }
    }
    println!("fresh: address and number, the rest zero, for 1, 4 and 128 rows");
}
