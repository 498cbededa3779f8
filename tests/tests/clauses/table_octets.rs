//! The cases of each clause.

use hwmp_tests::reference::table::Flaw;

use crate::listing::{Case, Cases};
use crate::sample::Sample;
use crate::{LAST_CLOCK, NEXT_HOP, OWN, ZERO};

const NEAR_OWN: [u8; 6] = [2, 0, 0, 0, 0, 0x81];
const ALL_ONES: [u8; 6] = [0xFF; 6];
const GROUP: [u8; 6] = [0x11, 0, 0, 0, 0, 9];
const LAST_EXPIRY: u64 = (1 << 48) + (1 << 32);

fn head_cases(cases: &mut Cases) {
    cases.clause("own address is individual", Flaw::OwnAddressNotIndividual);
    cases.head(
        0,
        &[&[3], &[0xFF], &ZERO, &ALL_ONES],
        &[&[0xFE], &[0, 0, 0, 0, 0, 0x80], &[0, 1, 0, 0, 0, 0]],
    );
    cases.clause("head: zero 2, zero 8", Flaw::HeadZeroOctets);
    for at in (6..8).chain(24..32) {
        cases.head(at, &[&[1], &[0x80]], &[]);
    }
    cases.clause("latest clock at most 2^48 - 1", Flaw::LatestClock);
    cases.head(
        16,
        &[
            &(LAST_CLOCK + 1).to_le_bytes(),
            &(1u64 << 63).to_le_bytes(),
            &u64::MAX.to_le_bytes(),
        ],
        &[&LAST_CLOCK.to_le_bytes(), &[0; 8]],
    );
    cases.no_clause("own number and request ID: any");
    cases.head(8, &[], &[&[0; 8], &[0xFF; 8], &[0, 0, 0, 0x80]]);
}

fn address_cases(cases: &mut Cases) {
    let not_individual: [&[u8]; 4] = [&GROUP, &[0x11], &ZERO, &ALL_ONES];
    cases.clause("destination is individual", Flaw::DestinationNotIndividual);
    cases.row(4, &not_individual, &[&[0xFE], &[0, 0, 0, 0, 0, 0xF0]]);
    cases.clause("destination is not the own one", Flaw::DestinationIsOwn);
    cases.row(4, &[&OWN], &[&NEAR_OWN]);
    cases.clause("next hop is individual", Flaw::NextHopNotIndividual);
    cases.row(10, &not_individual, &[&[0xFE], &[0, 0, 0, 0, 0, 0xF0]]);
    cases.clause("next hop is not the own one", Flaw::NextHopIsOwn);
    cases.row(10, &[&OWN], &[&NEAR_OWN]);
}

fn held_row_cases(cases: &mut Cases) {
    cases.clause("status 0, 1 or 2", Flaw::Status);
    cases.row(0, &[&[3], &[4], &[0x80], &[0xFF]], &[&[2]]);
    cases.clause("number known 0 or 1", Flaw::NumberKnown);
    cases.row(1, &[&[2], &[0x81], &[0xFF]], &[]);
    cases.inside(|sample| sample.unknown(1));
    cases.clause("row: zero 1", Flaw::RowZeroOctet);
    cases.row(3, &[&[1], &[0x80]], &[]);
    address_cases(cases);
    cases.clause("metric at least 1", Flaw::Metric);
    cases.row(
        20,
        &[&[0; 4]],
        &[&[1, 0, 0, 0], &[0, 0, 0, 0x80], &[0xFF; 4]],
    );
    cases.clause("expiry at most 2^48 + 2^32", Flaw::Expiry);
    cases.row(
        24,
        &[
            &(LAST_EXPIRY + 1).to_le_bytes(),
            &(1u64 << 63).to_le_bytes(),
            &u64::MAX.to_le_bytes(),
        ],
        &[&LAST_EXPIRY.to_le_bytes(), &[0; 8]],
    );
    cases.no_clause("number known 1: any hop count and number");
    cases.row(2, &[], &[&[0], &[1], &[255]]);
    cases.row(16, &[], &[&[0; 4], &[0xFF; 4]]);
}

fn unknown_cases(cases: &mut Cases) {
    cases.clause("number known 0: number 0", Flaw::UnknownWithNumber);
    cases.unknown(16, &[&[1], &[0, 0, 0, 1], &[0xFF; 4]]);
    cases.clause("number known 0: hop count 1", Flaw::UnknownWithHopCount);
    cases.unknown(2, &[&[0], &[2], &[0xFF]]);
    cases.clause(
        "number known 0: next hop equal to destination",
        Flaw::UnknownWithNextHop,
    );
    cases.unknown(10, &[&NEXT_HOP, &[0x12]]);
    cases.unknown(15, &[&[0xF0]]);
}

fn free_row_cases(cases: &mut Cases) {
    cases.clause("a free row is all zero", Flaw::FreeRowNotZero);
    cases.inside(Sample::free);
    cases.row(0, &[&[0]], &[]);
    for at in 1..32 {
        for value in [1, 0x80] {
            cases.broken(move |sample| {
                sample.free();
                sample.put(sample.row + at, &[value]);
            });
        }
    }
}

fn twice_cases(cases: &mut Cases) {
    cases.clause("no destination stands twice", Flaw::DestinationTwice);
    for statuses in [[1, 1], [1, 2], [2, 1], [2, 2]] {
        cases.second(cases.flaw, statuses, 0, 0);
        for octet in 0..6 {
            cases.second(None, statuses, octet, 0x80);
        }
    }
}

pub fn cases() -> Vec<Case> {
    let mut cases = Cases::default();
    head_cases(&mut cases);
    held_row_cases(&mut cases);
    unknown_cases(&mut cases);
    free_row_cases(&mut cases);
    twice_cases(&mut cases);
    cases.list
}
