//! Fresh, next hop and forget.

use hwmp_tests::answers::{
    ACCEPTED, BAD_ADDRESS, CLOCK_TOO_LARGE, NO_NEXT_HOP, NOT_A_TABLE, NOT_HELD, OLD_CLOCK,
    TABLE_LENGTH,
};
use hwmp_tests::library::Hop;

use super::table::{HEAD, ROW, address, individual, is_table, length_fits, row_for, u64_at};

pub fn fresh(table: &mut [u8], own: &[u8; 6], number: u32) -> u32 {
    if !length_fits(table.len()) {
        return TABLE_LENGTH;
    }
    if !individual(address(own)) {
        return BAD_ADDRESS;
    }
    table.fill(0);
    table[..6].copy_from_slice(own);
    table[8..12].copy_from_slice(&number.to_le_bytes());
    ACCEPTED
}

fn refused(answer: u32) -> Hop {
    Hop {
        answer,
        address: [0; 6],
    }
}

pub fn next_hop(table: &[u8], clock: u64, destination: &[u8; 6]) -> Hop {
    let destination = address(destination);
    if !length_fits(table.len()) {
        return refused(TABLE_LENGTH);
    }
    if clock >= 1 << 48 {
        return refused(CLOCK_TOO_LARGE);
    }
    if !individual(destination) {
        return refused(BAD_ADDRESS);
    }
    if !is_table(table) {
        return refused(NOT_A_TABLE);
    }
    if clock < u64_at(table, 16) {
        return refused(OLD_CLOCK);
    }
    let Some(place) = row_for(&table[HEAD..], destination) else {
        return refused(NO_NEXT_HOP);
    };
    let row = &table[HEAD + place * ROW..][..ROW];
    if row[0] != 1 || clock >= u64_at(row, 24) {
        return refused(NO_NEXT_HOP);
    }
    Hop {
        answer: ACCEPTED,
        address: row[10..16].try_into().unwrap(),
    }
}

pub fn forget(table: &mut [u8], destination: &[u8; 6]) -> u32 {
    let destination = address(destination);
    if !length_fits(table.len()) {
        return TABLE_LENGTH;
    }
    if !individual(destination) {
        return BAD_ADDRESS;
    }
    if !is_table(table) {
        return NOT_A_TABLE;
    }
    let Some(place) = row_for(&table[HEAD..], destination) else {
        return NOT_HELD;
    };
    table[HEAD + place * ROW..][..ROW].fill(0);
    ACCEPTED
}
