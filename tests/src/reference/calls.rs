//! The calls that emit nothing. Each makes its checks in the order of docs/PROTOCOL.md, 'Refusals',
//! lowest number first, and writes only after the last check.

use super::refusal::ensure;
use super::table::{Head, Row, write_head, write_row};
use super::{Address, Refusal, SequenceNumber, checks};
use crate::answers::{BAD_ADDRESS, NO_NEXT_HOP, NOT_HELD};

pub fn fresh(octets: &mut [u8], own: Address, number: SequenceNumber) -> Result<(), Refusal> {
    checks::table_length(octets)?;
    ensure(own.is_individual(), BAD_ADDRESS)?;
    let head = Head {
        own,
        number,
        ..Head::default()
    };
    octets.fill(0);
    write_head(octets, &head);
    Ok(())
}

pub fn next_hop(octets: &[u8], clock: u64, destination: Address) -> Result<Address, Refusal> {
    let table = checks::table_length(octets)?;
    checks::clock(clock)?;
    ensure(destination.is_individual(), BAD_ADDRESS)?;
    checks::is_table(&table)?;
    checks::clock_not_behind(clock, &table)?;
    let (_, row) = table
        .active_row_for(destination, clock)
        .ok_or(NO_NEXT_HOP)?;
    Ok(row.next_hop)
}

pub fn forget(octets: &mut [u8], destination: Address) -> Result<(), Refusal> {
    let table = checks::table_length(octets)?;
    ensure(destination.is_individual(), BAD_ADDRESS)?;
    checks::is_table(&table)?;
    let (place, _) = table.row_for(destination).ok_or(NOT_HELD)?;
    write_row(octets, place, &Row::default());
    Ok(())
}
