//! Checks that several calls make. Each call lists its checks in the order of docs/PROTOCOL.md,
//! 'Refusals'.

use super::refusal::ensure;
use super::table::{CLOCK_MAX, Head, Table};
use super::{Address, Refusal};
use crate::answers::{
    BAD_NEIGHBOUR, CLOCK_TOO_LARGE, FROM_ITSELF, NO_LIFETIME, NOT_A_TABLE, OLD_CLOCK, TABLE_LENGTH,
};

pub fn table_length(octets: &[u8]) -> Result<Table<'_>, Refusal> {
    Table::cut(octets).ok_or(TABLE_LENGTH)
}

pub fn clock(clock: u64) -> Result<(), Refusal> {
    ensure(clock <= CLOCK_MAX, CLOCK_TOO_LARGE)
}

/// Judges the transmitter of an element, or the neighbour that broke.
pub fn neighbour(neighbour: Address) -> Result<(), Refusal> {
    ensure(neighbour.is_individual(), BAD_NEIGHBOUR)
}

pub fn lifetime(lifetime: u32) -> Result<(), Refusal> {
    ensure(lifetime > 0, NO_LIFETIME)
}

pub fn is_table(table: &Table) -> Result<(), Refusal> {
    table.check().map_err(|_| NOT_A_TABLE)
}

pub fn clock_not_behind(clock: u64, table: &Table) -> Result<(), Refusal> {
    ensure(clock >= table.head().latest_clock, OLD_CLOCK)
}

/// Makes the checks by the state for a call that brings a clock and a neighbour. Returns the head
/// with the clock stored.
pub fn head_at(clock: u64, neighbour: Address, table: &Table) -> Result<Head, Refusal> {
    is_table(table)?;
    clock_not_behind(clock, table)?;
    let head = table.head();
    ensure(neighbour != head.own, FROM_ITSELF)?;
    Ok(Head {
        latest_clock: clock,
        ..head
    })
}
