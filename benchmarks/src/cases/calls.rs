use hwmp_tests::implementation::Implementation;
use hwmp_tests::library::Outcome;
use hwmp_tests::random::Random;
use hwmp_tests::reference::table::{CLOCK_MAX, HEAD_OCTETS, ROW_OCTETS};
use hwmp_tests::tables;

use super::Input;

/// The last clock, so that no table is ahead of it.
pub const CLOCK: u64 = CLOCK_MAX;
pub const LIFETIME: u32 = 5000;

pub fn next_hop(by: &Implementation, input: &mut Input) -> u32 {
    (by.next_hop)(&input.table, CLOCK, &input.address).answer
}

pub fn fresh(by: &Implementation, input: &mut Input) -> u32 {
    (by.fresh)(&mut input.table, &input.address, 7)
}

pub fn forget(by: &Implementation, input: &mut Input) -> u32 {
    (by.forget)(&mut input.table, &input.address)
}

/// Forgets the last row and puts it back.
pub fn forget_and_mend(by: &Implementation, input: &mut Input) -> u32 {
    let before = *input.table.last_chunk::<ROW_OCTETS>().expect("a row");
    let answer = forget(by, input);
    let row = input.table.last_chunk_mut().expect("a row");
    *row = before;
    answer
}

pub fn ask(by: &Implementation, input: &mut Input) -> u32 {
    let (table, output) = (&mut input.table, &mut input.output);
    let outcome = (by.ask)(table, output, LIFETIME, &input.items);
    note_frames(outcome, input)
}

pub fn announce(by: &Implementation, input: &mut Input) -> u32 {
    let outcome = (by.announce)(&mut input.table, &mut input.output, 1, LIFETIME);
    note_frames(outcome, input)
}

pub fn root_request(by: &Implementation, input: &mut Input) -> u32 {
    let outcome = (by.root_request)(&mut input.table, &mut input.output, 5, LIFETIME);
    note_frames(outcome, input)
}

pub fn report_break(by: &Implementation, input: &mut Input) -> u32 {
    let (table, output) = (&mut input.table, &mut input.output);
    let outcome = (by.report_break)(table, output, CLOCK, &input.address);
    note_frames(outcome, input)
}

pub fn break_and_mend(by: &Implementation, input: &mut Input) -> u32 {
    let answer = report_break(by, input);
    mend(input);
    answer
}

/// Makes the lost rows valid again. It writes one octet a row, which is the same work for all
/// implementations. The other tables have their turn before these octets are read, so no read waits
/// for the writes.
pub fn mend(input: &mut Input) {
    for row in input.table[HEAD_OCTETS..].chunks_exact_mut(ROW_OCTETS) {
        row[0] = 1;
    }
}

pub fn note_frames(outcome: Outcome, input: &mut Input) -> u32 {
    input.frames = outcome.frames;
    outcome.answer
}

pub fn spoil_head(input: &mut Input, _: &mut Random) {
    input.table[0] |= 1;
}

/// Makes the last row active at the clock, and its destination the address asked for.
pub fn want_last_row(input: &mut Input, _: &mut Random) {
    let row = input.table.len() - ROW_OCTETS;
    input.table[row] = 1;
    input.table[row + 24..].copy_from_slice(&(CLOCK + 1).to_le_bytes());
    input
        .address
        .copy_from_slice(&input.table[row + 4..row + 10]);
}

/// Names 20 destinations: in turn one that has a row, as long as there are any, and one without a
/// row.
pub fn name_20(input: &mut Input, random: &mut Random) {
    let (rows, _) = input.table[HEAD_OCTETS..].as_chunks::<ROW_OCTETS>();
    let named = rows.len().min(10);
    for turn in 0..10 {
        let first = if turn < named {
            rows[turn * rows.len() / named][4..10].try_into().unwrap()
        } else {
            tables::individual(random).0
        };
        for (flags, address) in [(1, first), (2, tables::individual(random).0)] {
            input.items.push(flags);
            input.items.extend(address);
        }
    }
}

/// Makes every row active at the clock, of known number and through the neighbour.
pub fn lead_through_neighbour(input: &mut Input, _: &mut Random) {
    lead_through(input.address, input);
}

/// Makes every row active at the clock, of known number and through another neighbour. Only their
/// next hops keep the rows from being lost.
pub fn lead_elsewhere(input: &mut Input, random: &mut Random) {
    lead_through(tables::individual(random).0, input);
}

pub fn lead_through(next_hop: [u8; 6], input: &mut Input) {
    for row in input.table[HEAD_OCTETS..].chunks_exact_mut(ROW_OCTETS) {
        row[..2].fill(1);
        row[10..16].copy_from_slice(&next_hop);
        row[24..].copy_from_slice(&(CLOCK + 1).to_le_bytes());
    }
}
