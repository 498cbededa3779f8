//! Elements that a point receives again and again.

use hwmp_tests::elements::{framed, path_fields};
use hwmp_tests::implementation::Implementation;
use hwmp_tests::random::Random;
use hwmp_tests::reference::element::{Destination, Rann, Rerr, Rrep, Rreq};
use hwmp_tests::reference::table::{HEAD_OCTETS, ROW_OCTETS};
use hwmp_tests::tables;

use super::Input;
use super::calls::{CLOCK, LIFETIME, lead_through, mend, note_frames};

pub const LINK: u32 = 20;
const METRIC: u32 = 1000;

pub fn receive(by: &Implementation, input: &mut Input) -> u32 {
    let (table, output) = (&mut input.table, &mut input.output);
    let outcome = (by.receive)(table, output, CLOCK, &input.address, LINK, &input.element);
    note_frames(outcome, input)
}

/// Receives the element and then steps its number, so that the next call finds a newer one.
pub fn newer(by: &Implementation, input: &mut Input) -> u32 {
    let answer = receive(by, input);
    let at = if input.element[0] == Rreq::ID { 15 } else { 11 };
    let number = input.element[at..].first_chunk_mut().expect("a number");
    *number = u32::from_le_bytes(*number).wrapping_add(1).to_le_bytes();
    answer
}

pub fn error_and_mend(by: &Implementation, input: &mut Input) -> u32 {
    let answer = receive(by, input);
    mend(input);
    answer
}

fn rows(input: &Input) -> &[[u8; ROW_OCTETS]] {
    input.table[HEAD_OCTETS..].as_chunks().0
}

fn destination(row: &[u8; ROW_OCTETS]) -> [u8; 6] {
    row[4..10].try_into().expect("six octets")
}

fn number(row: &[u8; ROW_OCTETS]) -> [u8; 4] {
    row[16..20].try_into().expect("four octets")
}

/// Makes all rows active, of known number and through the transmitter, which has the first row. The
/// path leads to the destination of the last row, with a number newer than that of the row.
fn prepare(input: &mut Input) -> Vec<u8> {
    input.address = destination(&rows(input)[0]);
    lead_through(input.address, input);
    let last = rows(input).last().expect("at least one row");
    let newer = u32::from_le_bytes(number(last)).wrapping_add(1);
    path_fields(destination(last), newer, LIFETIME, METRIC)
}

/// Flags, hop count and TTL. The TTL allows forwarding.
const HEAD: [u8; 3] = [0, 3, 20];

pub fn rann(input: &mut Input, _: &mut Random) {
    let path = prepare(input);
    input.element = framed(Rann::ID, &[&HEAD[..], &path].concat());
}

/// The number equals that of the row, and the metric is worse.
pub fn stale_rann(input: &mut Input, random: &mut Random) {
    rann(input, random);
    let row = input.table.len() - ROW_OCTETS;
    let number = input.element[11..15].to_vec();
    input.table[row + 16..][..4].copy_from_slice(&number);
    input.table[row + 20..][..4].copy_from_slice(&1_u32.to_le_bytes());
}

/// The point forwards the reply to the next hop of the middle row. If there is only one row, this
/// point is the source.
pub fn rrep(input: &mut Input, _: &mut Random) {
    let path = prepare(input);
    let rows = rows(input);
    let source = match rows.len() {
        1 => input.table[..6].try_into().expect("six octets"),
        count => destination(&rows[(count - 1) / 2]),
    };
    let source_number_and_count = [7, 0, 0, 0, 0];
    let fields = [&HEAD[..], &path, &source, &source_number_and_count];
    input.element = framed(Rrep::ID, &fields.concat());
}

/// Asks for a destination without a row.
pub fn rreq_for_1(input: &mut Input, random: &mut Random) {
    let new = stranger(random);
    rreq(input, &[new]);
}

/// Returns how many of twenty destinations have a row that answers.
pub fn answered(rows: usize) -> usize {
    (rows - 1).min(10)
}

/// Asks for up to ten destinations with a row that answers, every second with RF. The others have
/// no row.
pub fn rreq_for_20(input: &mut Input, random: &mut Random) {
    let rows = rows(input);
    let named = answered(rows.len());
    let listed = (0..Rreq::MOST).map(|place| {
        if place >= named {
            return stranger(random);
        }
        let row = &rows[place * (rows.len() - 1) / named];
        let flags = if place % 2 == 0 { Destination::RF } else { 0 };
        entry(flags, destination(row), number(row))
    });
    let listed: Vec<_> = listed.collect();
    rreq(input, &listed);
}

fn stranger(random: &mut Random) -> Vec<u8> {
    entry(0, tables::individual(random).0, [0; 4])
}

fn entry(flags: u8, address: [u8; 6], number: [u8; 4]) -> Vec<u8> {
    [&[flags][..], &address, &number].concat()
}

fn rreq(input: &mut Input, destinations: &[Vec<u8>]) {
    let path = prepare(input);
    let fields = [
        &HEAD[..],
        &[1, 0, 0, 0],
        &path,
        &[destinations.len() as u8],
        &destinations.concat(),
    ];
    input.element = framed(Rreq::ID, &fields.concat());
}

/// Names rows through the transmitter as long as there are any, and then new addresses. The numbers
/// are those of the rows, so that a row is unchanged once it is valid again.
pub fn rerr_with_25(input: &mut Input, random: &mut Random) {
    prepare(input);
    let mut fields = vec![0, Rerr::MOST as u8];
    let held = rows(input)
        .iter()
        .map(|row| [&destination(row)[..], &number(row)].concat());
    let new = std::iter::repeat_with(|| [&tables::individual(random).0[..], &[0; 4]].concat());
    for named in held.chain(new).take(Rerr::MOST) {
        fields.extend(named);
    }
    input.element = framed(Rerr::ID, &fields);
}

/// Returns the largest element of each type, for a table with the most rows.
pub fn largest_received(random: &mut Random) -> [Input; 4] {
    let prepares = [rann, rrep, rreq_for_20, rerr_with_25];
    prepares.map(|prepare: fn(&mut Input, &mut Random)| {
        let mut input = super::full(128, random);
        prepare(&mut input, random);
        input
    })
}
