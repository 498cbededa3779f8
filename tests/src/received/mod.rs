//! Random elements that suit a table, with the way they come in. They lie near the rows' numbers,
//! metrics and expiries, come from the rows' neighbours, and are about the rows' destinations.

mod known;
mod lists;
mod path;

use std::mem;

use crate::elements;
use crate::random::Random;
use crate::tables;

use known::Known;
use path::Path;

/// An element, and how it comes in.
#[derive(Clone, Debug)]
pub struct Received {
    pub clock: u64,
    pub transmitter: [u8; 6],
    pub link_metric: u32,
    pub element: Vec<u8>,
}

/// Returns an element that the table may well accept, though its state may still refuse it.
pub fn suited(table: &[u8], random: &mut Random) -> Received {
    let known = Known::of(table);
    let transmitter = known.some_transmitter(random);
    let mut received = Received {
        clock: known.some_clock(random),
        transmitter,
        link_metric: known.some_link_metric(transmitter, random),
        element: Vec::new(),
    };
    received.element = match random.below(8) {
        0 => rann(&known, &received, random),
        1..4 => rreq(&known, &received, random),
        4..6 => rrep(&known, &received, random),
        _ => rerr(&known, &received, random),
    };
    received
}

/// Returns an element that suits the table except for one fault or some other damage.
pub fn faulty(table: &[u8], random: &mut Random) -> Received {
    let mut received = suited(table, random);
    spoil(&mut received, table, random);
    received
}

/// Puts one fault or some other damage into what a point with this table will receive.
pub fn spoil(received: &mut Received, table: &[u8], random: &mut Random) {
    let own = Known::of(table).head.own.0;
    match random.below(16) {
        0 => received.clock = tables::some_clock(table, random),
        1 => received.transmitter = tables::not_individual(random).0,
        2 => received.transmitter = tables::some_destination(table, random),
        3 => received.link_metric = random.pick(&[0, 0, u32::MAX, u32::MAX - 1]),
        4..7 => path::spoil(&mut received.element, own, random),
        7..11 => lists::spoil(&mut received.element, own, random),
        11..14 => received.element = elements::damaged(mem::take(&mut received.element), random),
        _ => received.element = elements::any(random),
    }
}

fn rann(known: &Known, received: &Received, random: &mut Random) -> Vec<u8> {
    let path = Path::draw(known, received, random);
    let fixed = [&path.head(random.octet(), random)[..], &path.body()];
    elements::framed(126, &fixed.concat())
}

fn rreq(known: &Known, received: &Received, random: &mut Random) -> Vec<u8> {
    let path = Path::draw(known, received, random);
    let list = lists::destinations(known, received.transmitter, path.end, random);
    let fixed = [
        &path.head(lists::request_flags(&list, random), random)[..],
        &random.octets::<4>(),
        &path.body(),
        &[list.len() as u8],
        &list.concat(),
    ];
    elements::framed(130, &fixed.concat())
}

fn rrep(known: &Known, received: &Received, random: &mut Random) -> Vec<u8> {
    let path = Path::draw(known, received, random);
    let source = loop {
        let source = known.some_source(received.transmitter, random);
        if source != path.end {
            break source;
        }
    };
    let dependents = random.below(23);
    let mut fixed = [
        &path.head(random.octet(), random)[..],
        &path.body(),
        &source,
        &random.octets::<4>(),
        &[dependents as u8],
    ]
    .concat();
    // A reply with TTL 0 or 1 is always refused.
    fixed[2] = fixed[2].max(random.pick(&[1, 2, 2, 2, 2, 2, 2, 2]));
    // Dependents are forwarded unread, so any octets will do, also addresses that are not
    // individual.
    fixed.extend((0..10 * dependents).map(|_| random.octet()));
    elements::framed(131, &fixed)
}

fn rerr(known: &Known, received: &Received, random: &mut Random) -> Vec<u8> {
    let list = lists::errors(known, received.transmitter, random);
    let fixed = [&[random.octet(), list.len() as u8][..], &list.concat()];
    elements::framed(132, &fixed.concat())
}
