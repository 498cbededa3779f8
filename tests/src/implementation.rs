//! The calls as values, so that a test or benchmark is written once and runs on each
//! implementation.

use crate::library::{self, Hop, Outcome, Walked};
use crate::reference::{
    Address, Emitted, Metric, Refusal, SequenceNumber, answer, breaks, calls, originate, receive,
    walk,
};

pub struct Implementation {
    pub name: &'static str,
    pub fresh: fn(&mut [u8], &[u8; 6], u32) -> u32,
    pub next_hop: fn(&[u8], u64, &[u8; 6]) -> Hop,
    pub forget: fn(&mut [u8], &[u8; 6]) -> u32,
    pub ask: Ask,
    pub announce: Originate,
    pub root_request: Originate,
    pub report_break: Break,
    pub receive: Receive,
    pub walk: Walk,
}

/// Operands: table, output, lifetime, items.
pub type Ask = fn(&mut [u8], &mut [u8], u32, &[u8]) -> Outcome;

/// Operands: table, output, flags, lifetime.
pub type Originate = fn(&mut [u8], &mut [u8], u8, u32) -> Outcome;

/// Operands: table, output, clock, neighbour.
pub type Break = fn(&mut [u8], &mut [u8], u64, &[u8; 6]) -> Outcome;

/// Operands: table, output, clock, transmitter, link metric, element.
pub type Receive = fn(&mut [u8], &mut [u8], u64, &[u8; 6], u32, &[u8]) -> Outcome;

/// Operands: tables side by side, their count, clock, start, destination.
pub type Walk = fn(&[u8], u32, u64, &[u8; 6], &[u8; 6]) -> Walked;

pub const LIBRARY: Implementation = Implementation {
    name: "library",
    fresh: library::fresh,
    next_hop: library::next_hop,
    forget: library::forget,
    ask: library::ask,
    announce: library::announce,
    root_request: library::root_request,
    report_break: library::report_break,
    receive: library::receive,
    walk: library::walk,
};

pub const REFERENCE: Implementation = Implementation {
    name: "reference",
    fresh: |table, own, number| answer(calls::fresh(table, Address(*own), SequenceNumber(number))),
    next_hop: |table, clock, destination| hop(calls::next_hop(table, clock, Address(*destination))),
    forget: |table, destination| answer(calls::forget(table, Address(*destination))),
    ask: |table, output, lifetime, items| outcome(originate::ask(table, output, lifetime, items)),
    announce: |table, output, flags, lifetime| {
        outcome(originate::announce(table, output, flags, lifetime))
    },
    root_request: |table, output, flags, lifetime| {
        outcome(originate::root_request(table, output, flags, lifetime))
    },
    report_break: |table, output, clock, neighbour| {
        outcome(breaks::report_break(
            table,
            output,
            clock,
            Address(*neighbour),
        ))
    },
    receive: |table, output, clock, transmitter, link_metric, element| {
        outcome(receive::receive(
            table,
            output,
            clock,
            Address(*transmitter),
            Metric(link_metric),
            element,
        ))
    },
    walk: |tables, count, clock, start, destination| {
        walked(walk::walk(
            tables,
            count,
            clock,
            Address(*start),
            Address(*destination),
        ))
    },
};

/// A refusal carries zeros next to its number.
fn hop(found: Result<Address, Refusal>) -> Hop {
    Hop {
        answer: answer(found),
        address: found.map_or([0; 6], |next_hop| next_hop.0),
    }
}

/// A refusal carries zeros next to its number.
fn outcome(emitted: Result<Emitted, Refusal>) -> Outcome {
    let Emitted { frames, octets } = emitted.unwrap_or_default();
    Outcome {
        answer: answer(emitted),
        frames: frames as u32,
        octets: octets as u32,
    }
}

/// A walk that answers 41 or 42 carries its hops too. A refusal carries zero.
fn walked(walked: Result<walk::Walked, Refusal>) -> Walked {
    match walked {
        Ok(walk::Walked { answer, hops }) => Walked {
            answer,
            hops: hops as u32,
        },
        Err(refusal) => Walked {
            answer: refusal,
            hops: 0,
        },
    }
}
