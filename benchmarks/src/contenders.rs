//! The implementations that are compared, each once as it is timed and once with its calls counted.

use std::hint::black_box;

use hwmp_tests::implementation::{self, Implementation};

use crate::instructions::counting;
use crate::same_method;

pub struct Contender {
    pub timed: Implementation,
    pub counted: Implementation,
}

/// Makes each call through a pointer that the compiler cannot see through, so that it moves none of
/// the call out of the bracket.
macro_rules! contender {
    ($by:path) => {
        Contender {
            timed: $by,
            counted: Implementation {
                name: $by.name,
                fresh: |table, own, number| counting(|| black_box($by.fresh)(table, own, number)),
                next_hop: |table, clock, destination| {
                    counting(|| black_box($by.next_hop)(table, clock, destination))
                },
                forget: |table, destination| counting(|| black_box($by.forget)(table, destination)),
                ask: |table, output, lifetime, items| {
                    counting(|| black_box($by.ask)(table, output, lifetime, items))
                },
                announce: |table, output, flags, lifetime| {
                    counting(|| black_box($by.announce)(table, output, flags, lifetime))
                },
                root_request: |table, output, flags, lifetime| {
                    counting(|| black_box($by.root_request)(table, output, flags, lifetime))
                },
                report_break: |table, output, clock, neighbour| {
                    counting(|| black_box($by.report_break)(table, output, clock, neighbour))
                },
                receive: |table, output, clock, transmitter, link, element| {
                    let receive =
                        || black_box($by.receive)(table, output, clock, transmitter, link, element);
                    counting(receive)
                },
                walk: |tables, count, clock, start, destination| {
                    counting(|| black_box($by.walk)(tables, count, clock, start, destination))
                },
            },
        }
    };
}

pub const LIBRARY: Contender = contender!(implementation::LIBRARY);
pub const REFERENCE: Contender = contender!(implementation::REFERENCE);
pub const SAME_METHOD: Contender = contender!(same_method::SAME_METHOD);
