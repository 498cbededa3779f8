//! Wrong rules for asks and root requests.

use super::{change_sent, marked, unmarked};
use crate::implementation::{Implementation, REFERENCE};
use crate::reference::SequenceNumber;
use crate::reference::table::Table;

pub const MARKS_A_KNOWN_0: Implementation = Implementation {
    name: "marks a known 0",
    ask: |table, output, lifetime, items| {
        let outcome = (REFERENCE.ask)(table, output, lifetime, items);
        change_sent(output, outcome, |asked| match asked.number {
            SequenceNumber(0) => marked(asked),
            _ => asked,
        });
        outcome
    },
    ..REFERENCE
};

pub const MARKS_NO_ROW: Implementation = Implementation {
    name: "marks only a destination without a row",
    ask: |table, output, lifetime, items| {
        let outcome = (REFERENCE.ask)(table, output, lifetime, items);
        if let Some(table) = Table::cut(table) {
            change_sent(output, outcome, |asked| {
                match table.row_for(asked.address) {
                    Some(_) => unmarked(asked),
                    None => asked,
                }
            });
        }
        outcome
    },
    ..REFERENCE
};

pub const MARKS_NO_ROOT_REQUEST: Implementation = Implementation {
    name: "marks no root request",
    root_request: |table, output, flags, lifetime| {
        let outcome = (REFERENCE.root_request)(table, output, flags, lifetime);
        change_sent(output, outcome, unmarked);
        outcome
    },
    ..REFERENCE
};
