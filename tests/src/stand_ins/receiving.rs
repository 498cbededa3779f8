//! Wrong rules for received requests.

use super::{change_sent, marked, unmarked, with_destinations};
use crate::implementation::{Implementation, REFERENCE};
use crate::library::Outcome;
use crate::reference::element::{Destination, Element};
use crate::reference::table::Table;
use crate::reference::{Address, SequenceNumber};

/// How a wrong rule differs from the reference.
trait WrongRule {
    /// Returns what the reference takes a destination for, which has this place in its list.
    fn taken(_own: Address, _place: usize, asked: Destination) -> Destination {
        asked
    }

    /// Returns a destination as it is forwarded instead, by how it was received and by the table.
    fn forwarded(_table: &Table, _received: Destination, kept: Destination) -> Destination {
        kept
    }
}

fn receive<Rule: WrongRule>(
    table: &mut [u8],
    output: &mut [u8],
    clock: u64,
    transmitter: &[u8; 6],
    link_metric: u32,
    element: &[u8],
) -> Outcome {
    let own = table.first_chunk().copied().unwrap_or_default();
    let taken = with_destinations(element, |place, asked| {
        Rule::taken(Address(own), place, asked)
    });
    let outcome = (REFERENCE.receive)(table, output, clock, transmitter, link_metric, &taken);
    if let (Ok(Element::Rreq(received)), Some(table)) = (Element::read(element), Table::cut(table))
    {
        change_sent(output, outcome, |kept| {
            let mut received = received.destinations();
            let received = received.find(|received| received.address == kept.address);
            let received = received.expect("only received destinations are kept");
            Rule::forwarded(&table, received, kept)
        });
    }
    outcome
}

fn is_marked(destination: &Destination) -> bool {
    destination.requested().is_none()
}

fn numbered(destination: Destination, number: SequenceNumber) -> Destination {
    Destination {
        number,
        ..destination
    }
}

struct ComparedWithOwn;

impl WrongRule for ComparedWithOwn {
    fn taken(own: Address, _: usize, asked: Destination) -> Destination {
        if asked.address == own && !asked.contradicts_its_mark() {
            unmarked(asked)
        } else {
            asked
        }
    }
}

pub const COMPARES_WITH_OWN_NUMBER: Implementation = Implementation {
    name: "compares a marked 0 with the own number",
    receive: receive::<ComparedWithOwn>,
    ..REFERENCE
};

struct ComparedWithRow;

impl WrongRule for ComparedWithRow {
    fn taken(own: Address, _: usize, asked: Destination) -> Destination {
        if asked.address != own && !asked.contradicts_its_mark() {
            unmarked(asked)
        } else {
            asked
        }
    }

    fn forwarded(_: &Table, received: Destination, kept: Destination) -> Destination {
        if is_marked(&received) {
            marked(kept)
        } else {
            kept
        }
    }
}

pub const COMPARES_WITH_ROW_NUMBER: Implementation = Implementation {
    name: "compares a marked 0 with the number of the row",
    receive: receive::<ComparedWithRow>,
    ..REFERENCE
};

struct Lost;

impl WrongRule for Lost {
    fn forwarded(_: &Table, _: Destination, kept: Destination) -> Destination {
        unmarked(kept)
    }
}

pub const LOSES_THE_MARK: Implementation = Implementation {
    name: "forwards no mark",
    receive: receive::<Lost>,
    ..REFERENCE
};

struct LostWithDo;

impl WrongRule for LostWithDo {
    fn forwarded(_: &Table, received: Destination, kept: Destination) -> Destination {
        if kept.flags == received.flags {
            kept
        } else {
            unmarked(kept)
        }
    }
}

pub const LOSES_THE_MARK_WITH_DO: Implementation = Implementation {
    name: "forwards no mark where it sets DO",
    receive: receive::<LostWithDo>,
    ..REFERENCE
};

struct FilledIn;

impl WrongRule for FilledIn {
    fn forwarded(table: &Table, _: Destination, kept: Destination) -> Destination {
        match table.known_number(kept.address) {
            Some(number) if is_marked(&kept) => numbered(unmarked(kept), number),
            _ => kept,
        }
    }
}

pub const FILLS_IN_WHAT_IT_KNOWS: Implementation = Implementation {
    name: "forwards the number that it knows instead of the mark",
    receive: receive::<FilledIn>,
    ..REFERENCE
};

/// Takes a marked number for 0, and so accepts it.
fn accepted_if(is_overlooked: bool, asked: Destination) -> Destination {
    if is_overlooked && asked.contradicts_its_mark() {
        numbered(asked, SequenceNumber(0))
    } else {
        asked
    }
}

/// Forwards a marked number as it was received.
fn as_received(received: Destination, kept: Destination) -> Destination {
    numbered(kept, received.number)
}

struct NeverJudged;

impl WrongRule for NeverJudged {
    fn taken(_: Address, _: usize, asked: Destination) -> Destination {
        accepted_if(true, asked)
    }

    fn forwarded(_: &Table, received: Destination, kept: Destination) -> Destination {
        as_received(received, kept)
    }
}

pub const ACCEPTS_A_MARKED_NUMBER: Implementation = Implementation {
    name: "accepts a marked number",
    receive: receive::<NeverJudged>,
    ..REFERENCE
};

struct FirstJudged;

impl WrongRule for FirstJudged {
    fn taken(_: Address, place: usize, asked: Destination) -> Destination {
        accepted_if(place > 0, asked)
    }

    fn forwarded(_: &Table, received: Destination, kept: Destination) -> Destination {
        as_received(received, kept)
    }
}

pub const JUDGES_THE_FIRST_MARK: Implementation = Implementation {
    name: "accepts a marked number after the first destination",
    receive: receive::<FirstJudged>,
    ..REFERENCE
};

struct OwnNotJudged;

impl WrongRule for OwnNotJudged {
    fn taken(own: Address, _: usize, asked: Destination) -> Destination {
        accepted_if(asked.address == own, asked)
    }
}

pub const ACCEPTS_A_MARKED_NUMBER_OF_ITS_OWN: Implementation = Implementation {
    name: "accepts a marked number next to the own address",
    receive: receive::<OwnNotJudged>,
    ..REFERENCE
};

struct AllOnesNotJudged;

impl WrongRule for AllOnesNotJudged {
    fn taken(_: Address, _: usize, asked: Destination) -> Destination {
        accepted_if(asked.address == Address::ALL_ONES, asked)
    }

    fn forwarded(_: &Table, received: Destination, kept: Destination) -> Destination {
        as_received(received, kept)
    }
}

pub const ACCEPTS_A_MARKED_NUMBER_OF_ALL_ONES: Implementation = Implementation {
    name: "accepts a marked number next to all ones",
    receive: receive::<AllOnesNotJudged>,
    ..REFERENCE
};
