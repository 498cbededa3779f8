//! Receiving an element: docs/PROTOCOL.md, 'Receiving', and 'Errors and breaks' for a RERR. Each
//! type makes its own checks in the order of 'Refusals', lowest number first, and writes only after
//! the last check.

mod announcement;
mod error;
mod learn;
mod path;
mod reply;
mod request;

use super::element::Element;
use super::frames::{Emitted, Frames};
use super::refusal::ensure;
use super::table::Table;
use super::{Address, Metric, Refusal, checks};
use crate::answers::NO_LINK;

/// What is lent to the call, and how the element came in.
struct Reception<'a> {
    octets: &'a mut [u8],
    frames: Frames<'a>,
    clock: u64,
    transmitter: Address,
    link: Metric,
}

pub fn receive(
    octets: &mut [u8],
    output: &mut [u8],
    clock: u64,
    transmitter: Address,
    link: Metric,
    element: &[u8],
) -> Result<Emitted, Refusal> {
    checks::table_length(octets)?;
    let frames = Frames::start(output)?;
    checks::clock(clock)?;
    checks::neighbour(transmitter)?;
    ensure(link > Metric(0), NO_LINK)?;
    let mut reception = Reception {
        octets,
        frames,
        clock,
        transmitter,
        link,
    };
    match Element::read(element)? {
        Element::Rann(rann) => reception.announcement(&rann)?,
        Element::Rreq(rreq) => reception.request(&rreq)?,
        Element::Rrep(rrep) => reception.reply(&rrep)?,
        Element::Rerr(rerr) => reception.error(&rerr)?,
    }
    Ok(reception.frames.emitted())
}

impl Reception<'_> {
    /// Returns the table as it is now.
    fn table(&self) -> Table<'_> {
        Table::cut(self.octets).expect("its length was checked first")
    }

    /// Returns the next hop to a destination whose row is active now.
    fn next_hop(&self, destination: Address) -> Option<Address> {
        let row = self.table().active_row_for(destination, self.clock);
        row.map(|(_, row)| row.next_hop)
    }
}

/// Returns the TTL of the forwarded element, or None if it may not be forwarded.
fn ttl_left(ttl: u8) -> Option<u8> {
    (ttl >= 2).then(|| ttl - 1)
}
