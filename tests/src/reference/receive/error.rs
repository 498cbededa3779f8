use super::Reception;
use crate::answers::{BAD_ADDRESS, BAD_LIST, NO_MATCH};
use crate::reference::element::list::{Entries, has_twice};
use crate::reference::element::{Element, NumberedAddress, Rerr};
use crate::reference::refusal::ensure;
use crate::reference::table::{Row, write_head, write_row};
use crate::reference::{Address, Refusal, checks};

impl Reception<'_> {
    /// A RERR has no lifetime, hop count or metric to judge, and makes no row.
    pub(super) fn error(&mut self, rerr: &Rerr) -> Result<(), Refusal> {
        let addresses = rerr.destinations().map(|entry| entry.address);
        let individual = addresses.clone().all(Address::is_individual);
        ensure(individual, BAD_ADDRESS)?;
        ensure(!has_twice(addresses), BAD_LIST)?;
        let head = checks::head_at(self.clock, self.transmitter, &self.table())?;
        let has_match = |entry: NumberedAddress| self.match_for(entry.address).is_some();
        ensure(rerr.destinations().any(has_match), NO_MATCH)?;
        let mut hit = Entries::<{ NumberedAddress::OCTETS }, { Rerr::MOST }>::new();
        for entry in rerr.destinations() {
            if let Some((place, row)) = self.match_for(entry.address) {
                write_row(self.octets, place, &after_error(row, &entry));
                hit.push(entry.encode());
            }
        }
        write_head(self.octets, &head);
        let onward = Rerr {
            destinations: hit.as_slice(),
            ..*rerr
        };
        self.frames.emit(Address::ALL_ONES, Element::Rerr(onward));
        Ok(())
    }

    /// Returns the match of a destination: its row, if that is active, of known number and through
    /// the transmitter. A RERR does not concern a path through another neighbour.
    fn match_for(&self, destination: Address) -> Option<(usize, Row)> {
        self.table()
            .active_row_for(destination, self.clock)
            .filter(|(_, row)| row.has_known_number() && row.next_hop == self.transmitter)
    }
}

/// An older or equal number invalidates the row too, and leaves its number.
fn after_error(row: Row, entry: &NumberedAddress) -> Row {
    if entry.number.is_newer_than(row.number) {
        row.invalidated().raised(entry.number)
    } else {
        row.invalidated()
    }
}
