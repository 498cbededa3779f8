use super::path::Path;
use super::{Reception, ttl_left};
use crate::answers::{BAD_ADDRESS, BAD_LIST};
use crate::reference::element::list::{Entries, has_twice};
use crate::reference::element::{Destination, Element, Rrep, Rreq};
use crate::reference::originate::TTL;
use crate::reference::refusal::ensure;
use crate::reference::table::{Head, Row, write_head};
use crate::reference::{Address, HopCount, Metric, Refusal, SequenceNumber};

/// The destinations with which a request is forwarded.
type Kept = Entries<{ Destination::OCTETS }, { Rreq::MOST }>;

impl Reception<'_> {
    pub(super) fn request(&mut self, rreq: &Rreq) -> Result<(), Refusal> {
        ensure(has_fit_addresses(rreq), BAD_ADDRESS)?;
        ensure(has_fit_list(rreq), BAD_LIST)?;
        let path = path(rreq).over(self.link)?;
        let mut head = self.learn(&path)?;
        let mut kept = Kept::new();
        for destination in rreq.destinations() {
            if let Some(destination) = self.answer(rreq, &mut head, destination) {
                kept.push(destination.encode());
            }
        }
        write_head(self.octets, &head);
        self.request_onward(rreq, &path, kept.as_slice());
        Ok(())
    }

    /// Replies for a destination if this point can, and returns the destination as it is kept, or
    /// None if it is struck out.
    fn answer(
        &mut self,
        rreq: &Rreq,
        head: &mut Head,
        destination: Destination,
    ) -> Option<Destination> {
        if destination.address == head.own {
            if let Some(requested) = destination.requested()
                && requested.is_newer_than(head.number)
            {
                head.number = requested;
            }
            self.reply_for_oneself(rreq, head);
            None
        } else if destination.address == Address::ALL_ONES {
            if rreq.flags & Rreq::REPLY_WANTED != 0 {
                self.reply_for_oneself(rreq, head);
            }
            Some(destination)
        } else if let Some(row) = self.row_that_answers(&destination) {
            self.reply_for_row(rreq, &row);
            after_reply(destination)
        } else {
            Some(destination)
        }
    }

    /// Each reply takes a number of its own.
    fn reply_for_oneself(&mut self, rreq: &Rreq, head: &mut Head) {
        *head = head.numbered();
        self.emit_reply(rreq, head.own, head.number, HopCount(0), Metric(0));
    }

    fn reply_for_row(&mut self, rreq: &Rreq, row: &Row) {
        self.emit_reply(rreq, row.destination, row.number, row.hop_count, row.metric);
    }

    fn emit_reply(
        &mut self,
        rreq: &Rreq,
        destination: Address,
        number: SequenceNumber,
        hop_count: HopCount,
        metric: Metric,
    ) {
        let reply = Rrep {
            flags: 0,
            hop_count,
            ttl: TTL,
            destination,
            number,
            lifetime: rreq.lifetime,
            metric,
            source: rreq.originator,
            source_number: rreq.number,
            dependents: &[],
        };
        self.frames.emit(self.transmitter, Element::Rrep(reply));
    }

    /// Returns the row from which this point replies for another point, unless only the destination
    /// itself may reply. Rows are those after steps 1 and 2, so the transmitter's row may just have
    /// been made. To a point that knows no number, any known number is fresh.
    fn row_that_answers(&self, destination: &Destination) -> Option<Row> {
        if destination.flags & Destination::DO != 0 {
            return None;
        }
        let (_, row) = self
            .table()
            .active_row_for(destination.address, self.clock)?;
        let is_fresh = |requested| !row.number.is_older_than(requested);
        let answers = row.has_known_number() && destination.requested().is_none_or(is_fresh);
        answers.then_some(row)
    }

    fn request_onward(&mut self, rreq: &Rreq, path: &Path, kept: &[[u8; Destination::OCTETS]]) {
        if let Some(ttl) = ttl_left(rreq.ttl)
            && let Some(to) = self.receiver(rreq, kept)
        {
            let onward = Rreq {
                hop_count: path.hop_count,
                ttl,
                metric: path.metric,
                destinations: kept,
                ..*rreq
            };
            self.frames.emit(to, Element::Rreq(onward));
        }
    }

    /// Returns the receiver of a request with these destinations, or None if it is not forwarded.
    fn receiver(&self, rreq: &Rreq, kept: &[[u8; Destination::OCTETS]]) -> Option<Address> {
        let first = Destination::decode(kept.first()?);
        if is_unicast(rreq) {
            self.next_hop(first.address)
        } else {
            Some(Address::ALL_ONES)
        }
    }
}

fn path(rreq: &Rreq) -> Path {
    Path {
        end: rreq.originator,
        number: rreq.number,
        lifetime: rreq.lifetime,
        hop_count: rreq.hop_count,
        metric: rreq.metric,
    }
}

fn is_unicast(rreq: &Rreq) -> bool {
    rreq.flags & Rreq::UNICAST != 0
}

fn addresses(rreq: &Rreq) -> impl Iterator<Item = Address> + Clone {
    rreq.destinations().map(|destination| destination.address)
}

fn has_fit_addresses(rreq: &Rreq) -> bool {
    let fits = |address: Address| address.is_individual() || address == Address::ALL_ONES;
    rreq.originator.is_individual() && addresses(rreq).all(fits)
}

/// Refusal 10 for a request. All ones must stand alone. The destination of a unicast request must
/// stand alone and must not be all ones. A marked destination must have number 0, also where its
/// number would not be read.
fn has_fit_list(rreq: &Rreq) -> bool {
    let alone = rreq.destinations.len() == 1;
    let all_ones = addresses(rreq).any(|address| address == Address::ALL_ONES);
    let itself = addresses(rreq).any(|address| address == rreq.originator);
    let contradiction = rreq.destinations().any(Destination::contradicts_its_mark);
    (alone || !all_ones)
        && (!is_unicast(rreq) || alone && !all_ones)
        && !itself
        && !has_twice(addresses(rreq))
        && !contradiction
}

/// A destination for which a point on the way replied is kept only if it has RF. It is then kept
/// with DO, so that only the destination itself replies. Mark and number stay: the point does not
/// fill in the number of its row.
fn after_reply(destination: Destination) -> Option<Destination> {
    let goes_on = destination.flags & Destination::RF != 0;
    goes_on.then_some(Destination {
        flags: destination.flags | Destination::DO,
        ..destination
    })
}
