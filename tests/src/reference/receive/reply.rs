use super::path::Path;
use super::{Reception, ttl_left};
use crate::answers::{BAD_ADDRESS, BAD_LIST, LOW_TTL};
use crate::reference::Refusal;
use crate::reference::element::{Element, Rrep};
use crate::reference::refusal::ensure;

impl Reception<'_> {
    /// Dependents are forwarded unread.
    pub(super) fn reply(&mut self, rrep: &Rrep) -> Result<(), Refusal> {
        let individual = rrep.destination.is_individual() && rrep.source.is_individual();
        ensure(individual, BAD_ADDRESS)?;
        ensure(rrep.destination != rrep.source, BAD_LIST)?;
        let path = path(rrep).over(self.link)?;
        let ttl = ttl_left(rrep.ttl).ok_or(LOW_TTL)?;
        self.learn(&path)?;
        // No row has the own address, so this point does not forward a reply whose source it is.
        if let Some(next_hop) = self.next_hop(rrep.source) {
            let onward = Rrep {
                hop_count: path.hop_count,
                ttl,
                metric: path.metric,
                ..*rrep
            };
            self.frames.emit(next_hop, Element::Rrep(onward));
        }
        Ok(())
    }
}

fn path(rrep: &Rrep) -> Path {
    Path {
        end: rrep.destination,
        number: rrep.number,
        lifetime: rrep.lifetime,
        hop_count: rrep.hop_count,
        metric: rrep.metric,
    }
}
