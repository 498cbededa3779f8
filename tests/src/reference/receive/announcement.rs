use super::path::Path;
use super::{Reception, ttl_left};
use crate::answers::BAD_ADDRESS;
use crate::reference::element::{Element, Rann};
use crate::reference::refusal::ensure;
use crate::reference::{Address, Refusal};

impl Reception<'_> {
    pub(super) fn announcement(&mut self, rann: &Rann) -> Result<(), Refusal> {
        ensure(rann.originator.is_individual(), BAD_ADDRESS)?;
        let path = path(rann).over(self.link)?;
        self.learn(&path)?;
        if let Some(ttl) = ttl_left(rann.ttl) {
            let onward = Rann {
                hop_count: path.hop_count,
                ttl,
                metric: path.metric,
                ..*rann
            };
            self.frames.emit(Address::ALL_ONES, Element::Rann(onward));
        }
        Ok(())
    }
}

fn path(rann: &Rann) -> Path {
    Path {
        end: rann.originator,
        number: rann.number,
        lifetime: rann.lifetime,
        hop_count: rann.hop_count,
        metric: rann.metric,
    }
}
