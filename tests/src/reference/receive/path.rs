use crate::answers::{METRIC_TOO_LARGE, TOO_MANY_HOPS};
use crate::reference::{Address, HopCount, Metric, Refusal, SequenceNumber, checks};

/// The path that an element tells of: to the originator of a RANN or a RREQ, to the destination of
/// a RREP.
#[derive(Clone, Copy)]
pub(super) struct Path {
    pub end: Address,
    pub number: SequenceNumber,
    pub lifetime: u32,
    pub hop_count: HopCount,
    pub metric: Metric,
}

impl Path {
    /// Returns the path as seen from this point, one link longer. The row and the forwarded element
    /// get this path.
    pub fn over(self, link: Metric) -> Result<Path, Refusal> {
        checks::lifetime(self.lifetime)?;
        let hop_count = self.hop_count.next().ok_or(TOO_MANY_HOPS)?;
        let metric = self.metric.over(link).ok_or(METRIC_TOO_LARGE)?;
        Ok(Path {
            hop_count,
            metric,
            ..self
        })
    }
}
