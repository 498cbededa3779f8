//! Counters that never stand in for one another. Each is a type of its own.

#[derive(Clone, Copy, Debug, Default, PartialEq, Eq)]
pub struct SequenceNumber(pub u32);

impl SequenceNumber {
    pub fn next(self) -> SequenceNumber {
        SequenceNumber(self.0.wrapping_add(1))
    }

    pub fn is_newer_than(self, other: SequenceNumber) -> bool {
        self.ahead_of(other) > 0
    }

    /// Numbers half the circle apart are each older than the other.
    pub fn is_older_than(self, other: SequenceNumber) -> bool {
        self.ahead_of(other) < 0
    }

    fn ahead_of(self, other: SequenceNumber) -> i32 {
        self.0.wrapping_sub(other.0) as i32
    }
}

#[derive(Clone, Copy, Debug, Default, PartialEq, Eq)]
pub struct RequestId(pub u32);

impl RequestId {
    pub fn next(self) -> RequestId {
        RequestId(self.0.wrapping_add(1))
    }
}

#[derive(Clone, Copy, Debug, Default, PartialEq, Eq, PartialOrd, Ord)]
pub struct Metric(pub u32);

impl Metric {
    /// No path has this metric. It marks a row whose path is known to be lost.
    pub const MAX: Metric = Metric(u32::MAX);

    /// Returns the metric of a path that is longer by a link, or None if it is too large for a
    /// path.
    pub fn over(self, link: Metric) -> Option<Metric> {
        let sum = self.0.checked_add(link.0).map(Metric);
        sum.filter(|&sum| sum != Metric::MAX)
    }
}

#[derive(Clone, Copy, Debug, Default, PartialEq, Eq)]
pub struct HopCount(pub u8);

impl HopCount {
    /// Returns None after 255.
    pub fn next(self) -> Option<HopCount> {
        self.0.checked_add(1).map(HopCount)
    }
}
